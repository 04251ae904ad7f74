#!/usr/bin/env bash
# How fast the replay is, and how much memory it takes: a session file of 999,999 lines of mixed events without authentication work
# (elapsed, pairing, battery, writes of a wrong shape), replayed by target/bin/tag_replay. Build it first: tools/program.sh tag_replay
set -eu
cd "$(dirname "$0")/.."
file=$(mktemp)
trap 'rm -f "$file"' EXIT
awk 'BEGIN {
    print "power=-20"; print "components=3"; print "volume=1"; n = 3
    while (n + 9 <= 999999) {
        print "event=elapsed"; print "tenths=" (n % 7919); print "event=pairing"; print "on=" (n % 2)
        print "event=battery"; print "level=" (n % 4); print "event=write"; print "data=0908000102030405060708090a0b0c0d0e0f"
        print "reach=07"
        n += 9
    }
    while (n < 999999) { print "event=button"; n++ }
}' > "$file"
bytes=$(wc -c < "$file")
start=$(date +%s%N)
target/bin/tag_replay "$file" > /dev/null
end=$(date +%s%N)
awk -v b="$bytes" -v t="$((end - start))" 'BEGIN { printf "%d bytes, %.2f s, %.1f MB/s\n", b, t / 1e9, b / (t / 1e9) / 1e6 }'
if command -v /usr/bin/time > /dev/null; then
    /usr/bin/time -f "peak memory %M KB" target/bin/tag_replay "$file" > /dev/null
else
    target/bin/tag_replay "$file" > /dev/null & program=$!
    peak=0
    while kill -0 $program 2> /dev/null; do
        now=$(awk '/VmHWM/ { print $2 }' /proc/$program/status 2> /dev/null || true)
        [ -n "$now" ] && peak=$now
    done
    echo "peak memory $peak KB"
fi
