#!/usr/bin/env bash
# Compares a replay program with the reference.
#
#   compare/replays.sh [-n COUNT] [-s SEED] [-a] PROGRAM [ARGUMENT...]
#
#   -n COUNT   random sessions (300)
#   -s SEED    seed of the random sessions (1)
#   -a         hand each file over as a last argument; without it, on standard input
#
# PROGRAM runs over the stored sessions, the malformed inputs and the random sessions. What it
# prints is compared byte for byte with the stored answers, the hand-made answers, and what the
# reference prints. REFERENCE may name a built reference replay; without it, cargo builds one.
# LIMIT is the number of seconds for one file (60). Exit status: 0 equal, 1 a difference, 2 not run.
set -u
here=$(cd "$(dirname "$0")" && pwd)
cases=$here/../crates/replay_cases
count=300
seed=1
argument=no
while getopts n:s:a option; do
    case $option in
        n) count=$OPTARG ;;
        s) seed=$OPTARG ;;
        a) argument=yes ;;
        *) exit 2 ;;
    esac
done
shift $((OPTIND - 1))
if [ $# -eq 0 ]; then
    sed -n '2,14s/^# \{0,1\}//p' "$0"
    exit 2
fi

# A command given as one word with blanks in it is split, as a shell would.
program=("$@")
if [ $# -eq 1 ] && [ ! -e "$1" ]; then
    read -r -a program <<<"$1"
fi

reference=${REFERENCE:-$here/reference/target/release/replay}
if [ -z "${REFERENCE:-}" ]; then
    (cd "$here/reference" && cargo build --release --offline --quiet) || exit 2
fi
[ -x "$reference" ] || { echo "no reference at $reference" >&2; exit 2; }

work=$(mktemp -d) || exit 2
keep=no
trap '[ $keep = yes ] || rm -rf "$work"' EXIT
python3 "$here/sessions/make.py" malformed "$work/malformed" || exit 2
python3 "$here/sessions/make.py" random "$work/random" "$seed" "$count" || exit 2

files=0
differences=0

# compare KIND INPUT EXPECTED
compare() {
    local status
    if [ $argument = yes ]; then
        timeout "${LIMIT:-60}" "${program[@]}" "$2" >"$work/found" 2>"$work/errors" </dev/null
    else
        timeout "${LIMIT:-60}" "${program[@]}" >"$work/found" 2>"$work/errors" <"$2"
    fi
    status=$?
    files=$((files + 1))
    # 101 is a panic; from 124 on the program ran too long, could not start or was ended by a signal.
    if [ $status -ne 101 ] && [ $status -lt 124 ] && cmp -s "$work/found" "$3"; then
        return
    fi
    differences=$((differences + 1))
    bad=$((bad + 1))
    if [ $keep = no ]; then
        keep=yes
        mkdir "$work/first"
        cp "$2" "$work/first/input"
        cp "$3" "$work/first/expected"
        cp "$work/found" "$work/errors" "$work/first"
        first="$1 $(basename "$2" .txt), exit status $status"
    fi
}

# report KIND
report() {
    echo "$1: $files files, $bad different"
    files=0
    bad=0
}

# stored_answer NAME: the lines under that name in the stored answers. A name has no '=', each line of an answer has one.
stored_answer() {
    awk -v name="$1" '!/=/ { found = $0 == name } /=/ && found' "$cases/stdout"
}

bad=0
for input in "$cases"/data/sessions/*.txt; do
    stored_answer "sessions/$(basename "$input")" >"$work/expected"
    compare stored "$input" "$work/expected"
done
report stored
for input in "$work"/malformed/*.txt; do
    compare malformed "$input" "${input%.txt}.out"
done
report malformed
if [ "$count" -gt 0 ]; then
    for input in "$work"/random/*.txt; do
        "$reference" <"$input" >"$work/expected" || { echo "the reference failed on $input" >&2; keep=yes; exit 2; }
        compare random "$input" "$work/expected"
    done
fi
report "random, seed $seed"

if [ $differences -gt 0 ]; then
    echo "first difference: $first"
    cmp "$work/first/expected" "$work/first/found"
    diff -a "$work/first/expected" "$work/first/found" | head -20
    head -5 "$work/first/errors" >&2
    rm -rf "$work/malformed" "$work/random"
    echo "kept: $work/first/input, expected and found beside it"
    exit 1
fi
echo "no difference"
