#!/usr/bin/env bash
# Builds the host in C and the host in Rust over the proved library, runs both, and compares what each prints with host_c/expected.txt.
# Needs the Rattle kit (rt) where the library is not built yet, a C compiler (cc, or the one that CC names) and rustc, on x86-64 Linux. Where there is
# a python3, compare/layout.py first holds the header to the definitions.
# The library is built, and with it the crate `firmware_c` proved, only where it is missing or older than a source, a definition or a proof; crates
# below that are proved already are not proved again.
set -eu
cd "$(dirname "$0")/.."
cc=${CC:-cc}
for tool in "$cc" rustc; do
    command -v "$tool" > /dev/null || { echo "run_hosts.sh: there is no $tool" >&2; exit 2; }
done
if command -v python3 > /dev/null; then
    python3 compare/layout.py
else
    echo "no python3: the header is not compared with the definitions"
fi
library=target/staticlib/libfirmware.a
if [ ! -f "$library" ] || [ -n "$(find crates.txt crates/*/src crates/*/specs crates/*/proofs -newer "$library" -type f -print -quit 2> /dev/null)" ]; then
    command -v rt > /dev/null || { echo "run_hosts.sh: $library is to be built, and there is no rt" >&2; exit 2; }
    tools/archive.sh > /dev/null
fi
out=target/hosts
mkdir -p "$out"
"$cc" -std=c11 -Wall -Wextra -O2 -Iinclude examples/host_c/main.c "$library" -o "$out/host_c"
rustc --edition 2021 -O -L native=target/staticlib -l static=firmware examples/host_rust/main.rs -o "$out/host_rust"
for host in host_c host_rust; do
    "$out/$host" "$out/$host.record" > "$out/$host.txt"
    diff examples/host_c/expected.txt "$out/$host.txt"
    echo "$host: as expected"
done
