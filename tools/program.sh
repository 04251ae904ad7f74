#!/usr/bin/env bash
# Builds programs: proves each, with what it stands on where that is not proved yet, and writes target/bin/NAME and, before it is linked,
# target/obj/NAME.o. rt builds a program to run it, so each is run once, on an empty input and without arguments; what it says to that is not
# looked at, only whether rt built it. Usage: program.sh NAME..
set -eu
cd "$(dirname "$0")/.."
mkdir -p target/bin target/obj
said=$(mktemp)
trap 'rm -f "$said"' EXIT
for name; do
    out=crates/$name/out
    rm -f "$out/$name"
    (cd "crates/$name" && rt run) < /dev/null > /dev/null 2> "$said" || true
    [ -x "$out/$name" ] || { cat "$said" >&2; echo "program.sh: $name was not built" >&2; exit 1; }
    cp "$out/$name" target/bin/
    cp "$out/$name.o" target/obj/
done
