#!/usr/bin/env bash
# Compares the proved hash, MAC and block cipher with Python's hashlib and hmac and with OpenSSL. Usage: primitives.sh [COUNT]
set -eu
cd "$(dirname "$0")/.."
tools/archive.sh > /dev/null
mkdir -p target/compare
gcc -shared -o target/compare/libtag.so -Wl,--whole-archive target/staticlib/libfirmware.a -Wl,--no-whole-archive
python3 compare/primitives.py target/compare/libtag.so "${1:-1000}"
