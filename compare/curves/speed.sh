#!/usr/bin/env bash
# Compares the proved multiples with OpenSSL's, then measures them in one run: time and instructions beside Rust of the same algorithm without
# proofs (plain), OpenSSL's generic code without its assembly for the product (openssl_portable) and with it (openssl); stack; size of the code.
# Usage: speed.sh [COUNT]. Needs rustc, gcc, libssl-dev and valgrind.
set -eu
cd "$(dirname "$0")/../.."
count=${1:-10000}
tools/program.sh curve_vectors
out=target/compare
mkdir -p $out
rustc -O -C opt-level=3 --edition 2021 -o $out/plain compare/curves/plain.rs
gcc -O2 -Wall -Wextra -o $out/openssl compare/curves/openssl.c -lcrypto
gcc -O2 -Wall -Wextra -DPORTABLE -o $out/openssl_portable compare/curves/openssl.c -l:libcrypto.a -ldl -lpthread
objcopy --redefine-sym main=multiples target/obj/curve_vectors.o $out/multiples.o
kit=$(dirname "$(dirname "$(readlink -f "$(command -v rt)")")")
gcc -O2 -Wall -Wextra -z now -o $out/curve_stack compare/curves/stack.c $out/multiples.o "$kit/c/libos_c.a" "$kit/c/liblibc_c.a"

python3 compare/curves/compare.py target/bin/curve_vectors "$count"
python3 compare/curves/speed.py "$count" target/bin/curve_vectors $out/plain $out/openssl_portable $out/openssl
$out/curve_stack 2>&1 > /dev/null
size -A target/obj/curve_vectors.o | awk '/^\.text\.(limbs|modular|montgomery|digits|field|doubling|addition|points|curves)::/ { sum += $2 } END { print "code of limbs, modular, montgomery, digits, field, doubling, addition, points and curves:", sum, "bytes" }'
