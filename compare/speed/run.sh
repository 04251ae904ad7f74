#!/usr/bin/env bash
# Makes every figure of docs/SPEED.md again and writes them into it. Builds the proved library, the program without proofs (plain/) and the one that
# measures both (main.rs); compares their answers; measures time, instructions, stack and size of code.
# Usage: run.sh [--built] [--quick]
#   --built   takes target/staticlib/libfirmware.a as it stands
#   --quick   for a trial: three turns instead of 25, fewer answers compared; prints the figures and leaves the page as it is
# Needs rt, rustc, gcc, python3, valgrind and Debian's libssl-dev and libmbedtls-dev; the last is unpacked under target/ where it is not installed.
set -eu
cd "$(dirname "$0")/../.."
pairs=20000 turns=25 page=docs/SPEED.md built=
for word; do
    case $word in
    --built) built=1 ;;
    --quick) pairs=2000 turns=3 page= ;;
    *) sed -n '2,8s/^# //p' "$0" && exit 2 ;;
    esac
done
out=target/compare/speed
mkdir -p $out
[ $built ] || tools/archive.sh > $out/staticlib.log
mbedtls=/usr
if [ ! -e /usr/include/mbedtls/sha256.h ]; then
    mbedtls=$out/debian/usr
    [ -e $mbedtls ] || (cd $out && apt-get download libmbedtls-dev > apt.log 2>&1 && dpkg -x libmbedtls-dev_*.deb debian)
fi
lib=$(echo $mbedtls/lib/*/libmbedcrypto.a)
gcc -O2 -Wall -Wextra -I$mbedtls/include -c compare/speed/others.c -o $out/others.o
rustc --edition 2021 -C opt-level=3 -o $out/speed compare/speed/main.rs -L target/staticlib -l static=firmware \
    -C link-arg=$out/others.o -C link-arg="$lib" -C link-arg=-l:libcrypto.a
gcc -O2 -Wall -Wextra -Iinclude compare/stack.c target/staticlib/libfirmware.a -o $out/stack

export OPENSSL_ia32cap=0:0
$out/speed agree $pairs > $out/agree.txt
rm -rf $out/counts && mkdir $out/counts
valgrind --tool=callgrind --callgrind-out-file=$out/counts/out --toggle-collect=measured --dump-after=measured \
    $out/speed count > $out/counts/series.txt 2> $out/counts/log
$out/speed time $turns > $out/time.txt
$out/stack > $out/stack.txt
size -t target/staticlib/libfirmware.a > $out/size.txt
nm -S --size-sort target/staticlib/libfirmware.a > $out/symbols.txt
{
    grep -m1 'model name' /proc/cpuinfo | sed 's/.*: //'
    echo "$(nproc) cores"
    . /etc/os-release && echo "$PRETTY_NAME"
    rustc --version
    gcc --version | head -1
    openssl version
    strings "$lib" | grep -m1 -i 'mbed TLS [0-9]' || basename $out/libmbedtls-dev_*.deb
} > $out/machine.txt
python3 compare/speed/tables.py $out $page
