#!/usr/bin/env bash
# Builds the proved core for Cortex-M chips: proves it with the installed kit, keeps the module that the kit hands to its clang, checks that nothing in it
# depends on the layout of memory, and has the same clang compile it for each CPU at -Os and at -O2.
# Usage: build.sh [--hard-float] [--aligned] [--kept] [CPU..]      (cortex-m4 and cortex-m0plus if none is named)
#   --hard-float   for images whose float ABI is hard; the core itself has no floating point
#   --aligned      no unaligned loads and stores, for chips that trap them (always so on cortex-m0 and cortex-m0plus)
#   --kept         the module that the last run kept: nothing is proved again
# Writes target/cortex-m/CPU[-hard][-aligned]-Os/libfirmware.a, and -O2. test.sh tests cortex-m4 and cortex-m0plus; the other CPUs only compile.
set -eu
here=$(cd "$(dirname "$0")" && pwd -P)
root=$(cd "$here/../.." && pwd -P)
out=$root/target/cortex-m

die() { echo "build.sh: $*" >&2; exit 2; }

need() { command -v "$1" >/dev/null || die "$1 is missing: $2"; }

# Prints the triple of a CPU.
triple_of() {
    case $1 in
    cortex-m0 | cortex-m0plus) echo thumbv6m-none-eabi ;;
    cortex-m3) echo thumbv7m-none-eabi ;;
    cortex-m4 | cortex-m7) echo thumbv7em-none-eabi ;;
    cortex-m23) echo thumbv8m.base-none-eabi ;;
    cortex-m33) echo thumbv8m.main-none-eabi ;;
    *) die "no CPU that is known: $1 (cortex-m0, m0plus, m3, m4, m7, m23, m33)" ;;
    esac
}

# A kit home of our own: links to the installed kit, but for clang, which keeps the module before the real one compiles it. rt's own scripts are
# copied: they take the folder where they stand for the kit.
make_home() { # KIT HOME
    rm -rf "$2"
    mkdir -p "$2/bin" "$2/toolchain/bin"
    find "$1" -mindepth 1 -maxdepth 1 ! -name bin ! -name toolchain -exec ln -s {} "$2/" \;
    find "$1/bin" -mindepth 1 -maxdepth 1 ! -name 'rt*' -exec ln -s {} "$2/bin/" \;
    find "$1/bin" -mindepth 1 -maxdepth 1 -name 'rt*' -exec cp -p {} "$2/bin/" \;
    find "$1/toolchain" -mindepth 1 -maxdepth 1 ! -name bin -exec ln -s {} "$2/toolchain/" \;
    find "$1/toolchain/bin" -mindepth 1 -maxdepth 1 ! -name clang -exec ln -s {} "$2/toolchain/bin/" \;
    cat >"$2/toolchain/bin/clang" <<END
#!/usr/bin/env bash
for word; do case \$word in *.bc) /bin/cp "\$word" "$out/module.bc" || exit 1 ;; esac; done
exec -a "\$0" "$1/toolchain/bin/clang" "\$@"
END
    chmod +x "$2/toolchain/bin/clang"
}

# Proves the core and writes its x86-64 archive twice, plainly and with our kit home: the two must be the same bytes.
keep_module() { # KIT
    local archive=$root/target/staticlib/libfirmware.a
    make_home "$1" "$out/home"
    rm -f "$out/module.bc"
    "$root/tools/archive.sh" >"$out/rt.log" 2>&1 || { tail -n 20 "$out/rt.log" >&2; die "tools/archive.sh failed"; }
    cp "$archive" "$out/plain.a"
    RT=$out/home/bin/rt "$root/tools/archive.sh" >"$out/rt.log" 2>&1 || { tail -n 20 "$out/rt.log" >&2; die "tools/archive.sh failed"; }
    grep -q '^logic=proved' "$out/rt.log" || die "the kit did not say that firmware_c is proved; $out/rt.log has what it said"
    [ -f "$out/module.bc" ] || die "the kit handed no module to its clang"
    cmp "$out/plain.a" "$archive" || die "the x86-64 archive is another one when its module is kept"
    "$clang" --no-default-config -x ir -S -emit-llvm -O0 -Xclang -disable-llvm-passes "$out/module.bc" -o "$out/module.ll"
}

# Compiles the kept module, or another text in its place.
compile() { # CPU LEVEL FOLDER [MODULE.ll]
    local flags=(--no-default-config "--target=$(triple_of "$1")" "-mcpu=$1" "-mfloat-abi=$float") words=()
    [ -z "$aligned" ] || flags+=(-mno-unaligned-access)
    [ "$2" != Os ] || words=(optsize)
    mkdir -p "$3"
    echo 'void empty(void) {}' | "$clang" "${flags[@]}" -S -emit-llvm -O2 -x c - -o "$3/empty.ll"
    python3 "$here/retarget.py" "${4:-$out/module.ll}" "$3/empty.ll" "${words[@]}" >"$3/module.ll"
    "$clang" "${flags[@]}" "-$2" -Werror -ffunction-sections -fdata-sections -mllvm -trap-unreachable -mllvm -no-trap-after-noreturn \
        -fstack-usage -c -x ir "$3/module.ll" -o "$3/firmware.o"
    rm -f "$3/libfirmware.a"
    "$tools/llvm-ar" --format=gnu rcsD "$3/libfirmware.a" "$3/firmware.o"
}

# Says how large it is, and refuses data of its own.
report() { # FOLDER
    local sizes
    sizes=$(arm-none-eabi-size "$1/libfirmware.a" | awk 'NR == 2 { print $1, $2 + $3 }')
    [ "${sizes#* }" = 0 ] || die "$1/libfirmware.a has data of its own"
    echo "${1#"$root"/}/libfirmware.a: ${sizes% *} bytes of code, no data; needs $(arm-none-eabi-nm -u "$1/libfirmware.a" | awk '/ U / { print $2 }' | sort -u | tr '\n' ' ')"
}

float=soft aligned='' kept='' module='' cpus=()
for word; do
    case $word in
    --hard-float) float=hard ;;
    --aligned) aligned=yes ;;
    --kept) kept=yes ;;
    --module=*) module=${word#--module=} ;; # test.sh: another text in place of the kept module, into a folder beside it
    -*) die "usage: build.sh [--hard-float] [--aligned] [--kept] [CPU..]" ;;
    *) triple_of "$word" >/dev/null && cpus+=("$word") ;;
    esac
done
[ "${#cpus[@]}" -gt 0 ] || cpus=(cortex-m4 cortex-m0plus)
need rt "it is the Rattle kit's command"
need python3 "apt-get install python3"
need arm-none-eabi-size "apt-get install gcc-arm-none-eabi"
kit=$(dirname "$(dirname "$(readlink -f "$(command -v rt)")")")
tools=$kit/toolchain/bin
clang=$tools/clang
[ -x "$clang" ] || die "no clang at $tools"
"$clang" --print-targets | grep -q '^ *thumb ' || die "the kit's clang has no ARM"
mkdir -p "$out"
[ -n "$kept$module" ] || keep_module "$kit"
[ -f "$out/module.ll" ] || die "no module was kept yet: run build.sh"
python3 "$here/layout_check.py" "${module:-$out/module.ll}" || die "the module is refused: it may mean something else on another machine"
for cpu in "${cpus[@]}"; do
    case $float:$cpu in hard:cortex-m0 | hard:cortex-m0plus | hard:cortex-m3 | hard:cortex-m23) die "$cpu has no floating point registers" ;; esac
    for level in Os O2; do
        folder=$out/$cpu$([ $float = soft ] || echo -hard)${aligned:+-aligned}-$level${module:+-$(basename "$module" .ll)}
        compile "$cpu" "$level" "$folder" "$module"
        report "$folder"
    done
done
