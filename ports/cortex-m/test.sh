#!/usr/bin/env bash
# Tests the core for Cortex-M under QEMU: builds it (build.sh), runs the example host and some 25,000 calls of every export on a Cortex-M4 (mps2-an386) and a
# Cortex-M0 (microbit), and compares what they print with what the x86-64 archive prints. Then controls, which must be noticed, and figures.
# Usage: test.sh [--kept]      (--kept: the module that the last build.sh kept, nothing proved again)
# CALLS and SEED in the environment: how many calls (25000), and from which number they are drawn (1).
# Ends with status 0 and the line `test.sh: all as expected`, or at the first fault.
set -euo pipefail
here=$(cd "$(dirname "$0")" && pwd -P)
root=$(cd "$here/../.." && pwd -P)
test=$here/test
out=$root/target/cortex-m
runs=$out/runs
drawn=("-DCALLS=${CALLS:-25000}" "-DSEED=${SEED:-1}")

die() { echo "test.sh: $*" >&2; exit 1; }

need() { command -v "$1" >/dev/null || { echo "test.sh: $1 is missing: apt-get install $2" >&2; exit 2; }; }

# Links a program with an archive for the board of its CPU; the words are flags for the C compiler.
link() { # CPU ARCHIVE SOURCE PROGRAM [WORDS..]
    local cpu=$1 archive=$2 source=$3 program=$4 script=microbit.ld
    [ "$cpu" != cortex-m4 ] || script=mps2-an386.ld
    shift 4
    arm-none-eabi-gcc -std=gnu11 -Wall -Wextra -O2 -fno-optimize-sibling-calls "-mcpu=$cpu" -mthumb "${drawn[@]}" "$@" -nostartfiles --specs=nano.specs --specs=rdimon.specs \
        -I"$root/include" -I"$test" -L"$test" -T "$script" -Wl,--no-warn-execstack "$test/board.c" "$source" "$archive" -o "$program"
}

# Runs a program on the board of its CPU, in the folder of the runs; the words are for QEMU.
run() { # CPU PROGRAM [WORDS..]
    local cpu=$1 program=$2 board=microbit
    [ "$cpu" != cortex-m4 ] || board=mps2-an386
    shift 2
    (cd "$runs" && timeout 600 qemu-system-arm -M "$board" -nographic -monitor none -serial none -semihosting-config enable=on,target=native "$@" -kernel "$program")
}

refusals() {
    local sample wanted
    for sample in "$test"/refused/*.ll; do
        wanted=$(sed -n '1s/^; refused: //p' "$sample")
        ! python3 "$here/layout_check.py" "$sample" >"$runs/refusal.txt" || die "layout_check.py takes $sample"
        grep -qF "$wanted" "$runs/refusal.txt" || die "layout_check.py refuses $sample for another reason: $(cat "$runs/refusal.txt")"
    done
    echo "layout_check.py: $(ls "$test"/refused/*.ll | wc -l) samples refused, each for its reason"
}

on_this_machine() {
    local archive=$root/target/staticlib/libfirmware.a
    "${CC:-cc}" -std=c11 -Wall -Wextra -O2 -I"$root/include" "$root/examples/host_c/main.c" "$archive" -o "$runs/host"
    (cd "$runs" && ./host) | diff "$root/examples/host_c/expected.txt" - || die "the example host prints something else on x86-64"
    "${CC:-cc}" -std=gnu11 -Wall -Wextra -O2 "${drawn[@]}" -I"$root/include" "$test/calls.c" "$archive" -o "$runs/calls"
    "$runs/calls" >"$runs/calls.txt" || die "the calls fail on x86-64 (1: a byte around a slice was written, 2: a call, a request or a refusal never came): see $runs/calls.txt"
    diff <(nm -g --defined-only "$archive" | awk '$2 == "T" { print $3 }' | sort) <(sed -n 's/^\(tag_[a-z0-9_]*\): .*/\1/p' "$runs/calls.txt" | sort) ||
        die "test/calls.c does not call every export: add a line to its table"
    echo "x86-64: the host and $(grep -c '^[0-9]' "$runs/calls.txt") calls, of which:"
    grep -v '^[0-9]' "$runs/calls.txt" | sed 's/^/    /'
}

# The host and the calls with one archive, compared with x86-64.
on_a_board() { # CPU NAME [WORDS..]
    local cpu=$1 name=$2 archive=$out/$2/libfirmware.a
    shift 2
    link "$cpu" "$archive" "$root/examples/host_c/main.c" "$runs/$name-host.elf" "$@"
    run "$cpu" "$runs/$name-host.elf" | diff "$root/examples/host_c/expected.txt" - || die "$name: the example host prints something else than on x86-64"
    link "$cpu" "$archive" "$test/calls.c" "$runs/$name-calls.elf" "$@"
    run "$cpu" "$runs/$name-calls.elf" >"$runs/$name.txt" 2>"$runs/$name.stack" || die "$name: the calls end with status $? ($(tail -n 1 "$runs/$name.stack"))"
    cmp "$runs/calls.txt" "$runs/$name.txt" || die "$name: the calls print something else than on x86-64"
    echo "$name: the host and the calls print what they print on x86-64"
}

# One constant changed: the calls must show it.
controls() {
    local name command changed
    while read -r name command; do
        [ "$name" != "#" ] || continue
        sed "$command" "$out/module.ll" >"$runs/$name.ll"
        changed=$(diff "$out/module.ll" "$runs/$name.ll" | grep -c '^>' || true)
        [ "$changed" = 1 ] || die "control $name changes $changed lines of the module, and not one: test/controls.txt no longer fits it"
        "$here/build.sh" "--module=$runs/$name.ll" cortex-m4 >/dev/null
        link cortex-m4 "$out/cortex-m4-Os-$name/libfirmware.a" "$test/calls.c" "$runs/$name.elf"
        run cortex-m4 "$runs/$name.elf" >"$runs/$name.txt" 2>/dev/null || true
        [ "$(grep -c '^[0-9]' "$runs/$name.txt")" = "$(grep -c '^[0-9]' "$runs/calls.txt")" ] || die "control $name: the calls did not end"
        ! cmp -s "$runs/calls.txt" "$runs/$name.txt" || die "control $name: a changed constant was not noticed"
        echo "control $name: noticed, first on line $(cmp "$runs/calls.txt" "$runs/$name.txt" | awk '{ print $NF }')"
    done <"$test/controls.txt"
}

# Unaligned accesses trapped: the aligned archive must run all the same, and the plain one must not.
alignment() {
    local level
    for level in Os O2; do
        on_a_board_trapping "cortex-m4-aligned-$level" || die "cortex-m4-aligned-$level: fails where unaligned accesses are trapped"
        echo "cortex-m4-aligned-$level: the calls print what they print on x86-64, with unaligned accesses trapped"
    done
    ! on_a_board_trapping cortex-m4-Os || die "cortex-m4-Os: runs where unaligned accesses are trapped, so nothing is shown by that"
    echo "control: cortex-m4-Os faults there, as it must"
}

on_a_board_trapping() { # NAME
    link cortex-m4 "$out/$1/libfirmware.a" "$test/calls.c" "$runs/$1-trapping.elf" -DTRAP_UNALIGNED -mno-unaligned-access
    run cortex-m4 "$runs/$1-trapping.elf" >"$runs/$1-trapping.txt" 2>/dev/null && cmp -s "$runs/calls.txt" "$runs/$1-trapping.txt"
}

figures() {
    local name cpu
    for name in cortex-m4-Os cortex-m4-O2 cortex-m0plus-Os cortex-m0plus-O2; do
        cpu=${name%-*}
        echo "$name: $(arm-none-eabi-size "$out/$name/libfirmware.a" | awk 'NR == 2 { print $1 }') bytes of code; stack by the deepest chain of calls, and measured:"
        python3 "$here/stack.py" "$runs/$name-calls.elf" "$out/$name/firmware.su" "$runs/$name.stack" | awk '{ printf "    %-20s %5d %5d\n", $1, $2, $3 }'
        link "$cpu" "$out/$name/libfirmware.a" "$test/figures.c" "$runs/$name-figures.elf"
        run "$cpu" "$runs/$name-figures.elf" -icount shift=4 | sed 's/^/    instructions: /'
    done
}

# The same as the table of docs/MEASURED.md: a column for each archive; stack as chain / measured.
table() {
    awk '
        function cell(row, text) { if (!(row in cells)) order[++rows] = row; cells[row] = cells[row] " " text " |" }
        function commas(n) { return n >= 1000 ? int(n / 1000) "," sprintf("%03d", n % 1000) : n }
        /^cortex/ { sub(":", "", $1); head = head " " $1 " |"; line = line "---|"; cell("code, bytes", commas($2)) }
        /^    tag_/ { cell("stack of `" $1 "`", commas($2) " / " commas($3)) }
        /^    instructions: / { n = $NF; sub("    instructions: ", ""); sub(" [0-9]+$", ""); cell("instructions of a " $0, commas(n)) }
        END { print "| |" head; print "|---|" line; for (i = 1; i <= rows; i++) print "| " order[i] " |" cells[order[i]] }'
}

need qemu-system-arm qemu-system-arm
need arm-none-eabi-gcc gcc-arm-none-eabi
need python3 python3
need "${CC:-cc}" gcc
[ -f "$(arm-none-eabi-gcc -print-file-name=rdimon.specs)" ] || { echo "test.sh: newlib is missing: apt-get install libnewlib-arm-none-eabi" >&2; exit 2; }
case ${1:-} in '' | --kept) ;; *) die "usage: test.sh [--kept]" ;; esac
mkdir -p "$runs"
refusals
"$here/build.sh" "$@"
"$here/build.sh" --kept --hard-float cortex-m4
"$here/build.sh" --kept --aligned cortex-m4
on_this_machine
for level in Os O2; do
    on_a_board cortex-m4 "cortex-m4-$level"
    on_a_board cortex-m4 "cortex-m4-hard-$level" -mfloat-abi=hard -mfpu=fpv4-sp-d16
    on_a_board cortex-m0plus "cortex-m0plus-$level"
done
alignment
controls
figures | tee "$out/figures.txt"
table <"$out/figures.txt" >"$out/figures.md"
echo "test.sh: all as expected"
