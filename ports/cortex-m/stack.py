#!/usr/bin/env python3
"""The stack of each exported call: the deepest chain of calls in the linked program, and the most that a run took. Usage: stack.py ELF SU MEASURED

SU is what the compiler says of each function of the core (-fstack-usage); of libgcc's and the C library's helpers every push and every step of
the stack pointer in their code is added up. A call through a register, a cycle, or a function whose frame is not known ends with status 1; so
does a measured figure above the chain's. MEASURED has a line `NAME BYTES` for each export. Prints a line `NAME CHAIN MEASURED` for each."""
import re
import subprocess
import sys

HEAD = re.compile(r"[0-9a-f]+ <(.+)>:$")
JUMP = re.compile(r"\s+b(?:l|lx|\.n|\.w|eq\.n|eq\.w|ne\.n|ne\.w)?\t[0-9a-f]+ <([^+>]+)>")
PUSH = re.compile(r"\s+(?:push|stmdb\s+sp!,|vpush)\s*(\{[^}]*\})")
DOWN = re.compile(r"\s+(?:sub(?:\.w|w)?\s+sp, (?:sp, )?#(\d+)|(?:str(?:d)?(?:\.w)?)\s.*\[sp, #-(\d+)\]!)")
UNKNOWN = re.compile(r"\s+(?:blx\s+r\d|add(?:\.w)?\s+sp, r|sub(?:\.w)?\s+sp, (?:sp, )?r|mov\s+sp, )")


def registers(braces, width):
    parts = [part.strip() for part in braces.strip("{}").split(",")]
    count = 0
    for part in parts:
        first, _, last = part.partition("-")
        count += int(last[1:]) - int(first[1:]) + 1 if last else 1
    return count * width


def disassembled(elf):
    """The calls of each function, what its own code takes from the stack, and whether that is all of it."""
    text = subprocess.run(["arm-none-eabi-objdump", "-d", "--no-show-raw-insn", elf], check=True, capture_output=True, text=True).stdout
    calls, frames, unknown, name = {}, {}, set(), ""
    for line in text.splitlines():
        head = HEAD.match(line)
        if head:
            name = head[1]
            calls[name], frames[name] = set(), 0
        elif ":" in line and name:
            code = line.split(":", 1)[1]
            jump, push, down = JUMP.match(code), PUSH.match(code), DOWN.match(code)
            if jump and jump[1] != name:
                calls[name].add(jump[1])
            if push:
                frames[name] += registers(push[1], 8 if "vpush" in code else 4)
            if down:
                frames[name] += int(down[1] or down[2])
            if UNKNOWN.match(code):
                unknown.add(name)
    return calls, frames, unknown


def told(path):
    with open(path) as lines:
        return {fields[0].split(".ll:", 1)[1]: int(fields[1]) for fields in (line.split("\t") for line in lines)}


def deepest(name, calls, frames, above=()):
    if name in above:
        sys.exit(f"stack: a cycle through {name}")
    if name not in frames:
        sys.exit(f"stack: the frame of {name} is not known")
    return frames[name] + max((deepest(callee, calls, frames, (*above, name)) for callee in calls[name]), default=0)


def main():
    elf, su, measured = sys.argv[1:]
    calls, frames, unknown = disassembled(elf)
    core = told(su)
    known = {name: size for name, size in frames.items() if name not in unknown} | {name: core[name] for name in core if name in calls}
    status = 0
    with open(measured) as lines:
        for name, most in (line.split() for line in lines):
            chain = deepest(name, calls, known)
            print(name, chain, most)
            if int(most) > chain:
                print(f"stack: {name} took more than its deepest chain of calls", file=sys.stderr)
                status = 1
    sys.exit(status)


if __name__ == "__main__":
    main()
