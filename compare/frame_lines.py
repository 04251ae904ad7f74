#!/usr/bin/env python3
"""A second reader of frames as lines of text, written from the paper's sections "Frame" and 2026-02 alone, and what it says of stored and random lines.

    compare/frame_lines.py store                    writes crates/frame_read/stdin and stdout: nothing in them comes from the proved program
    compare/frame_lines.py check PROGRAM [N] [SEED]  runs a program over the stored lines and N random ones, in random pieces of the input

It works place by place: at each the bytes that may stand there, after those before it.
"""
import pathlib
import random
import re
import subprocess
import sys

ROOT = pathlib.Path(__file__).resolve().parent.parent / "crates/frame_read"
LONGEST = 256


def may_stand(frame, place):
    """Which bytes may stand at a place of a frame, given those before it; None for any, an empty set behind its end."""
    fixed = {0: {0x02}, 1: {0x01}, 2: {0x06}, 3: {0x18, 0x19}, 4: {0x16}, 5: {0xAA}, 6: {0xFE}}
    if place in fixed:
        return fixed[place]
    flagged = frame[3] == 0x19
    if place == 7:
        return {0x40, 0x41} if flagged else {0x40}
    return None if place < (29 if flagged else 28) else set()


def first_wrong(frame):
    for place, byte in enumerate(frame):
        allowed = may_stand(frame, place)
        if allowed is not None and byte not in allowed:
            return place
    return len(frame) if len(frame) < 4 or len(frame) < (29 if frame[3] == 0x19 else 28) else None


def answer(line):
    if len(line) > LONGEST or not re.fullmatch(rb"(?:[0-9a-f]{2})*", line):
        return b"malformed\n"
    frame = bytes.fromhex(line.decode())
    place = first_wrong(frame)
    if place is not None:
        return b"refused with 8: first wrong byte at place %d\n" % place
    text = f"identifier={frame[8:28].hex()} protection={int(frame[7] == 0x41)}"
    if len(frame) == 29:
        text += f" flags={frame[28:].hex()}"
    return text.encode() + b"\n"


def answers(text):
    lines = text.split(b"\n")
    last = lines.pop()
    return b"".join(map(answer, lines)) + (answer(last) if last else b"")


def frame(kind, flags, identifier):
    """A frame of these bytes; kind is 0x40 or 0x41, flags a byte or None."""
    head = [2, 1, 6, 0x18 if flags is None else 0x19, 0x16, 0xAA, 0xFE, kind]
    return bytes(head) + identifier + (b"" if flags is None else bytes([flags]))


def stored():
    """Lines at the edges: whole frames, every kind of wrong byte, cut and too long, and lines that are no bytes."""
    one = bytes(range(0x10, 0x24))
    bare, open_, closed = frame(0x40, None, one), frame(0x40, 0x5B, one), frame(0x41, 0x00, one)
    lines = [f.hex() for f in (bare, open_, closed, frame(0x41, 0xFF, bytes(20)), frame(0x40, None, b"\xff" * 20))]
    lines += [(bare[:i] + bytes([bare[i] ^ 0x80]) + bare[i + 1:]).hex() for i in range(8)]
    lines += [bare.replace(b"\xfe\x40", b"\xfe\x41").hex(), open_.replace(b"\xfe\x40", b"\xfe\x42").hex()]
    lines += [f[:n].hex() for f, n in ((bare, 0), (bare, 3), (bare, 8), (bare, 27), (open_, 28))]
    lines += [(bare + b"\x00").hex(), (closed + b"\x00").hex(), (closed + bytes(99)).hex()]
    lines += [(b"\x03" + bare).hex(), "0", "02010", "0201GG", "0201Ab", "02 01", "00" * 128, "0" * 257, bare.hex() + "\r"]
    return "\n".join(lines).encode() + b"\n" + closed.hex().encode()


def near(chance):
    """A line near a frame: damaged in a byte, cut, lengthened or not; sometimes one that is no bytes."""
    flags = chance.choice([None, chance.randrange(256)])
    text = bytearray(frame(chance.choice([0x40, 0x41]), flags, chance.randbytes(20)))
    for _ in range(chance.choice([0, 0, 1, 1, 2])):
        text[chance.randrange(len(text))] = chance.choice([0x18, 0x19, 0x40, 0x41, chance.randrange(256)])
    text = bytes(text[:chance.randrange(40)]) if chance.random() < 0.2 else bytes(text) + chance.randbytes(chance.choice([0, 0, 0, 1, 5]))
    line = text.hex()
    if line and chance.random() < 0.05:
        at = chance.randrange(len(line))
        line = line[:at] + chance.choice("gG AF-\t") + line[at + 1:]
    return line * chance.choice([1] * 30 + [5])


def main():
    if sys.argv[1:2] == ["store"]:
        (ROOT / "stdin").write_bytes(stored())
        (ROOT / "stdout").write_bytes(answers(stored()))
        return
    if sys.argv[1:2] != ["check"] or len(sys.argv) < 3:
        sys.exit(__doc__)
    count, seed = (int(w) for w in (sys.argv[3:5] + ["20000", "1"])[:2]) if len(sys.argv) > 4 else (int((sys.argv[3:4] + ["20000"])[0]), 1)
    chance = random.Random(seed)
    text = stored() + b"\n" + "".join(near(chance) + "\n" for _ in range(count)).encode()
    program = subprocess.Popen([sys.argv[2]], stdin=subprocess.PIPE, stdout=subprocess.PIPE)
    import threading
    def pour():
        at = 0
        while at < len(text):
            size = chance.choice([1, 7, 100, 5000, 65536])
            program.stdin.write(text[at:at + size])
            program.stdin.flush()
            at += size
        program.stdin.close()
    threading.Thread(target=pour).start()
    said, wanted = program.stdout.read().split(b"\n"), answers(text).split(b"\n")
    program.wait()
    differing = [i for i, (a, b) in enumerate(zip(said, wanted)) if a != b]
    if said != wanted:
        sys.exit(f"line {differing[0] + 1 if differing else min(len(said), len(wanted)) + 1}: {len(differing)} lines differ; {len(said)} lines for {len(wanted)}")
    print(f"frame_lines: {len(wanted) - 1} lines, no difference")


main()
