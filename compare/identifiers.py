#!/usr/bin/env python3
"""Compares the identifiers of random keys and windows with OpenSSL's AES and curve, over the C boundary.

usage: identifiers.py LIBRARY.so [COUNT [SEED]]

LIBRARY.so exports the calls of include/tag.h. COUNT (default 1000) units are made, each with an identity key, a second, a battery level and a
protection of its own; the frame that each shows is held to the one worked out here: r' by AES-256 over the rules' table 10, r = r' mod n and x of
r times G by OpenSSL, the flags byte by hashlib. Some are asked again in the last second of the window and in the next. Prints counts, and the
first difference; exit status 1 on a difference.
"""
import ctypes, hashlib, pathlib, random, re, subprocess, sys

HERE = pathlib.Path(__file__).parent
sys.path.append(str(HERE / "curves"))
from openssl import Curve

library = ctypes.CDLL(sys.argv[1])
count = int(sys.argv[2]) if len(sys.argv) > 2 else 1000
rng = random.Random(int(sys.argv[3]) if len(sys.argv) > 3 else 7)
macros = dict(re.findall(r"^#define (TAG_\w+) (\([^/\n]*\)|\w+)", (HERE / "../include/tag.h").read_text(), re.M))
curve = Curve(0, "secp160r1", 20)


def place(name):
    return eval(re.sub(r"TAG_\w+", lambda m: str(place(m[0])), macros[name]))


def slices(*buffers):
    return [x for b in buffers for x in (b, ctypes.c_uint64(len(b)))]


def unit(key, seconds, battery, protection):
    """The record of a unit with an owner, this identity key, second, battery level and protection."""
    record = (ctypes.c_uint8 * place("TAG_RECORD_SIZE"))()
    library.tag_new(*slices(record), -20, 0, 0)
    library.tag_account_key(*slices(record, bytes(16)))
    for name, value in (("TAG_OWNER_KIND_AT", b"\x01"), ("TAG_IDENTITY_HELD_AT", b"\x01"), ("TAG_IDENTITY_BYTES_AT", key), ("TAG_BATTERY_AT", bytes([battery])),
                        ("TAG_CLOCK_SECONDS_AT", seconds.to_bytes(4, "big")), ("TAG_PROTECTION_AT", bytes([protection]))):
        record[place(name):place(name) + len(value)] = list(value)
    return record


def frame(record):
    answer = (ctypes.c_uint8 * place("TAG_ANSWER_ROOM"))()
    library.tag_frame.restype = ctypes.c_uint64
    return bytes(answer[:library.tag_frame(*slices(record, answer))])


def expected(key, seconds, battery, protection):
    tail = b"\x0a" + (seconds >> 10 << 10).to_bytes(4, "big")
    table = b"\xff" * 11 + tail + bytes(11) + tail
    blocks = subprocess.run(["openssl", "enc", "-aes-256-ecb", "-nopad", "-K", key.hex()], input=table, stdout=subprocess.PIPE, check=True).stdout
    r = int.from_bytes(blocks, "big") % curve.order
    flags = battery * 2 + (protection > 0)
    body = bytes([0x16, 0xAA, 0xFE, 0x40 + (protection > 0)]) + curve.times_base(r).to_bytes(20, "big")
    if flags:
        body += bytes([flags ^ hashlib.sha256((r % 2**160).to_bytes(20, "big")).digest()[31]])
    return bytes([2, 1, 6, len(body)]) + body


compared = 0
for number in range(count):
    key, seconds, battery, protection = rng.randbytes(32), rng.getrandbits(32), rng.randrange(4), rng.randrange(3)
    for second in (seconds, seconds | 1023, ((seconds | 1023) + 1) % 2**32) if number % 20 == 0 else (seconds,):
        got, want = frame(unit(key, second, battery, protection)), expected(key, second, battery, protection)
        if got != want:
            sys.exit(f"DIFFERENCE: key {key.hex()}, second {second}, battery {battery}, protection {protection}\n got {got.hex()}\n want {want.hex()}")
        compared += 1
print(f"no difference: {compared} frames of {count} keys")
