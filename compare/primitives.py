#!/usr/bin/env python3
"""Compares the hash, the MAC and the block cipher of the linked library with independent programs: Python's hashlib and hmac, and OpenSSL.

usage: primitives.py LIBRARY.so [COUNT]

LIBRARY.so exports tag_sha256, tag_hmac_sha256, tag_aes128_encrypt and tag_aes128_decrypt (include/tag.h), and perhaps tag_aes256_encrypt.
COUNT is the number of random cases of each kind beyond the fixed ones (default 1000). Prints counts, and the first difference; exit
status 1 on a difference.
"""
import ctypes, hashlib, hmac, random, subprocess, sys

lib = ctypes.CDLL(sys.argv[1])
count = int(sys.argv[2]) if len(sys.argv) > 2 else 1000
rng = random.Random(20)
REFUSED = 256 + 7


def call(name, parts, room, fill=0xEE):
    """One exported call: byte slices in, an answer of `room` bytes; the number it gives and the answer bytes."""
    function = getattr(lib, name)
    function.restype = ctypes.c_uint64
    answer = ctypes.create_string_buffer(bytes([fill]) * room, room) if room else ctypes.create_string_buffer(1)
    arguments = []
    for part in parts:
        arguments += [ctypes.c_char_p(bytes(part)), ctypes.c_size_t(len(part))]
    arguments += [answer, ctypes.c_size_t(room)]
    return function(*arguments), answer.raw[:room]


cases = {}


def same(kind, what, got, want):
    cases[kind] = cases.get(kind, 0) + 1
    if got != want:
        print(f"DIFFERENCE in {kind}: {what}\n got {got}\n want {want}")
        sys.exit(1)


def refused(room):
    return REFUSED, bytes([0xEE]) * room


def check_hash(message, room=32):
    want = (32, hashlib.sha256(message).digest()) if len(message) <= 65535 and room == 32 else refused(room)
    same("hash", f"{len(message)} bytes, room {room}", call("tag_sha256", [message], room), want)


def check_mac(key, message, room=32):
    right = len(key) <= 65535 and len(message) <= 65535 and room == 32
    want = (32, hmac.new(key, message, "sha256").digest()) if right else refused(room)
    same("mac", f"key {len(key)}, message {len(message)}, room {room}", call("tag_hmac_sha256", [key, message], room), want)


def openssl(key, data, *way):
    run = subprocess.run(["openssl", "enc", f"-aes-{8 * len(key)}-ecb", "-nopad", "-K", key.hex(), *way], input=data, stdout=subprocess.PIPE, check=True)
    return run.stdout


def check_blocks(key, blocks):
    there = openssl(key, b"".join(blocks))
    back = openssl(key, b"".join(blocks), "-d")
    for i, block in enumerate(blocks):
        part = slice(16 * i, 16 * i + 16)
        same("encrypt", f"key {key.hex()} block {block.hex()}", call("tag_aes128_encrypt", [key, block], 16), (16, there[part]))
        same("decrypt", f"key {key.hex()} block {block.hex()}", call("tag_aes128_decrypt", [key, block], 16), (16, back[part]))


for n in range(0, 201):
    check_hash(rng.randbytes(n))
for n in (255, 256, 1000, 4095, 65534, 65535, 65536, 70000):
    check_hash(rng.randbytes(n))
for room in (0, 1, 31, 33, 64):
    check_hash(b"abc", room)
    check_mac(b"key", b"abc", room)
for k in (0, 1, 63, 64, 65, 200, 65535, 65536):
    for n in (0, 1, 55, 56, 63, 64, 65, 200, 65535, 65536):
        check_mac(rng.randbytes(k), rng.randbytes(n))
for n in range(0, 201):
    check_mac(rng.randbytes(rng.randrange(0, 130)), rng.randbytes(n))
for _ in range(count):
    check_hash(rng.randbytes(rng.randrange(0, 2000)))
    check_mac(rng.randbytes(rng.randrange(0, 200)), rng.randbytes(rng.randrange(0, 500)))
for _ in range(max(1, count // 50)):
    check_blocks(rng.randbytes(16), [rng.randbytes(16) for _ in range(100)])
for k, b, room in ((15, 16, 16), (17, 16, 16), (0, 16, 16), (32, 16, 16), (16, 15, 16), (16, 17, 16), (16, 0, 16), (16, 16, 15), (16, 16, 17), (16, 16, 0)):
    for name in ("tag_aes128_encrypt", "tag_aes128_decrypt"):
        same("cipher refusals", f"{name} key {k}, block {b}, room {room}", call(name, [bytes(k), bytes(b)], room), refused(room))
if hasattr(lib, "tag_aes256_encrypt"):
    for _ in range(max(1, count // 50)):
        key, blocks = rng.randbytes(32), [rng.randbytes(16) for _ in range(100)]
        there = openssl(key, b"".join(blocks))
        for i, block in enumerate(blocks):
            same("encrypt 256", f"key {key.hex()} block {block.hex()}", call("tag_aes256_encrypt", [key, block], 16), (16, there[16 * i:16 * i + 16]))
    for k, b, room in ((16, 16, 16), (24, 16, 16), (31, 16, 16), (33, 16, 16), (0, 16, 16), (32, 15, 16), (32, 17, 16), (32, 0, 16), (32, 16, 15), (32, 16, 17), (32, 16, 0)):
        same("cipher 256 refusals", f"key {k}, block {b}, room {room}", call("tag_aes256_encrypt", [bytes(k), bytes(b)], room), refused(room))
print("no difference:", ", ".join(f"{kind} {n}" for kind, n in cases.items()))
