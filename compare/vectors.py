#!/usr/bin/env python3
"""Holds crates/vectors/stdout to independent programs: Python's hashlib and hmac, and OpenSSL's library.

usage: vectors.py [--write]

Reads the inputs of each row from the sources of crates/vectors and computes what the row must be. Prints the number of lines, and the first difference; exit
status 1 on a difference. With --write the rows that stood in no publisher's words at hand, the checkpoints of the Monte Carlo tests and the sizes at the
edges, are written anew; the publishers' rows must stand already.
"""
import ast, ctypes, ctypes.util, hashlib, hmac, pathlib, re, sys

CRATE = pathlib.Path(__file__).resolve().parent.parent / "crates/vectors"
SEQUENCE = bytes(i % 251 for i in range(65536))
LONGEST = 65535
# Checkpoints as NIST has them, by the first bytes of the seed or key: those of count 0 and 99.
CHECKPOINTS = {
    "6d1e72ad": {0: "e93c330ae5447738c8aa85d71a6c80f2a58381d05872d26bdd39f1fcd4f2b788"},
    "139a3542": {0: "d7c3ffac9031238650901e157364c386", 99: "fb2649694783b551eacd9d5db6126d47"},
    "0c60e7bf": {99: "d1d2bfdc58ffcad2341b095bce55221e"},
    "f9e8389f": {0: "6893ebaf0a1fccc704326529fdfb60db", 99: "c5d2cb3d5b7ff0e23e308967ee074825"},
}
crypto = ctypes.CDLL(ctypes.util.find_library("crypto"))
for function in ("EVP_CIPHER_CTX_new", "EVP_aes_128_ecb", "EVP_aes_256_ecb"):
    getattr(crypto, function).restype = ctypes.c_void_p


def sha256(message):
    return hashlib.sha256(message).digest()


def mac(key, message):
    return hmac.new(key, message, "sha256").digest()


def cipher(key, forward=True):
    """OpenSSL's cipher of one block under a key, or its inverse."""
    kind = {16: crypto.EVP_aes_128_ecb, 32: crypto.EVP_aes_256_ecb}[len(key)]()
    context = ctypes.c_void_p(crypto.EVP_CIPHER_CTX_new())
    if not crypto.EVP_CipherInit_ex(context, ctypes.c_void_p(kind), None, key, None, int(forward)):
        sys.exit("OpenSSL takes no key")
    crypto.EVP_CIPHER_CTX_set_padding(context, 0)
    written, block = ctypes.c_int(), ctypes.create_string_buffer(32)

    def of(given):
        crypto.EVP_CipherUpdate(context, block, ctypes.byref(written), given, 16)
        return block.raw[:16]

    return of


def ones(count, size):
    return ((1 << count) - 1 << 8 * size - count).to_bytes(size, "big")


class Source:
    """A file of the crate, as a list of calls for each function."""

    def __init__(self, name):
        self.text = (CRATE / f"src/{name}.rt").read_text()
        self.functions = {}
        for name, body in re.findall(r"^(?:pub )?fn (\w+)\([^)]*\)[^{]*\{\n(.*?)^\}", self.text, re.M | re.S):
            calls = re.findall(r"^    ([\w:]+)\(((?:[^\"()]|\"(?:[^\"\\]|\\.)*\")*)\)(?:\??;)?$", body, re.M)
            self.functions[name] = [(called, re.sub(r"^\s*rt\b,?\s*", "", given).rstrip(" \n,")) for called, given in calls]

    def calls(self, name="run"):
        """The calls that a function makes in order, those without arguments followed into."""
        for called, arguments in self.functions[name]:
            if not arguments.strip() and called in self.functions:
                yield from self.calls(called)
            else:
                yield called, [self.value(a) for a in re.findall(r"b\"(?:[^\"\\]|\\.)*\"|&\[[^\]]*\]|[\w:&]+", arguments)]

    def value(self, text):
        if text.startswith('b"'):
            return ast.literal_eval(text)
        if repeated := re.fullmatch(r"&\[(\w+?)(?:u8)?; (\d+)\]|&\[b'(.)'; (\d+)\]", text):
            byte, count, letter, letters = repeated.groups()
            return bytes([ord(letter)]) * int(letters) if letter else bytes([int(byte, 0)]) * int(count)
        return int(text) if text.isdigit() else text

    def heading(self, function):
        return self.value(self.functions[function][0][1].strip()).decode().rstrip()


def of_hashes():
    for called, given in Source("sha256_and_hmac").calls():
        if called == "print::text":
            yield given[0].decode().rstrip()
        elif called == "hashes":
            yield given[0].decode() + sha256(given[1]).hex()
        else:
            tag = mac(given[1], given[2])
            yield given[0].decode() + (tag[:16] if called == "authenticates_half" else tag).hex()


def of_shavs():
    source = Source("shavs")
    yield source.heading("short_messages")
    for _, (size, until, rest) in list(source.calls("short_messages"))[1:]:
        for size in range(size, until):
            yield f"{size} {sha256(rest[:size]).hex()}"
            rest = rest[size:]
    yield source.heading("long_message")
    for _, (name, message) in list(source.calls("long_message"))[1:]:
        yield name.decode() + sha256(message).hex()


def checked(seed, count, value):
    if CHECKPOINTS[seed.hex()[:8]].get(count, value.hex()) != value.hex():
        sys.exit(f"checkpoint {count} from {seed.hex()} is not as NIST has it: {value.hex()}")
    return value.hex()


def of_shavs_monte_carlo():
    source = Source("shavs")
    yield source.heading("monte_carlo")
    start = seed = source.value(re.search(r'let mut seed =\s+\*(b".*?");', source.text)[1])
    for count in range(100):
        first = second = third = seed
        for _ in range(1000):
            first, second, third = second, third, sha256(first + second + third)
        seed = third
        yield checked(start, count, seed)


def of_aesavs_monte_carlo():
    for called, given in Source("aesavs").calls():
        if called == "print::text":
            yield given[0].decode().rstrip()
            continue
        *way, start, block = given
        key = start
        for count in range(100):
            once = cipher(key, way != ["decrypted"])
            for _ in range(1000):
                before, block = block, once(block)
            key = bytes(a ^ b for a, b in zip(key, (before + block)[-len(key):]))
            yield checked(start, count, block)


def of_pairs(file, key_size, back):
    """Each pair of a key and a block. A sequence of keys or blocks begins again where it ends."""
    sequences = {"&zeros": bytes(key_size), "&ones": b"".join(ones(i + 1, 16) for i in range(128))}
    for called, given in Source(file).calls():
        yield given[0].decode().rstrip()
        if called == "print::text" and "VarKey" in given[0].decode():
            keys, blocks = [ones(i + 1, key_size) for i in range(8 * key_size)], [bytes(16)]
        elif called == "pairs":
            keys, blocks = (sequences.get(x, x) for x in given[2:])
            keys = [keys[i:i + key_size] for i in range(0, len(keys), key_size)]
            blocks = [blocks[i:i + 16] for i in range(0, len(blocks), 16)]
        else:
            continue
        for i in range(given[1] if called == "pairs" else len(keys)):
            key, block = keys[i % len(keys)], blocks[i % len(blocks)]
            there = cipher(key)(block)
            yield there.hex() + (f" {cipher(key, False)(there).hex()}" if back else "")


def of_sizes():
    source = Source("edges")
    yield source.heading("run")
    for function, call in (("hashes", "sha256"), ("tags", "hmac")):
        for _, (_, _, key, message, room) in source.calls(function):
            yield of_size(call, key, message, room)
    for _, (_, key, *sizes) in source.calls("tags_of_parts"):
        message = b"".join(SEQUENCE[:size] for size in sizes)
        served = max(key, len(message)) <= LONGEST
        yield f"hmac-parts {key} {' '.join(map(str, sizes))} " + ending(served and mac(SEQUENCE[:key], message), 32)
    for call in ("encrypt", "decrypt"):
        for _, (_, _, key, message, room) in source.calls("blocks"):
            yield of_size(call, key, message, room)
    for _, (_, _, key, message, room) in source.calls("blocks_under_long_keys"):
        yield of_size("encrypt256", key, message, room)
    for i in range(1, 65):
        yield of_size("sha256", 0, 64 + 99 * i, 32)


def of_size(call, key, message, room):
    k, m = SEQUENCE[:key], SEQUENCE[:message]
    if call in ("sha256", "hmac"):
        served = max(key, message) <= LONGEST and room == 32
        answer = served and (mac(k, m) if call == "hmac" else sha256(m))
    else:
        served = (key, message, room) == (32 if call == "encrypt256" else 16, 16, 16)
        answer = served and cipher(k, call != "decrypt")(m)
    return f"{call} {key} {message} {room} " + ending(answer, room)


def ending(answer, room):
    return f"ok {answer.hex()}" if answer else f"07 {'ee' * room}"


def main():
    stored = CRATE / "stdout"
    old = stored.read_text().splitlines()
    hashes = [*of_hashes(), *of_shavs()]
    ciphers = [*of_pairs("aes128", 16, True), *of_pairs("aes256", 32, False)]
    rows = [*hashes, *of_shavs_monte_carlo(), *ciphers, *of_aesavs_monte_carlo(), *of_sizes()]
    if sys.argv[1:] == ["--write"]:
        if missing := [row for row in hashes + ciphers if row not in old]:
            sys.exit(f"not in {stored}: {missing[0]}")
        stored.write_text("".join(f"{row}\n" for row in rows))
        old = rows
    for number, (row, there) in enumerate(zip(rows, old), 1):
        if row != there:
            sys.exit(f"DIFFERENCE in line {number}\n computed {row}\n stored   {there}")
    if len(rows) != len(old):
        sys.exit(f"DIFFERENCE: {len(rows)} lines, {len(old)} are stored")
    print(f"no difference: {len(rows)} lines")


main()
