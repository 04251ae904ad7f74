"""AES-128, both ways, and AES-256 encryption, for blocks one after another; written from FIPS 197."""


def times(a, b):
    total = 0
    while b:
        if b & 1:
            total ^= a
        a <<= 1
        if a & 0x100:
            a ^= 0x11B
        b >>= 1
    return total


def make_box():
    table = []
    for x in range(256):
        inverse = next((y for y in range(256) if times(x, y) == 1), 0)
        value = 0x63
        for turn in range(5):
            value ^= (inverse << turn | inverse >> (8 - turn)) & 0xFF
        table.append(value)
    return table


BOX = make_box()
INVERSE_BOX = [BOX.index(x) for x in range(256)]
PRODUCT = {f: [times(f, x) for x in range(256)] for f in (1, 2, 3, 9, 11, 13, 14)}


def round_keys(key):
    size = len(key) // 4
    words = [list(key[4 * i:4 * i + 4]) for i in range(size)]
    constant = 1
    for i in range(size, 4 * (size + 7)):
        word = words[-1]
        if i % size == 0:
            word = [BOX[x] for x in word[1:] + word[:1]]
            word[0] ^= constant
            constant = times(constant, 2)
        elif size == 8 and i % 8 == 4:
            word = [BOX[x] for x in word]
        words.append([x ^ y for x, y in zip(words[i - size], word)])
    return [sum(words[4 * r:4 * r + 4], []) for r in range(size + 7)]


def mixed(state, row):
    return [
        PRODUCT[row[-i % 4]][state[4 * c]]
        ^ PRODUCT[row[(1 - i) % 4]][state[4 * c + 1]]
        ^ PRODUCT[row[(2 - i) % 4]][state[4 * c + 2]]
        ^ PRODUCT[row[(3 - i) % 4]][state[4 * c + 3]]
        for c in range(4)
        for i in range(4)
    ]


def encrypt_block(key, block):
    keys = round_keys(key)
    state = [x ^ k for x, k in zip(block, keys[0])]
    for r in range(1, len(keys)):
        state = [BOX[x] for x in state]
        state = [state[(5 * i) % 16] for i in range(16)]
        if r < len(keys) - 1:
            state = mixed(state, (2, 3, 1, 1))
        state = [x ^ k for x, k in zip(state, keys[r])]
    return bytes(state)


def decrypt_block(key, block):
    keys = round_keys(key)
    state = list(block)
    for r in range(10, 0, -1):
        state = [x ^ k for x, k in zip(state, keys[r])]
        if r < 10:
            state = mixed(state, (14, 11, 13, 9))
        state = [state[(13 * i) % 16] for i in range(16)]
        state = [INVERSE_BOX[x] for x in state]
    return bytes(x ^ k for x, k in zip(state, keys[0]))


def encrypt(key, data):
    return b"".join(encrypt_block(key, data[i:i + 16]) for i in range(0, len(data), 16))


def decrypt(key, data):
    return b"".join(decrypt_block(key, data[i:i + 16]) for i in range(0, len(data), 16))


# The examples of FIPS 197.
assert encrypt_block(bytes.fromhex("2b7e151628aed2a6abf7158809cf4f3c"),
                     bytes.fromhex("3243f6a8885a308d313198a2e0370734")).hex() == "3925841d02dc09fbdc118597196a0b32"
assert decrypt_block(bytes(range(16)), bytes.fromhex("69c4e0d86a7b0430d8cdb78070b4c55a")).hex() \
    == "00112233445566778899aabbccddeeff"
assert encrypt_block(bytes(range(32)), bytes.fromhex("00112233445566778899aabbccddeeff")).hex() == "8ea2b7ca516745bfeafc49904b496089"
