"""Random sessions, and text that is damaged."""

import random

from aes import encrypt
from model import request, sha
from session import IDENTITY_1, IDENTITY_2, KEY_A, KEY_B, KEY_C, STORED, Session


def random_session(seed):
    """A mixed session; the same for the same seed."""
    dice = random.Random(seed)
    s = Session(dice.choice((-100, -60, -20, -1, 0, 20)), dice.randrange(4), dice.randrange(2), dice.randrange(1 << 30))
    tag = s.tag
    past = []  # earlier requests, to be sent again

    def chance(of):
        return dice.random() < of

    crowd = chance(0.3)  # many account keys, which come, are used and go
    pool = [bytes(16), KEY_A, KEY_B, KEY_C] + [dice.randbytes(16) for _ in range(11 if crowd else 4)]
    # A random source that repeats: so many values, one after the other or in any order.
    values = [dice.randbytes(8) for _ in range(dice.randrange(1, 21))] if chance(0.3) else []
    in_turn = chance(0.6)
    lent = [0]

    def repeated():
        lent[0] += 1
        return values[lent[0] % len(values)] if in_turn else dice.choice(values)

    def nonce():
        if values and chance(0.6):
            s.read(repeated(), None)
        elif chance(0.05) and tag.nonces:
            s.read(dice.choice(tag.nonces), None)
        elif chance(0.06):
            s.read(dice.choice([tag.nonce or bytes(8), bytes(8), dice.randbytes(7), dice.randbytes(9), b""]), None)
        elif chance(0.94):
            s.read(dice.randbytes(8), None)

    def right_request(ident):
        nonce = tag.nonce or bytes(8)
        identity = tag.identity if tag.identity is not None else dice.choice((bytes(32), IDENTITY_1))
        owner = tag.owner or dice.choice(tag.keys or pool)
        proved = tag.waiting if tag.waiting is not None and chance(0.15) else identity
        proof = sha(proved, nonce)[:8]
        any_key = dice.choice(pool if chance(0.2) else tag.keys or pool)
        data, key = b"", any_key
        if ident == 2:
            key = owner
            fresh = identity if chance(0.1) else dice.choice((IDENTITY_1, IDENTITY_2, dice.randbytes(32)))
            data = encrypt(owner, fresh)
            if (tag.identity is not None) != chance(0.1):
                data += proof
        elif ident == 3:
            key, data = owner, proof
        elif ident == 4:
            key = sha(identity, b"\x01")[:8]
        elif ident == 5:
            key = sha(identity, b"\x02")[:8]
            if chance(0.7):
                mask = dice.choice((0xFF, dice.randrange(1 << tag.components)))
                left = dice.choice((1, 2, 5, 30, 599, 600, 6000, dice.randrange(1, 6001)))
                volume = dice.randrange(4)
            else:
                mask = dice.choice((0, 1, 2, 3, 4, 5, 7, 8, 0x80, 0xFF, 0xFE))
                left = dice.choice((0, 1, 601, 5999, 6000, 6001, 65535))
                volume = dice.choice((0, 0, 1, 2, 3, 4, 255))
            data = bytes([mask]) + left.to_bytes(2, "big") + bytes([volume])
        elif ident == 6:
            key = sha(identity, b"\x02")[:8]
        elif ident == 7:
            key = sha(identity, b"\x03")[:8]
            data = dice.choice((b"", b"\x00", b"\x01", b"\x01", b"\x01", b"\x02", b"\xff"))
        elif ident == 8:
            key, data = sha(identity, b"\x03")[:8], proof
        if ident not in (0, 1) and chance(0.04):
            key = dice.choice(pool)
        return request(key, nonce, ident, data)

    def reach():
        if chance(0.5):
            return tag.parts
        return dice.randrange(tag.parts + 1) if chance(0.9) else dice.choice((tag.parts + 1, 0x80, 0xFF, dice.randrange(256)))

    def damaged(data):
        data = bytearray(data)
        way = dice.randrange(7)
        if way == 0:
            data[dice.randrange(len(data))] ^= 1 << dice.randrange(8)
        elif way == 1:
            data[2 + dice.randrange(8)] ^= 1 << dice.randrange(8)
        elif way == 2:
            data = data[:dice.randrange(len(data))]
        elif way == 3:
            data += dice.randbytes(dice.choice((1, 1, 8, 40)))
        elif way == 4:
            data[1] = dice.choice((0, 7, 8, 9, 12, 16, 40, 48, 255, dice.randrange(256)))
        elif way == 5:
            data[0] = dice.choice((0, 1, 2, 3, 4, 5, 6, 7, 8, 9, 0x0A, 0xFF))
        else:
            data = bytearray(dice.randbytes(dice.choice((0, 1, 2, 10, 14, 18, 42, 50, 125))))
        return bytes(data)

    def ask():
        weights = (2, 4, 3, 0.5, 4, 8, 4, 4, 2)
        ident = dice.choices(range(9), weights)[0]
        if not chance(0.05):
            nonce()
        data = right_request(ident)
        if ident == 5 and tag.protection and chance(0.5):
            data = data[:2] + dice.randbytes(8) + data[10:]
        if chance(0.15):
            data = damaged(data)
        elif past and chance(0.04):
            data = dice.choice(past)
        past.append(data)
        s.write(data, None, reach())
        if chance(0.04):
            s.write(data, None, reach())

    def time():
        near = [0, 1, 2, 9, 10, 11, 599, 600] + [dice.randrange(1, 30) for _ in range(6)]
        if tag.ring:
            near += [tag.ring[1] - 1, tag.ring[1], tag.ring[1] + 1] * 4
        if tag.consent:
            near += [tag.consent - 1, tag.consent] * 2
        edge = 10240 - tag.time % 10240
        near += [edge - 1, edge]
        if chance(0.1):
            near = [6000, 10239, 10240, dice.randrange(1 << 32), 4294967295]
        s.elapsed(dice.choice(near))

    def key():
        s.key(dice.choice(pool) if chance(0.9) else dice.randbytes(dice.choice((0, 15, 17))), None)

    if chance(0.85):
        for _ in range(dice.randrange(9, 14) if crowd else dice.randrange(1, 4)):
            s.key(dice.choice(pool), None)
        s.status(dice.choice(tag.keys))
        if chance(0.9):
            s.offer_identity(dice.choice((IDENTITY_1, dice.randbytes(32))))
            if chance(0.9):
                s.disconnect()
    acts = [(ask, 12), (time, 5), (s.button, 1.5), (s.disconnect, 1.5), (lambda: s.pairing(dice.randrange(2)), 0.7),
            (lambda: s.battery(dice.choice((0, 0, 1, 2, 3, 3, 4, 256)), None), 1.2), (key, 6 if crowd else 1),
            (lambda: s.frame(None), 2.5), (nonce, 1)]
    for _ in range(dice.randrange(10, 45)):
        dice.choices([act for act, _ in acts], [weight for _, weight in acts])[0]()
    return s


def damaged_text(text, seed):
    """A session's text with one or two places broken."""
    dice = random.Random(seed)
    data = bytearray(text.encode())
    for _ in range(dice.randrange(1, 3)):
        lines = bytes(data).split(b"\n")
        place = dice.randrange(len(data))
        number = dice.randrange(len(lines))
        way = dice.randrange(9)
        if way == 0:
            data[place] = dice.choice(b"\0\r\n =-+0123456789abcdefABCDEFgx\xff")
        elif way == 1:
            del data[place]
        elif way == 2:
            data.insert(place, dice.choice(b"\0\r\n =-+019afA\xff"))
        elif way == 3:
            del data[place:]
        elif way == 4:
            del lines[number]
            data = bytearray(b"\n".join(lines))
        elif way == 5:
            lines.insert(number, dice.choice(lines))
            data = bytearray(b"\n".join(lines))
        elif way == 6:
            name = lines[number].split(b"=")[0] + b"="
            value = dice.choice((b"", b"0", b"00", b"-0", b"-1", b"+1", b"1", b"2", b"256", b"4294967295", b"4294967296",
                                 b"2147483648", b"-2147483648", b"18446744073709551616", b"0" * 240, b"ab" * 128))
            lines[number] = name + value
            data = bytearray(b"\n".join(lines))
        elif way == 7:
            lines[number] += b"\r" if dice.random() < 0.5 else b" "
            data = bytearray(b"\n".join(lines))
        else:
            other = dice.randrange(len(lines))
            lines[number], lines[other] = lines[other], lines[number]
            data = bytearray(b"\n".join(lines))
        if not data:
            break
    return bytes(data)


def random_input(seed, number):
    """The bytes of one random input, and the model's answers where its text is whole."""
    session = random_session(f"{seed}/{number}")
    if number % 5 == 4:
        return damaged_text(session.text(), f"{seed}/{number}/text"), None
    return session.text().encode(), session.answer_text()


for NUMBER in (1, 2, 3, 4):
    STORED[f"random-{NUMBER}"] = lambda number=NUMBER: random_session(f"stored/{number}")
