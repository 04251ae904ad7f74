"""Stored sessions: each refusal that a replay can show."""

from aes import encrypt
from model import request
from session import IDENTITY_1, IDENTITY_2, KEY_A, KEY_B, KEY_C, Session, owned, stored


@stored
def refused_80_not_authenticated():
    """No live nonce, a wrong key, a damaged tag, a wrong proof, 0x02 of the wrong kind; each spends."""
    s = owned()
    s.write(request(KEY_A, s.tag.nonce, 1), expect=0x80)
    for ident, key, data in (
        (0, KEY_C, b""), (1, KEY_C, b""), (0, IDENTITY_1[:16], b""),
        (2, KEY_B, encrypt(KEY_B, IDENTITY_2)), (2, KEY_A, encrypt(KEY_A, IDENTITY_2)),
        (2, KEY_A, encrypt(KEY_A, IDENTITY_2) + bytes(8)),
        (3, KEY_A, bytes(8)), (4, s.sub(2), b""), (5, s.sub(3), bytes([1, 0, 9, 0])),
        (5, s.sub(1), bytes([1, 0, 0, 9])), (6, s.sub(1), b""), (7, s.sub(1), b"\x09"),
        (8, s.sub(3), bytes(8)),
    ):
        s.ask(key, ident, data, expect=0x80)
    for bit in range(0, 64, 9):
        s.read()
        data = bytearray(request(KEY_A, s.tag.nonce, 1))
        data[2 + bit // 8] ^= 1 << bit % 8
        s.write(bytes(data), expect=0x80)
        s.write(request(KEY_A, s.tag.nonce, 1), expect=0x80)
    old = s.tag.nonce
    s.read()
    s.write(request(KEY_A, old, 1), expect=0x80)
    s.status(KEY_A)
    return s


@stored
def refused_81_shapes():
    """Byte counts and IDs; each spends the nonce."""
    s = owned()
    for data in (
        b"", b"\x00", b"\x01", b"\x00\x08", b"\x01\x07" + bytes(7), b"\x01\x09" + bytes(9), b"\x01\x08" + bytes(7),
        b"\x01\x08" + bytes(9), b"\x02\x08" + bytes(8), b"\x02\x27" + bytes(39), b"\x02\x29" + bytes(41),
        b"\x02\x28" + bytes(48), b"\x02\x30" + bytes(40), b"\x03\x08" + bytes(8), b"\x03\x0f" + bytes(15),
        b"\x03\x11" + bytes(17), b"\x04\x10" + bytes(16), b"\x05\x08" + bytes(8), b"\x05\x0b" + bytes(11),
        b"\x05\x0d" + bytes(13), b"\x06\x0c" + bytes(12), b"\x07\x07" + bytes(7), b"\x07\x0a" + bytes(10),
        b"\x08\x08" + bytes(8), b"\x08\x11" + bytes(17), b"\x09\x08" + bytes(8), b"\xff\x08" + bytes(8),
        b"\x00\xff" + bytes(123), b"\x09\x00", b"\x00\x00",
    ):
        s.read()
        s.write(data, expect=0x81)
    s.read()
    s.write(b"", expect=0x81)
    s.write(request(KEY_A, s.tag.nonce, 1), expect=0x80)
    s.write(b"\x01\x07", expect=0x81)
    return s


@stored
def refused_81_values():
    """Wrong values under right tags, and a wrong tag before a wrong value."""
    s = owned(components=2)
    s.ring(0x04, 10, expect=0x81)
    s.ring(0x07, 10, expect=0x81)
    s.ring(0x01, 0, expect=0x81)
    s.ring(0x01, 6001, expect=0x81)
    s.ring(0x01, 10, 4, expect=0x81)
    s.protect(b"\x02", expect=0x81)
    s.ask(KEY_A, 5, bytes([4, 0, 0, 9]), expect=0x80)
    s.ask(KEY_A, 7, b"\x02", expect=0x80)
    s.ring(0x03, 10, 3)
    return s


@stored
def refused_82_consent():
    """A press holds for 599 tenths, not for 600; pairing holds as long as it is on; the tag comes first."""
    s = owned()
    s.recover(expect=0x82)
    s.ask(s.sub(2), 4, b"", expect=0x80)
    s.button()
    s.elapsed(599)
    s.recover()
    s.elapsed(1)
    s.recover(expect=0x82)
    s.button()
    s.elapsed(300)
    s.button()
    s.elapsed(599)
    s.recover()
    s.button()
    s.elapsed(600)
    s.recover(expect=0x82)
    s.button()
    s.elapsed(4294967295)
    s.recover(expect=0x82)
    s.pairing(1)
    s.recover()
    s.elapsed(1000000)
    s.recover()
    s.pairing(0)
    s.recover(expect=0x82)
    s.ask(s.sub(2), 4, b"", expect=0x80)
    return s


@stored
def refused_82_press_before_the_key():
    """Consent from before the identity key counts, for what is left of it."""
    s = Session()
    s.button()
    s.key(KEY_A)
    s.status(KEY_A)
    s.elapsed(590)
    s.set_identity(IDENTITY_1)
    s.recover()
    s.elapsed(9)
    s.recover()
    s.elapsed(1)
    s.recover(expect=0x82)
    return s


@stored
def refused_03_nonces():
    """Sizes, an issued nonce live and spent, and a nonce of zeros; a refused read leaves the nonce live."""
    s = Session()
    s.key(KEY_A)
    s.read(bytes(8))
    s.read(bytes(8), expect=3)
    for size in (0, 1, 7, 9, 16, 125):
        s.read(b"\x01" * size, expect=3)
    s.write(request(KEY_A, bytes(8), 1))
    s.read(bytes(8), expect=3)
    s.write(request(KEY_A, bytes(8), 1), expect=0x80)
    s.read(b"\x01" * 8)
    s.read(bytes(8), expect=3)
    s.read(b"\x02" * 8)
    s.write(request(KEY_A, b"\x01" * 8, 1), expect=0x80)
    s.read(b"\x01" * 8, expect=3)
    s.read(b"\x03" * 8)
    s.read(b"\x03" * 8, expect=3)
    s.write(request(KEY_A, b"\x03" * 8, 1))
    return s


@stored
def refused_04_keys():
    """Sizes, with none and with ten keys held; a key of zeros is a key."""
    s = Session()
    for size in (0, 15, 17, 32, 125):
        s.key(b"\x07" * size, expect=4)
    s.parameters(bytes(16), expect=0x80)
    for n in range(10):
        s.key(bytes([n]) * 16)
        s.key(bytes([n]) * 16)
    for size in (0, 15, 17, 125):
        s.key(b"\x00" * size, expect=4)
    s.key(b"\x00" * 16)
    s.status(bytes(16))
    s.key(b"\x0a" * 16)
    s.parameters(b"\x01" * 16, expect=0x80)
    s.parameters(bytes(16))
    return s


@stored
def refused_01_and_05():
    """Battery levels; no frame without a key in force."""
    s = Session(components=0, volume=0)
    for level in (4, 255, 256, 257, 4294967295):
        s.battery(level, expect=1)
    s.frame(expect=5)
    s.key(KEY_A)
    s.status(KEY_A)
    s.frame(expect=5)
    s.offer_identity(IDENTITY_1)
    s.frame(expect=5)
    s.disconnect()
    s.frame()
    s.clear()
    s.frame(expect=5)
    return s
