"""Stored sessions: keys, nonces, tags and key proofs that are nearly the right one, and keys that are not the first."""

from aes import encrypt
from model import request
from session import ANY_TAG, IDENTITY_1, IDENTITY_2, KEY_A, KEY_B, KEY_C, STORED, Session, owned, stored


def changed(data, place):
    """The bytes with one of them changed, in its lowest bit."""
    data = bytearray(data)
    data[place] ^= 1
    return bytes(data)


def owned_by(place, count):
    """A session with so many account keys, of which the one at this place is the owner, and an identity key."""
    s = Session()
    keys = [bytes([0x50 + n]) * 16 for n in range(count)]
    for key in keys:
        s.key(key)
    s.status(keys[place])
    s.set_identity(IDENTITY_1)
    return s, keys


def recovered_by(place, count):
    """Everything that needs the owner key, with an owner that isn't the first key."""
    s, keys = owned_by(place, count)
    s.button()
    s.recover()
    s.set_identity(IDENTITY_2)
    s.recover()
    for key in keys:
        s.status(key)
    for other in keys[:place] + keys[place + 1:]:
        s.ask(other, 2, lambda nonce, key=other: encrypt(key, IDENTITY_1) + s.tag.proof(), expect=0x80)
        s.ask(other, 3, lambda nonce: s.tag.proof(), expect=0x80)
    s.recover()
    s.clear()
    s.recover_as(IDENTITY_2, expect=0x80)
    return s


STORED["recovery-with-the-second-key-as-owner"] = lambda: recovered_by(1, 2)
STORED["recovery-with-the-third-key-as-owner"] = lambda: recovered_by(2, 4)
STORED["recovery-with-the-fifth-key-as-owner"] = lambda: recovered_by(4, 5)
STORED["recovery-with-the-first-of-ten-keys-as-owner"] = lambda: recovered_by(0, 10)
STORED["recovery-with-the-tenth-key-as-owner"] = lambda: recovered_by(9, 10)


@stored
def key_proofs_wrong_in_one_byte():
    """0x02, 0x03 and 0x08, rightly signed, with a key proof that is wrong in one byte, each in turn."""
    s = owned()
    s.protect(b"\x01")
    for place in range(8):
        s.ask(KEY_A, 2, lambda nonce: encrypt(KEY_A, IDENTITY_2) + changed(s.tag.proof(), place), expect=0x80)
        s.ask(KEY_A, 3, lambda nonce: changed(s.tag.proof(), place), expect=0x80)
        s.ask(s.sub(3), 8, lambda nonce: changed(s.tag.proof(), place), expect=0x80)
    s.frame()
    s.unprotect()
    s.set_identity(IDENTITY_2)
    s.clear()
    return s


@stored
def tags_wrong_in_one_byte():
    """Each ID with a tag that is wrong in its first or in its last byte, then with the right one."""
    s = owned()
    s.button()
    for ident in (0, 1, 4, 5, 6, 7, 8, 2, 3):
        for place in (2, 9, None):
            s.read()
            key, data = {
                0: (KEY_B, b""), 1: (KEY_B, b""), 2: (KEY_A, encrypt(KEY_A, IDENTITY_2) + s.tag.proof()), 3: (KEY_A, s.tag.proof()),
                4: (s.sub(1), b""), 5: (s.sub(2), bytes([1, 0, 9, 0])), 6: (s.sub(2), b""), 7: (s.sub(3), b"\x00"), 8: (s.sub(3), s.tag.proof()),
            }[ident]
            right = request(key, s.tag.nonce, ident, data)
            if place is None:
                s.write(right)
            else:
                s.write(changed(right, place), expect=0x80)
    return s


@stored
def tags_over_other_data():
    """A tag made for data that differs in its first or in its last byte, or for another ID or length, doesn't serve."""
    s = owned()
    ring = bytes([1, 0, 9, 0])
    for other in (changed(ring, 0), changed(ring, 3)):
        s.read()
        s.write(request(s.sub(2), s.tag.nonce, 5, other)[:10] + ring, expect=0x80)
    identity = encrypt(KEY_A, IDENTITY_2)
    for place in (0, 15, 16, 31, 32, 39):
        s.read()
        data = identity + s.tag.proof()
        s.write(request(KEY_A, s.tag.nonce, 2, changed(data, place))[:10] + data, expect=0x80)
    s.read()
    s.write(b"\x01" + request(KEY_A, s.tag.nonce, 0)[1:], expect=0x80)
    s.read()
    s.write(b"\x07\x09" + request(s.sub(3), s.tag.nonce, 7)[2:10] + b"\x00", expect=0x80)
    s.read()
    s.write(b"\x07\x08" + request(s.sub(3), s.tag.nonce, 7, b"\x00")[2:10], expect=0x80)
    s.ring_state()
    s.status(KEY_A)
    return s


@stored
def account_keys_that_differ_in_one_byte():
    """Keys that differ in their first or in their last byte only are different keys, and a request is for one of them."""
    s = Session(power=0, components=1, volume=0)
    keys = [KEY_A, changed(KEY_A, 0), changed(KEY_A, 15), changed(changed(KEY_A, 0), 15), changed(KEY_A, 7)]
    for key in keys[:4]:
        s.key(key)
    s.parameters(keys[4], expect=0x80)
    s.key(keys[4])
    for key in keys:
        s.key(key)
    s.parameters(changed(KEY_A, 8), expect=0x80)
    s.status(keys[2])
    for key in keys:
        s.parameters(key)
        s.status(key)
    s.ask(keys[0], 2, encrypt(keys[0], IDENTITY_1), expect=0x80)
    s.ask(keys[3], 2, encrypt(keys[3], IDENTITY_1), expect=0x80)
    s.set_identity(IDENTITY_1)
    s.button()
    s.recover()
    return s


@stored
def nonces_that_differ_in_one_byte():
    """A nonce that differs from issued ones in its first or in its last byte only is another nonce."""
    s = Session()
    s.key(KEY_A)
    for place in (0, 7, 3):
        first = bytes([place]) + ANY_TAG[:6] + bytes([place])
        s.read(first)
        s.read(first, expect=3)
        other = changed(first, place)
        s.read(other)
        s.write(request(KEY_A, first, 1), expect=0x80)
        s.read(other, expect=3)
        s.read(first, expect=3)
        third = changed(other, 2)
        s.read(third)
        s.write(request(KEY_A, other, 1), expect=0x80)
        fourth = changed(third, place)
        s.read(fourth)
        s.write(request(KEY_A, fourth, 1))
    return s


@stored
def ring_nonces_that_differ_in_one_byte():
    """The notices of rings whose nonces differ in one byte."""
    s = owned()
    for nonce in (ANY_TAG, changed(ANY_TAG, 0), changed(ANY_TAG, 7)):
        s.read(nonce)
        s.write(request(s.sub(2), nonce, 5, bytes([1, 0, 5, 0])))
        s.read()
        s.elapsed(7, ends=5)
    return s


@stored
def parameters_before_an_owner():
    """0x00 makes no owner: the key that then asks 0x01 does become it, and only that one can set an identity key."""
    s = Session()
    for key in (KEY_A, KEY_B, KEY_C):
        s.key(key)
    s.parameters(KEY_A)
    s.parameters(KEY_C)
    s.ask(KEY_A, 2, encrypt(KEY_A, IDENTITY_1), expect=0x80)
    s.ask(KEY_C, 2, encrypt(KEY_C, IDENTITY_1), expect=0x80)
    s.status(KEY_B)
    s.status(KEY_A)
    s.ask(KEY_A, 2, encrypt(KEY_A, IDENTITY_1), expect=0x80)
    s.set_identity(IDENTITY_1)
    s.pairing(1)
    s.recover()
    return s


@stored
def second_of_two_keys():
    """A guest's key, the second: its own tag and its own encryption; it never shows as owner, nor does it become one."""
    s = Session(power=-100, components=2, volume=1)
    s.key(KEY_A)
    s.status(KEY_A)
    s.key(KEY_B)
    s.elapsed(4711)
    for key in (KEY_B, KEY_A, KEY_B):
        s.parameters(key)
        s.status(key)
    s.set_identity(IDENTITY_1)
    s.status(KEY_B)
    s.status(KEY_A)
    s.clear()
    s.key(KEY_A)
    s.key(KEY_B)
    s.status(KEY_B)
    s.parameters(KEY_A)
    s.status(KEY_A)
    s.set_identity(IDENTITY_2)
    s.clear()
    return s
