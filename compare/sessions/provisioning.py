"""Stored sessions: provisioning, recovery and clearing."""

from aes import encrypt
from model import request, sha
from session import IDENTITY_1, IDENTITY_2, KEY_A, KEY_B, STORED, Session, owned, stored


@stored
def provision_to_recovery():
    """Keys, owner, identity key, a press, the identity key read back."""
    s = Session()
    s.parameters(KEY_A, expect=0x80)
    s.key(KEY_A)
    s.key(KEY_B)
    s.parameters(KEY_A)
    s.status(KEY_A)
    s.set_identity(IDENTITY_1)
    s.status(KEY_A)
    s.recover(expect=0x82)
    s.button()
    s.recover()
    s.recover()
    return s


@stored
def provision_again_with_proof():
    """0x02 of 48: a new identity key, the same one again, and the sub keys that follow it; a disconnect after each."""
    s = owned()
    s.set_identity(IDENTITY_2)
    s.ring(1, 10)
    s.set_identity(IDENTITY_2)
    s.ring_state()
    s.elapsed(20, ends=0)
    s.pairing(1)
    s.recover()
    s.set_identity(bytes(32))
    s.recover()
    s.status(KEY_A)
    return s


@stored
def owner_is_the_key_of_0x01():
    """The second key asks 0x01 first and becomes the owner; the first one stays a guest."""
    s = Session(power=-1, components=1, volume=0)
    s.key(KEY_A)
    s.key(KEY_B)
    s.ask(KEY_B, 2, encrypt(KEY_B, IDENTITY_1), expect=0x80)
    s.status(KEY_B)
    s.status(KEY_A)
    s.ask(KEY_A, 2, encrypt(KEY_A, IDENTITY_1), expect=0x80)
    s.set_identity(IDENTITY_1)
    s.status(KEY_A)
    s.status(KEY_B)
    s.parameters(KEY_A)
    s.parameters(KEY_B)
    return s


def power_session(power):
    s = Session(power=power, components=2, volume=1)
    s.key(KEY_A)
    s.elapsed(12345)
    s.parameters(KEY_A)
    return s


for POWER in (-100, -1, 0, 20):
    STORED[f"power-{POWER}".replace("--", "-minus-")] = lambda power=POWER: power_session(power)


@stored
def clear_and_what_remains():
    """0x03 forgets keys, sound, protection and consent; clock, battery, pairing and nonces stay."""
    s = owned()
    s.elapsed(12347)
    s.battery(2)
    s.pairing(1)
    s.protect(b"\x01")
    s.frame()
    s.button()
    s.ring(7, 300)
    s.ask(KEY_B, 3, lambda nonce: s.tag.proof(), expect=0x80)
    s.ask(KEY_A, 3, bytes(8), expect=0x80)
    s.clear()
    s.read(s.tag.nonce, expect=3)
    s.elapsed(2, ends=0)
    s.elapsed(1, ends=0)
    s.elapsed(300, ends=0)
    s.frame(expect=5)
    s.key(KEY_A)
    s.write(request(KEY_A, s.tag.nonce, 1), expect=0x80)
    s.parameters(KEY_B, expect=0x80)
    s.parameters(KEY_A)
    s.status(KEY_A)
    s.set_identity(IDENTITY_1)
    s.recover()
    s.pairing(0)
    s.recover(expect=0x82)
    s.frame()
    s.ring_state()
    return s


@stored
def clear_without_a_key():
    """0x03 to 0x08 on a unit without an identity key, also with tags for a key of zeros."""
    s = Session()
    s.key(KEY_A)
    s.status(KEY_A)
    zero = bytes(32)
    for ident, key, data in (
        (3, KEY_A, lambda nonce: sha(zero, nonce)[:8]),
        (4, sha(zero, b"\x01")[:8], b""),
        (5, sha(zero, b"\x02")[:8], bytes([1, 0, 9, 0])),
        (5, sha(zero, b"\x02")[:8], bytes([0xFF, 0, 0, 9])),
        (6, sha(zero, b"\x02")[:8], b""),
        (7, sha(zero, b"\x03")[:8], b"\x09"),
        (8, sha(zero, b"\x03")[:8], lambda nonce: sha(zero, nonce)[:8]),
        (2, KEY_A, lambda nonce: bytes(32) + sha(zero, nonce)[:8]),
    ):
        s.ask(key, ident, data, expect=0x80)
    return s
