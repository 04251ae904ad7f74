"""Stored sessions: a new identity key waits until the connection ends."""

from aes import encrypt
from model import request, sha
from session import ANY_TAG, IDENTITY_1, IDENTITY_2, KEY_A, KEY_B, Session, owned, stored

IDENTITY_3 = bytes(range(0xC0, 0xE0))


def sub_of(identity, number):
    return sha(identity, bytes([number]))[:8]


def offer(s, identity, proved, expect):
    """0x02 of 48 whose proof is that of any key."""
    s.ask(s.tag.owner, 2, lambda nonce: encrypt(s.tag.owner, identity) + sha(proved, nonce)[:8], expect)


def nothing_in_force(s, identity):
    """0x03 to 0x08 and frames on a unit that has no key in force, with all that this key would give."""
    s.status(KEY_A)
    for ident, key, data in (
        (3, KEY_A, lambda nonce: sha(identity, nonce)[:8]), (4, sub_of(identity, 1), b""), (5, sub_of(identity, 2), bytes([1, 0, 9, 0])),
        (6, sub_of(identity, 2), b""), (7, sub_of(identity, 3), b"\x01"), (8, sub_of(identity, 3), lambda nonce: sha(identity, nonce)[:8]),
    ):
        s.ask(key, ident, data, expect=0x80)
    s.frame(expect=5)


@stored
def first_key_waits_for_the_disconnect():
    """A new unit has no key until the disconnect: no frame, no ring, and bit 0x01 of 0x01 clear; then all at once."""
    s = Session()
    s.key(KEY_A)
    s.status(KEY_A)
    s.pairing(1)
    s.offer_identity(IDENTITY_1)
    nothing_in_force(s, IDENTITY_1)
    s.disconnect()
    s.status(KEY_A)
    s.frame()
    s.ring(1, 5)
    s.recover()
    s.protect()
    s.status(KEY_A)
    s.elapsed(9, ends=5)
    s.clear()
    return s


@stored
def first_key_without_a_disconnect():
    """However long it waits, a key without a disconnect never comes into force; a further 0x02 must be of 40 and replaces it."""
    s = Session(power=-5, components=1, volume=0)
    s.key(KEY_A)
    s.status(KEY_A)
    s.offer_identity(IDENTITY_1)
    s.button()
    s.elapsed(4294967295)
    nothing_in_force(s, IDENTITY_1)
    offer(s, IDENTITY_2, IDENTITY_1, expect=0x80)
    s.read()
    s.write(b"\x02\x28" + ANY_TAG + encrypt(KEY_A, IDENTITY_2), expect=0x80)
    nothing_in_force(s, bytes(32))
    s.offer_identity(IDENTITY_2)
    nothing_in_force(s, IDENTITY_2)
    s.disconnect()
    s.ask(sub_of(IDENTITY_1, 2), 6, b"", expect=0x80)
    s.ring_state()
    s.pairing(1)
    s.recover()
    return s


@stored
def old_key_stays_in_force():
    """While another key waits, tags, proofs, frames, 0x01, recovery and the running ring are the old key's."""
    s = owned()
    s.battery(1)
    s.protect(b"\x01")
    s.pairing(1)
    s.ring(7, 100, 1)
    s.frame()
    s.status(KEY_B)
    s.recover()
    s.offer_identity(IDENTITY_2)
    s.frame()
    s.status(KEY_B)
    s.status(KEY_A)
    s.recover()
    s.ring_state()
    s.ask(sub_of(IDENTITY_2, 2), 6, b"", expect=0x80)
    s.ask(sub_of(IDENTITY_2, 1), 4, b"", expect=0x80)
    s.ask(sub_of(IDENTITY_2, 3), 7, b"", expect=0x80)
    s.ask(sub_of(IDENTITY_1, 3), 8, lambda nonce: sha(IDENTITY_2, nonce)[:8], expect=0x80)
    s.ask(KEY_A, 3, lambda nonce: sha(IDENTITY_2, nonce)[:8], expect=0x80)
    s.elapsed(150, ends=100)
    s.ring(1, 50)
    s.button()
    s.frame()
    s.protect()
    s.unprotect()
    s.ring(2, 60)
    s.disconnect()
    s.elapsed(100, ends=0)
    s.frame()
    s.status(KEY_A)
    s.ask(sub_of(IDENTITY_1, 2), 6, b"", expect=0x80)
    s.ring_state()
    s.recover()
    return s


@stored
def two_keys_in_one_connection():
    """A second 0x02 is judged against the old key, not the waiting one, and replaces the waiting one."""
    s = owned()
    s.pairing(1)
    s.offer_identity(IDENTITY_2)
    offer(s, IDENTITY_3, IDENTITY_2, expect=0x80)
    s.ask(KEY_A, 2, encrypt(KEY_A, IDENTITY_3), expect=0x80)
    s.recover()
    offer(s, IDENTITY_3, IDENTITY_1, expect="ok")
    s.recover()
    s.disconnect()
    s.recover()
    s.ask(sub_of(IDENTITY_2, 1), 4, b"", expect=0x80)
    s.offer_identity(IDENTITY_2)
    s.offer_identity(IDENTITY_1)
    s.offer_identity(IDENTITY_2)
    s.disconnect()
    s.recover()
    return s


@stored
def refused_offers_leave_what_waits():
    """A refused 0x02 neither replaces the waiting key nor drops it."""
    s = owned()
    s.pairing(1)
    s.offer_identity(IDENTITY_2)
    s.read()
    right = request(KEY_A, s.tag.nonce, 2, encrypt(KEY_A, IDENTITY_3) + s.tag.proof())
    s.write(right[:2] + ANY_TAG + right[10:], expect=0x80)
    s.write(right, expect=0x80)
    s.ask(KEY_B, 2, lambda nonce: encrypt(KEY_B, IDENTITY_3) + s.tag.proof(), expect=0x80)
    s.read()
    s.write(right + b"\x00", expect=0x81)
    offer(s, IDENTITY_3, IDENTITY_2, expect=0x80)
    s.ask(KEY_A, 2, encrypt(KEY_A, IDENTITY_3), expect=0x80)
    s.disconnect()
    s.recover()
    s.disconnect()
    s.recover()
    return s


@stored
def clear_while_a_key_waits():
    """0x03 drops both keys: the disconnect after it brings nothing in."""
    s = owned()
    s.offer_identity(IDENTITY_2)
    s.clear()
    s.key(KEY_A)
    s.status(KEY_A)
    s.disconnect()
    nothing_in_force(s, IDENTITY_2)
    nothing_in_force(s, IDENTITY_1)
    offer(s, IDENTITY_3, IDENTITY_2, expect=0x80)
    s.set_identity(IDENTITY_3)
    s.status(KEY_A)
    s.button()
    s.recover()
    return s


@stored
def ring_ends_at_the_disconnect():
    """The disconnect that brings a key in ends the sound without notice, also where the key is the old one; a press then gives consent."""
    s = owned()
    s.ring(7, 600, 2)
    s.elapsed(7)
    s.offer_identity(IDENTITY_1)
    s.ring_state()
    s.elapsed(3, ends=0)
    s.disconnect()
    s.ring_state()
    s.elapsed(600, ends=0)
    s.button()
    s.recover()
    s.ring(1, 20)
    s.offer_identity(IDENTITY_2)
    s.elapsed(19, ends=0)
    s.disconnect()
    s.elapsed(1, ends=0)
    s.ring(1, 20)
    s.disconnect()
    s.elapsed(20, ends=20)
    return s


@stored
def ring_ends_before_the_disconnect():
    """A ring that ends by itself while a key waits is notified with the old key, and a stop is answered with it."""
    s = owned()
    s.offer_identity(IDENTITY_2)
    s.ring(1, 5)
    s.elapsed(5, ends=5)
    s.ring(2, 5)
    s.ring(0, 0)
    s.ring(4, 5)
    s.button()
    s.disconnect()
    s.ring(1, 5)
    s.elapsed(6, ends=5)
    return s


@stored
def disconnect_without_a_waiting_key():
    """It changes nothing: the ring, a live nonce, consent, pairing, protection and the frame stay."""
    s = Session()
    s.disconnect()
    s.key(KEY_A)
    s.disconnect()
    s.status(KEY_A)
    s.button()
    s.disconnect()
    s.set_identity(IDENTITY_1)
    s.elapsed(100)
    s.disconnect()
    s.recover()
    s.elapsed(500)
    s.recover(expect=0x82)
    s.battery(3)
    s.protect(b"\x01")
    s.read()
    s.disconnect()
    s.write(bytes([5, 12]) + ANY_TAG + bytes([3, 0, 20, 0]))
    s.disconnect()
    s.frame()
    s.ring_state()
    s.elapsed(30, ends=20)
    s.disconnect()
    s.status(KEY_A)
    return s


@stored
def what_a_disconnect_keeps():
    """The disconnect that brings a key in keeps a live nonce, protection with its flag, consent, pairing, battery, keys and owner."""
    s = owned()
    s.battery(2)
    s.protect(b"\x01")
    s.button()
    s.elapsed(100)
    s.offer_identity(IDENTITY_2)
    s.read()
    s.disconnect()
    s.write(bytes([5, 12]) + ANY_TAG + bytes([3, 0, 20, 0]))
    s.recover()
    s.elapsed(499, ends=20)
    s.recover()
    s.elapsed(1)
    s.recover(expect=0x82)
    s.frame()
    s.status(KEY_A)
    s.status(KEY_B)
    s.offer_identity(bytes(32))
    s.read()
    nonce = s.tag.nonce
    s.disconnect()
    s.read(nonce, expect=3)
    s.write(request(sub_of(bytes(32), 2), nonce, 6))
    s.pairing(1)
    s.recover()
    s.unprotect()
    s.frame()
    return s
