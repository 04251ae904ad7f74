"""Stored sessions: ten account keys. When an eleventh comes, the least recently used one goes, but never the owner."""

from aes import encrypt
from model import request
from session import ANY_TAG, IDENTITY_1, IDENTITY_2, Session, stored

KEYS = [bytes([0x10 * (n + 1) % 0x100 + n]) * 16 for n in range(16)]
FIRST, SECOND, THIRD, FOURTH = KEYS[:4]


def ten(**settings):
    """A session in which the first ten keys came, in order."""
    s = Session(**settings)
    for key in KEYS[:10]:
        s.key(key)
    return s


@stored
def ten_keys():
    """Each of ten keys is found, whatever the order of use; a held one may come again, and none goes."""
    s = ten(power=20, components=2, volume=0)
    for key in KEYS[:10]:
        s.key(key)
    for key in KEYS[9::-1] + KEYS[:10:3] + KEYS[1:10:4]:
        s.parameters(key)
    s.parameters(KEYS[10], expect=0x80)
    s.status(KEYS[4])
    for key in KEYS[:10]:
        s.status(key)
    return s


@stored
def eleven_arrivals():
    """The eleventh key takes the first one's place, the twelfth the second one's; without an owner too."""
    s = ten()
    s.key(KEYS[10])
    s.parameters(FIRST, expect=0x80)
    s.status(FIRST, expect=0x80)
    s.key(KEYS[11])
    s.parameters(SECOND, expect=0x80)
    for key in KEYS[12:16]:
        s.key(key)
    for key in KEYS[2:6]:
        s.parameters(key, expect=0x80)
    for key in KEYS[6:16]:
        s.parameters(key)
    return s


@stored
def use_saves_a_key():
    """An accepted 0x00 or 0x01 makes a key the most recently used one: the next one goes in its stead."""
    s = ten()
    s.parameters(FIRST)
    s.key(KEYS[10])
    s.parameters(SECOND, expect=0x80)
    s.parameters(FIRST)
    s.status(KEYS[9])
    s.status(THIRD)
    s.key(KEYS[11])
    s.parameters(FOURTH, expect=0x80)
    s.status(THIRD)
    s.parameters(KEYS[5])
    s.key(KEYS[12])
    s.parameters(KEYS[4], expect=0x80)
    s.key(KEYS[13])
    s.parameters(KEYS[6], expect=0x80)
    for key in (FIRST, THIRD, KEYS[5], *KEYS[7:14]):
        s.parameters(key)
    return s


@stored
def owner_as_the_least_recently_used():
    """The owner never goes, however long ago it was used; the key used longest ago among the others does."""
    s = Session()
    s.key(FIRST)
    s.status(FIRST)
    for key in KEYS[1:10]:
        s.key(key)
    s.key(KEYS[10])
    s.parameters(SECOND, expect=0x80)
    s.key(KEYS[11])
    s.parameters(THIRD, expect=0x80)
    for key in KEYS[12:16]:
        s.key(key)
    for key in KEYS[3:7]:
        s.parameters(key, expect=0x80)
    s.status(FIRST)
    s.status(KEYS[15])
    s.set_identity(IDENTITY_1)
    for n in range(12):
        s.key(bytes([0xD0 + n]) * 16)
    for key in KEYS[7:16]:
        s.parameters(key, expect=0x80)
    s.button()
    s.recover()
    s.set_identity(IDENTITY_2)
    s.recover()
    s.clear()
    s.parameters(FIRST, expect=0x80)
    return s


@stored
def owner_in_the_midst():
    """An owner that is neither the first nor the last to be used; the drop passes it when its turn comes."""
    s = ten()
    s.status(KEYS[4])
    for key in (FIRST, KEYS[7], SECOND):
        s.parameters(key)
    for n, gone in enumerate((2, 3, 5, 6, 8, 9, 0, 7, 1)):
        s.key(bytes([0xD0 + n]) * 16)
        s.status(KEYS[gone], expect=0x80)
    s.status(KEYS[4])
    s.set_identity(IDENTITY_1)
    s.pairing(1)
    s.recover()
    return s


@stored
def held_key_added_again():
    """Adding a key already held is no use: it is still the next to go."""
    s = ten()
    s.key(FIRST)
    s.key(SECOND)
    s.key(FIRST)
    s.key(KEYS[10])
    s.parameters(FIRST, expect=0x80)
    s.key(SECOND)
    s.key(KEYS[11])
    s.parameters(SECOND, expect=0x80)
    s.parameters(THIRD)
    return s


@stored
def refused_writes_are_no_use():
    """A wrong tag, a spent nonce, a wrong shape: the key is still the next to go. Nor is anything but 0x00, 0x01 and 0x02 a use."""
    s = ten()
    s.status(KEYS[9])
    s.set_identity(IDENTITY_1)
    s.button()
    s.read()
    right = request(FIRST, s.tag.nonce, 0)
    s.write(right[:2] + ANY_TAG, expect=0x80)
    s.write(right, expect=0x80)
    s.read()
    s.write(request(FIRST, s.tag.nonce, 1) + b"\x00", expect=0x81)
    s.ask(FIRST, 2, lambda nonce: encrypt(FIRST, IDENTITY_2) + s.tag.proof(), expect=0x80)
    s.ask(FIRST, 3, lambda nonce: s.tag.proof(), expect=0x80)
    s.ask(FIRST, 4, b"", expect=0x80)
    s.recover()
    s.ring(1, 5)
    s.protect()
    s.key(KEYS[10])
    s.parameters(FIRST, expect=0x80)
    s.parameters(SECOND)
    s.key(KEYS[11])
    s.parameters(THIRD, expect=0x80)
    s.parameters(SECOND)
    return s


@stored
def dropped_key_and_its_return():
    """A dropped key's requests are refused with 0x80, old ones too; it may come back, as a new arrival."""
    s = ten()
    s.status(KEYS[5])
    s.key(KEYS[10])
    s.parameters(FIRST, expect=0x80)
    s.status(FIRST, expect=0x80)
    s.key(FIRST)
    s.parameters(SECOND, expect=0x80)
    s.parameters(FIRST)
    s.status(FIRST)
    s.key(SECOND)
    s.parameters(THIRD, expect=0x80)
    for key in KEYS[11:16]:
        s.key(key)
    for key in (FOURTH, KEYS[4], KEYS[6], KEYS[7], KEYS[8]):
        s.parameters(key, expect=0x80)
    s.status(KEYS[5])
    for key in (KEYS[9], KEYS[10], FIRST, SECOND, *KEYS[11:16]):
        s.parameters(key)
    return s


@stored
def order_of_use_after_a_clear():
    """0x03 forgets the keys and their order: ten come anew, and the first of those is the first to go."""
    s = ten()
    s.status(FIRST)
    s.set_identity(IDENTITY_1)
    s.clear()
    for key in KEYS[9::-1]:
        s.parameters(key, expect=0x80)
        s.key(key)
    s.key(KEYS[10])
    s.parameters(KEYS[9], expect=0x80)
    s.parameters(FIRST)
    s.status(KEYS[8])
    s.key(KEYS[11])
    s.parameters(KEYS[7], expect=0x80)
    s.status(FIRST)
    s.status(KEYS[8])
    return s


# Two keys that give the 0x00 request of this nonce the same tag, found by trying. Each also has requests of its own.
SAME_TAG_NONCE = bytes.fromhex("0123456789abcdef")
TWIN_1 = bytes.fromhex("78c49557fbf0ddd3") + b"\x5a" * 8
TWIN_2 = bytes.fromhex("10297faa154c8929") + b"\x5a" * 8
SHARED = request(TWIN_1, SAME_TAG_NONCE, 0)
assert SHARED == request(TWIN_2, SAME_TAG_NONCE, 0) and TWIN_1 != TWIN_2


def shared_request(s):
    """The request that both keys have made: the answer shows which one was taken."""
    s.read(SAME_TAG_NONCE)
    s.write(SHARED)


def fresh_nonces(s):
    for _ in range(16):
        s.read()


@stored
def same_tag_later_arrival_first():
    """Two held keys have made the same request: the one that came last is tried first."""
    s = Session()
    s.key(TWIN_1)
    s.key(FIRST)
    s.key(TWIN_2)
    s.key(SECOND)
    shared_request(s)
    return s


@stored
def same_tag_other_order_of_arrival():
    """The same with the two keys in the other order."""
    s = Session()
    s.key(TWIN_2)
    s.key(TWIN_1)
    shared_request(s)
    fresh_nonces(s)
    shared_request(s)
    return s


@stored
def same_tag_last_used_first():
    """The one used last is tried first: by 0x00, by 0x01, and by the shared request itself. Others between them don't matter."""
    s = Session()
    for key in (TWIN_1, TWIN_2, FIRST):
        s.key(key)
    s.parameters(TWIN_1)
    s.parameters(FIRST)
    shared_request(s)
    s.status(TWIN_2)
    fresh_nonces(s)
    shared_request(s)
    s.status(TWIN_1)
    s.status(FIRST)
    fresh_nonces(s)
    shared_request(s)
    return s


@stored
def same_tag_and_what_is_no_use():
    """A held key added again and refused writes leave the order of trial; so do 0x04 to 0x08, which the owner's phone sends too."""
    s = Session()
    for key in (TWIN_1, TWIN_2):
        s.key(key)
    s.status(TWIN_1)
    s.offer_identity(IDENTITY_1)
    s.disconnect()
    s.parameters(TWIN_2)
    s.key(TWIN_1)
    s.read()
    s.write(request(TWIN_1, s.tag.nonce, 0)[:2] + ANY_TAG, expect=0x80)
    s.ask(TWIN_1, 2, lambda nonce: encrypt(TWIN_1, IDENTITY_2) + bytes(8), expect=0x80)
    s.ask(TWIN_1, 3, bytes(8), expect=0x80)
    s.button()
    s.recover()
    s.ring(1, 5)
    s.ring_state()
    s.protect()
    s.unprotect()
    s.elapsed(9)
    s.disconnect()
    shared_request(s)
    return s


@stored
def same_tag_owner_used_by_0x02():
    """An accepted 0x02 is a use of the owner's key, at the write and not at the disconnect."""
    s = Session()
    for key in (TWIN_1, TWIN_2):
        s.key(key)
    s.status(TWIN_1)
    s.parameters(TWIN_2)
    s.offer_identity(IDENTITY_1)
    shared_request(s)
    s.parameters(TWIN_2)
    s.disconnect()
    fresh_nonces(s)
    shared_request(s)
    s.parameters(TWIN_2)
    s.offer_identity(IDENTITY_2)
    fresh_nonces(s)
    shared_request(s)
    return s


@stored
def same_tag_owner_made_by_0x01():
    """The 0x01 that makes an owner is a use of its key; so is the owner's next one."""
    s = Session()
    for key in (TWIN_1, TWIN_2):
        s.key(key)
    s.status(TWIN_1)
    shared_request(s)
    s.status(TWIN_2)
    fresh_nonces(s)
    shared_request(s)
    s.status(TWIN_1)
    fresh_nonces(s)
    shared_request(s)
    return s
