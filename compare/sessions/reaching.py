"""Stored sessions: parts that are out of reach."""

from aes import encrypt
from model import request, sha
from session import ANY_TAG, IDENTITY_1, IDENTITY_2, KEY_A, Session, owned, stored


@stored
def starts_partly_in_reach():
    """Parts out of reach are dropped from the mask; what is left rings, with the whole timeout."""
    s = owned()
    for mask, reach in ((7, 7), (7, 5), (0xFF, 2), (0xFF, 6), (3, 6), (1, 1), (5, 4), (6, 3)):
        s.ring(mask, 100, 2, reach=reach)
        s.ring_state()
        s.elapsed(3)
    s.elapsed(100, ends=97)
    return s


@stored
def starts_out_of_reach_while_silent():
    """Failed: status 1 and zeros; it stays silent, the nonce is spent, and a press gives consent."""
    s = owned()
    for mask, reach in ((7, 0), (0xFF, 0), (1, 6), (2, 5), (4, 3), (3, 4)):
        s.ring(mask, 50, 1, reach=reach)
        s.ring_state()
    s.elapsed(100, ends=0)
    s.read()
    start = request(s.sub(2), s.tag.nonce, 5, bytes([1, 0, 50, 0]))
    s.write(start, reach=2)
    s.write(start, expect=0x80, reach=1)
    s.button()
    s.recover()
    s.ring(1, 50, reach=1)
    s.elapsed(50, ends=50)
    return s


@stored
def starts_out_of_reach_while_ringing():
    """Failed: the old ring keeps its mask and its timer, which the notice tells; it ends when it would have, under its own nonce."""
    s = owned()
    s.ring(3, 100, 3)
    s.elapsed(40)
    s.ring(4, 600, reach=3)
    s.ring_state()
    s.elapsed(10, ends=0)
    s.ring(0xFF, 600, reach=0)
    s.ring(1, 600, reach=6)
    s.ring_state()
    s.elapsed(49, ends=0)
    s.ring_state()
    s.elapsed(600, ends=1)
    s.ring(2, 10)
    s.ring(2, 20, reach=5)
    s.elapsed(30, ends=10)
    s.ring(2, 10)
    s.ring(1, 20, reach=2)
    s.button()
    s.elapsed(30, ends=0)
    return s


@stored
def stops_out_of_reach():
    """A stop fails when every sounding part is out of reach; the ring goes on and ends under its own nonce. Other parts don't count."""
    s = owned()
    s.ring(1, 100, 1)
    s.elapsed(7)
    s.ring(0, 0, reach=6)
    s.ring_state()
    s.ring(0, 0xFFFF, 3, reach=0)
    s.elapsed(50, ends=0)
    s.ring(0, 1, reach=2)
    s.ring_state()
    s.elapsed(50, ends=43)
    s.ring_state()
    s.ring(7, 100, reach=6)
    s.ring(0, 0, reach=1)
    s.ring_state()
    s.read()
    s.button()
    s.ring_state()
    return s


@stored
def stops_partly_in_reach():
    """A stop that reaches one sounding part silences all; while silent a stop needs no reach."""
    s = owned()
    for mask, reach in ((7, 1), (7, 4), (5, 6), (3, 2), (2, 7)):
        s.ring(mask, 100)
        s.elapsed(3)
        s.ring(0, 0, reach=reach)
        s.ring_state()
    s.elapsed(200, ends=0)
    for reach in (0, 1, 6, 7):
        s.ring(0, 0, reach=reach)
    s.ring_state()
    return s


@stored
def partly_reachable_start_replaces_the_ring():
    """The old ring is replaced whole: mask, timer and nonce, also where an old part is out of reach now."""
    s = owned()
    s.ring(1, 500, 3)
    s.elapsed(9)
    s.ring(6, 30, 1, reach=2)
    s.ring_state()
    s.elapsed(29, ends=0)
    s.elapsed(1, ends=1)
    s.ring(7, 30)
    s.ring(7, 400, reach=1)
    s.elapsed(30, ends=0)
    s.ring_state()
    s.ring(0, 0, reach=6)
    s.elapsed(370, ends=370)
    return s


@stored
def failed_start_and_the_old_nonce():
    """The failed start is signed with its own nonce; the timeout of the old ring with the old ring's."""
    s = owned()
    s.read(ANY_TAG)
    s.write(request(s.sub(2), ANY_TAG, 5, bytes([7, 0, 5, 0])))
    for reach in (0, 0, 0):
        s.ring(7, 900, reach=reach)
    s.read()
    s.elapsed(5, ends=5)
    s.ring(7, 5, reach=0)
    s.elapsed(5, ends=0)
    return s


@stored
def values_before_reach():
    """Tags and values are judged on what was asked for, before reach."""
    s = owned(components=2)
    for reach in (0, 1, 3):
        s.ring(0x04, 10, expect=0x81, reach=reach)
        s.ring(0x07, 10, expect=0x81, reach=reach)
        s.ring(0x01, 0, expect=0x81, reach=reach)
        s.ring(0x01, 6001, expect=0x81, reach=reach)
        s.ring(0x01, 10, 4, expect=0x81, reach=reach)
        s.ring(0x00, 0, 4, expect=0x81, reach=reach)
        s.ask(KEY_A, 5, bytes([1, 0, 9, 0]), expect=0x80, reach=reach)
    s.ring(0x03, 6000, 3, reach=2)
    s.ring(0x01, 0, expect=0x81, reach=0)
    s.ring_state()
    return s


def reach_refused(components):
    """A bit outside the ringable mask: refused with 1 before the nonce is spent, whatever the write."""
    s = owned(components=components)
    outside = [1 << bit for bit in range(components, 8)]
    for reach in outside[:2] + [0x80, 0xFF]:
        s.write(b"", expect=1, reach=reach)
        s.write(request(KEY_A, s.tag.nonce, 1), expect=1, reach=reach)
        s.read()
        for ident, key, data in (
            (0, KEY_A, b""), (1, KEY_A, b""), (2, KEY_A, encrypt(KEY_A, IDENTITY_2) + s.tag.proof()), (3, KEY_A, s.tag.proof()),
            (4, s.sub(1), b""), (5, s.sub(2), bytes([0, 0, 0, 0])), (6, s.sub(2), b""), (7, s.sub(3), b""), (8, s.sub(3), s.tag.proof()),
        ):
            s.write(request(key, s.tag.nonce, ident, data), expect=1, reach=reach)
        for data in (b"", b"\x09\x08" + bytes(8), bytes(125), b"\x01\x08" + ANY_TAG):
            s.write(data, expect=1, reach=reach)
        s.write(request(KEY_A, s.tag.nonce, 1), reach=0)
        s.write(request(KEY_A, s.tag.nonce, 1), expect=0x80, reach=0)
    s.ring(0, 0, reach=0)
    if components:
        s.ring(1, 5, reach=1)
        s.read()
        s.write(request(s.sub(2), s.tag.nonce, 5, bytes([0, 0, 0, 0])), expect=1, reach=outside[0] + 1)
        s.elapsed(9, ends=5)
    return s


@stored
def reach_without_components():
    return reach_refused(0)


@stored
def reach_with_one_component():
    return reach_refused(1)


@stored
def reach_with_two_components():
    return reach_refused(2)


@stored
def reach_with_three_components():
    return reach_refused(3)


@stored
def reach_and_the_other_writes():
    """Nothing but 0x05 looks at reach."""
    s = Session()
    s.key(KEY_A)
    s.ask(KEY_A, 1, reach=0)
    s.ask(KEY_A, 0, reach=0)
    s.ask(KEY_A, 2, encrypt(KEY_A, IDENTITY_1), reach=0)
    s.disconnect()
    s.ask(s.sub(2), 6, reach=0)
    s.ring(3, 100, reach=3)
    s.ask(s.sub(2), 6, reach=0)
    s.ask(s.sub(2), 6, reach=4)
    s.button()
    s.button()
    s.ask(s.sub(1), 4, reach=0)
    s.ask(s.sub(3), 7, b"\x01", reach=0)
    s.frame()
    s.ask(s.sub(3), 8, lambda nonce: sha(IDENTITY_1, nonce)[:8], reach=0)
    s.ask(KEY_A, 3, lambda nonce: sha(IDENTITY_1, nonce)[:8], reach=0)
    return s


@stored
def skipped_rings_and_reach():
    """Under skip too a start or stop that reaches nothing fails, with a notice under the ring key."""
    s = owned()
    s.protect(b"\x01")
    ring = bytes([5, 12]) + ANY_TAG + bytes([0xFF, 0, 20, 2])
    stop = bytes([5, 12]) + ANY_TAG + bytes(4)
    for data, reach in ((ring, 0), (stop, 0), (ring, 5), (stop, 2), (ring, 0), (stop, 0)):
        s.read()
        s.write(data, reach=reach)
        s.write(data, expect=0x80)
    s.elapsed(19, ends=0)
    s.ring_state()
    s.read()
    s.write(stop, reach=4)
    s.ring_state()
    return s
