"""Stored sessions: ringing and protection."""

from session import ANY_TAG, IDENTITY_2, OK, STORED, owned, stored


@stored
def ring_to_timeout():
    """Left 5: 4 tenths leave 1, then it ends; 5 and 6 end it at 5. The ring's own nonce signs."""
    s = owned()
    s.ring(0x01, 5, 1)
    s.elapsed(4, ends=0)
    s.ring_state()
    s.elapsed(1, ends=1)
    s.ring_state()
    s.ring(0x02, 5, 2)
    s.elapsed(5, ends=5)
    s.ring(0x04, 5, 3)
    s.read()
    s.elapsed(6, ends=5)
    s.elapsed(6, ends=0)
    s.ring(0xFF, 6000, 0)
    s.elapsed(5999, ends=0)
    s.ring_state()
    s.elapsed(4294967295, ends=1)
    s.ring_state()
    return s


@stored
def ring_and_button():
    """A press stops the ring and gives no consent; the next press does."""
    s = owned()
    s.ring(0x03, 100)
    s.elapsed(40)
    s.ring_state()
    s.read()
    s.button()
    s.ring_state()
    s.recover(expect=0x82)
    s.button()
    s.recover()
    s.ring(0x01, 50)
    s.elapsed(10)
    s.button()
    s.elapsed(588)
    s.recover()
    s.elapsed(2)
    s.recover(expect=0x82)
    return s


@stored
def ring_replaced():
    """A ring replaces another with no stop notice; the timeout is signed with the newer ring's nonce."""
    s = owned()
    s.ring(0x01, 100, 3)
    s.elapsed(99)
    s.ring(0x06, 30, 1)
    s.elapsed(29, ends=0)
    s.ring_state()
    s.elapsed(1, ends=1)
    s.ring(0x01, 3)
    s.ring(0x08, 50, expect=0x81)
    s.elapsed(3, ends=3)
    return s


@stored
def ring_stopped_by_write():
    """A stop is signed with its own nonce, ignores its timeout, and may come while silent."""
    s = owned()
    s.ring(0x00, 0)
    s.ring(0x07, 600, 2)
    s.elapsed(7)
    s.ring(0x00, 0xFFFF, 3)
    s.ring_state()
    s.elapsed(600, ends=0)
    s.ring(0x00, 0, 4, expect=0x81)
    return s


def ring_all(components, good):
    s = owned(components=components)
    for mask in (0x01, 0x02, 0x04, 0x05, 0x07, 0x08, 0x80, 0xFE, 0xFF):
        s.ring(mask, 9, expect=OK if mask in good else 0x81)
        s.ring_state()
    s.ring(0x00, 9)
    s.ring_state()
    return s


STORED["ring-masks-0-components"] = lambda: ring_all(0, ())
STORED["ring-masks-1-component"] = lambda: ring_all(1, (1, 0xFF))
STORED["ring-masks-2-components"] = lambda: ring_all(2, (1, 2, 0xFF))
STORED["ring-masks-3-components"] = lambda: ring_all(3, (1, 2, 4, 5, 7, 0xFF))


@stored
def ring_timeouts_and_volumes():
    """Timeouts 1, 6,000, 6,001, 0 and 65,535; volumes 3 and 4, selectable and not."""
    s = owned(volume=0)
    s.ring(1, 1, 3)
    s.ring(1, 6000, 3)
    s.ring(1, 6001, expect=0x81)
    s.ring(1, 0, expect=0x81)
    s.ring(1, 65535, expect=0x81)
    s.ring(1, 10, 4, expect=0x81)
    s.ring(1, 10, 255, expect=0x81)
    s.ring_state()
    s.ring(0, 0)
    s.ring(0, 0, 4, expect=0x81)
    return s


@stored
def protection_flags():
    """The flag absent, 0, 1 and others; given again, the new flag holds."""
    s = owned()
    s.protect()
    s.protect(b"\x01")
    s.read()
    s.write(bytes([5, 12]) + ANY_TAG + bytes([1, 0, 9, 0]))
    s.protect(b"\x00")
    s.read()
    s.write(bytes([5, 12]) + ANY_TAG + bytes([1, 0, 9, 0]), expect=0x80)
    s.protect(b"\x02", expect=0x81)
    s.protect(b"\xff", expect=0x81)
    s.protect(b"\x01")
    s.protect()
    s.read()
    s.write(bytes([5, 12]) + ANY_TAG + bytes([0, 0, 0, 0]), expect=0x80)
    return s


@stored
def protection_skipped_ring():
    """Under skip any tag rings and stops, with a live nonce only; never 0x06. Values still count."""
    s = owned()
    s.protect(b"\x01")
    ring = bytes([5, 12]) + ANY_TAG + bytes([0xFF, 0, 20, 2])
    s.write(ring, expect=0x80)
    s.read()
    s.write(ring)
    s.write(ring, expect=0x80)
    s.elapsed(5)
    s.read()
    s.write(bytes([6, 8]) + ANY_TAG, expect=0x80)
    s.ring_state()
    s.elapsed(100, ends=15)
    s.read()
    s.write(ring)
    s.read()
    s.write(bytes([5, 12]) + ANY_TAG + bytes([1, 0, 0, 0]), expect=0x81)
    s.read()
    s.write(bytes([5, 12]) + ANY_TAG + bytes([8, 0, 1, 0]), expect=0x81)
    s.read()
    s.write(bytes([5, 12]) + ANY_TAG + bytes([0, 0, 0, 0]))
    s.read()
    s.write(bytes([7, 9]) + ANY_TAG + b"\x01", expect=0x80)
    s.ring(1, 10)
    s.button()
    return s


@stored
def protection_off():
    """0x08 needs its proof; it passes also where protection was off, and ends the skip flag."""
    s = owned()
    s.unprotect()
    s.protect(b"\x01")
    s.ask(s.sub(3), 8, bytes(8), expect=0x80)
    s.ask(s.sub(2), 8, lambda nonce: s.tag.proof(), expect=0x80)
    s.unprotect()
    s.read()
    s.write(bytes([5, 12]) + ANY_TAG + bytes([1, 0, 9, 0]), expect=0x80)
    s.protect(b"")
    s.unprotect()
    s.unprotect()
    return s


@stored
def protection_outlives_a_new_identity_key():
    """A new identity key keeps protection with its flag; the old sub keys no longer serve."""
    s = owned()
    s.protect(b"\x01")
    old = s.sub(3)
    s.set_identity(IDENTITY_2)
    s.frame()
    s.read()
    s.write(bytes([5, 12]) + ANY_TAG + bytes([1, 0, 9, 0]))
    s.ask(old, 7, b"", expect=0x80)
    s.unprotect()
    s.frame()
    return s
