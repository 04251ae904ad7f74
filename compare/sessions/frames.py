"""Stored sessions: frames, and the identifiers that the tag works out for each window."""

from session import IDENTITY_1, IDENTITY_2, KEY_A, KEY_B, Session, owned, stored


def to_window(s, number):
    """Time passes up to the beginning of a window, in as many calls as it takes."""
    while s.tag.time < number * 10240:
        s.elapsed(min(4294967295, number * 10240 - s.tag.time))


@stored
def identifier_windows():
    """An identifier stands for its window: 1,023 seconds and 9 tenths; one tenth more, and another one does. 0x01 tells the same one."""
    s = owned()
    s.frame()
    s.status(KEY_B)
    s.elapsed(10239)
    s.frame()
    s.status(KEY_A)
    s.elapsed(1)
    s.frame()
    s.status(KEY_A)
    s.elapsed(10239)
    s.frame()
    s.elapsed(1)
    s.frame()
    s.status(KEY_B)
    s.parameters(KEY_A)
    return s


@stored
def identifier_of_each_window():
    """Windows whose number has each of its upper 22 bits in turn, up to the last one."""
    s = owned()
    s.battery(1)
    for bit in range(22):
        to_window(s, 1 << bit)
        s.frame()
    to_window(s, (1 << 22) - 1)
    s.frame()
    s.status(KEY_A)
    return s


@stored
def identifier_stands_again():
    """2^32 seconds later, in 42,949,672,960 tenths, the clock is back, and so is the first identifier."""
    s = owned()
    s.frame()
    for _ in range(10):
        s.elapsed(4294967295)
        s.frame()
    s.elapsed(9)
    s.frame()
    s.parameters(KEY_A)
    s.elapsed(1)
    s.frame()
    return s


@stored
def identifiers_of_keys():
    """Each key has its own identifiers: of zeros, of ones, two that differ in their last bit, and the first one again."""
    s = owned()
    s.frame()
    for key in (bytes(32), b"\xff" * 32, IDENTITY_2, IDENTITY_2[:31] + bytes([IDENTITY_2[31] ^ 1]), bytes([IDENTITY_2[0] ^ 0x80]) + IDENTITY_2[1:],
                IDENTITY_1):
        s.offer_identity(key)
        s.frame()
        s.disconnect()
        s.frame()
        s.status(KEY_A)
    s.clear()
    s.frame(expect=5)
    s.key(KEY_A)
    s.status(KEY_A)
    s.frame(expect=5)
    s.set_identity(IDENTITY_2)
    s.frame()
    return s


@stored
def identifiers_with_leading_zeros():
    """Windows in which the x coordinate, or r, is shorter than 160 bits: both are padded to 20 bytes."""
    s = owned()
    s.set_identity(IDENTITY_2)
    s.battery(3)
    for window, of in ((135, 1), (164, 0), (177, 0), (185, 1)):
        to_window(s, window)
        assert s.tag.identifier_now()[of][0] == 0
        s.frame()
        s.status(KEY_A)
    return s


@stored
def frame_flags():
    """Battery 0 to 3, open and protected, and the byte left out; the same with the r of the next window."""
    s = owned()
    for _ in range(2):
        for level in (0, 1, 2, 3):
            s.battery(level)
            s.frame()
        s.protect(b"\x01")
        for level in (3, 2, 1, 0):
            s.battery(level)
            s.frame()
        s.battery(4, expect=1)
        s.frame()
        s.unprotect()
        s.frame()
        s.elapsed(10240)
    return s


@stored
def frame_and_status_before_a_key():
    """Without a key in force there is no frame, and 0x01 tells no identifier; with one, each 0x01 has 21 bytes of data."""
    s = Session(components=0, volume=0)
    s.elapsed(7 * 10240 + 5)
    s.frame(expect=5)
    s.key(KEY_A)
    s.key(KEY_B)
    s.status(KEY_A)
    s.status(KEY_B)
    s.frame(expect=5)
    s.offer_identity(IDENTITY_1)
    s.status(KEY_A)
    s.frame(expect=5)
    s.disconnect()
    s.status(KEY_A)
    s.status(KEY_B)
    s.frame()
    return s
