"""Stored sessions: a random source that repeats. The last sixteen issued nonces are refused, live or spent; the seventeenth back isn't."""

from model import request
from session import KEY_A, Session, owned, stored


def lent(number):
    """The nonce of this number: its bytes differ from those of its neighbours at one end only."""
    return bytes([number]) + b"\x5a\xa5\x5a\xa5\x5a" + bytes([0, 0x33]) if number % 2 else b"\x33\x5a\xa5\x5a\xa5\x5a\x00" + bytes([number])


def issue(s, numbers, expect="ok"):
    for number in numbers:
        s.read(lent(number), expect)


@stored
def source_of_two_values():
    """A, B, A: the third read is refused, and B stays live; so it goes on with A and B, live or spent."""
    s = Session()
    s.key(KEY_A)
    issue(s, (1, 2))
    issue(s, (1, 2, 1), expect=3)
    s.write(request(KEY_A, lent(2), 1))
    issue(s, (1, 2, 1, 2), expect=3)
    s.write(request(KEY_A, lent(2), 1), expect=0x80)
    s.write(request(KEY_A, lent(1), 1), expect=0x80)
    issue(s, (3,))
    issue(s, (1, 2, 3), expect=3)
    s.write(request(KEY_A, lent(3), 0))
    return s


@stored
def source_of_one_value():
    """A value that comes again and again serves once."""
    s = Session()
    s.key(KEY_A)
    for _ in range(3):
        s.read(lent(9), None)
    s.write(request(KEY_A, lent(9), 0))
    issue(s, [9] * 20, expect=3)
    s.write(request(KEY_A, lent(9), 0), expect=0x80)
    return s


@stored
def sixteenth_and_seventeenth_back():
    """Of sixteen issued nonces each is refused; after one more the oldest is accepted, and then the next oldest."""
    s = Session()
    s.key(KEY_A)
    issue(s, range(1, 17))
    issue(s, range(1, 17), expect=3)
    issue(s, (17,))
    issue(s, range(2, 18), expect=3)
    issue(s, (1,))
    s.write(request(KEY_A, lent(1), 1))
    issue(s, list(range(3, 18)) + [1], expect=3)
    issue(s, (2,))
    issue(s, (3,))
    issue(s, (5, 17, 1, 2, 3), expect=3)
    issue(s, (4, 5, 6))
    s.write(request(KEY_A, lent(6), 1))
    return s


@stored
def refused_reads_enter_nothing():
    """Refused reads neither count among the sixteen nor make a nonce newer."""
    s = Session()
    s.key(KEY_A)
    issue(s, range(1, 17))
    for size in (0, 7, 9):
        s.read(b"\x44" * size, expect=3)
    issue(s, [1] * 17, expect=3)
    issue(s, (17,))
    issue(s, [2] * 17, expect=3)
    issue(s, (1,))
    issue(s, (3,), expect=3)
    issue(s, (2, 3))
    s.write(request(KEY_A, lent(3), 1))
    return s


@stored
def nonces_across_a_clear():
    """0x03 keeps all sixteen, spent; so do a disconnect, a press and 2^32 seconds."""
    s = owned()
    issue(s, range(20, 34))
    s.clear()
    first = s.tag.nonces[-1]
    issue(s, range(20, 34), expect=3)
    s.read(first, expect=3)
    s.key(KEY_A)
    s.write(request(KEY_A, lent(33), 1), expect=0x80)
    s.disconnect()
    s.button()
    for _ in range(10):
        s.elapsed(4294967295)
    s.elapsed(10)
    issue(s, range(20, 34), expect=3)
    s.read(first, expect=3)
    s.read(lent(1))
    s.read(first)
    s.write(request(KEY_A, first, 1))
    issue(s, range(21, 34), expect=3)
    issue(s, (20,))
    return s


@stored
def nonces_of_zeros():
    """Zeros are a value: accepted once beside fewer than sixteen, and again when seventeen back."""
    s = Session()
    s.key(KEY_A)
    issue(s, (1, 2, 3))
    s.read(bytes(8))
    s.read(bytes(8), expect=3)
    s.write(request(KEY_A, bytes(8), 1))
    issue(s, range(4, 19))
    s.read(bytes(8), expect=3)
    issue(s, (19,))
    s.read(bytes(8))
    s.write(request(KEY_A, bytes(8), 1))
    return s


@stored
def write_of_an_earlier_issue():
    """A nonce that is issued again, seventeen back, is a new issue: the same write serves once more. Until then it doesn't."""
    s = Session()
    s.key(KEY_A)
    issue(s, (1,))
    data = request(KEY_A, lent(1), 1)
    s.write(data)
    for number in range(2, 18):
        issue(s, (number,))
        s.write(data, expect=0x80)
    issue(s, (1,))
    s.write(data)
    s.write(data, expect=0x80)
    return s


@stored
def ring_older_than_sixteen_nonces():
    """A ring keeps its nonce, however many are issued after it."""
    s = owned()
    issue(s, (1,))
    s.write(request(s.sub(2), lent(1), 5, bytes([1, 0, 50, 0])))
    issue(s, range(2, 18))
    s.elapsed(20, ends=0)
    issue(s, (1,))
    issue(s, (18,))
    s.elapsed(40, ends=30)
    return s


@stored
def sources_of_every_period():
    """A source that repeats itself after 1 to 20 values: up to a period of sixteen no value comes a second time, and from seventeen on each does."""
    s = Session()
    for period in range(1, 21):
        values = [bytes([period, 0, 0, 0, 0, 0, 0, number]) for number in range(period)]
        for value in values:
            s.read(value, "ok")
        for value in values + values[:2]:
            s.read(value, 3 if period <= 16 else "ok")
    return s
