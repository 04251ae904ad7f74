"""The identifier of a key and a window, by Python's numbers: SECP160R1 of SEC 2, points added by the cases of SEC 1."""

import functools

from aes import encrypt

P = 2**160 - 2**31 - 1
A = P - 3
G = (0x4A96B5688EF573284664698968C38BB913CBFC82, 0x23A628553168947D59DCC912042351377AC5FB32)
N = 0x0100000000000000000001F4C8F927AED3CA752257


def add(one, other):
    """None is the point at infinity."""
    if one is None or other is None:
        return one or other
    (x1, y1), (x2, y2) = one, other
    if x1 == x2 and (y1 + y2) % P == 0:
        return None
    rise, run = (3 * x1 * x1 + A, 2 * y1) if one == other else (y2 - y1, x2 - x1)
    slope = rise * pow(run, -1, P) % P
    x3 = (slope * slope - x1 - x2) % P
    return x3, (slope * (x1 - x3) - y1) % P


def times(many, point):
    total = None
    while many:
        if many & 1:
            total = add(total, point)
        point = add(point, point)
        many >>= 1
    return total


@functools.lru_cache(None)
def identifier(key, seconds_of_window):
    """The identifier and r, 20 bytes each; none if r is 0."""
    tail = b"\x0a" + seconds_of_window.to_bytes(4, "big")
    r = int.from_bytes(encrypt(key, b"\xff" * 11 + tail + bytes(11) + tail), "big") % N
    if r == 0:
        return None
    point = times(r, G)
    return (point[0] if point else 0).to_bytes(20, "big"), (r % 2**160).to_bytes(20, "big")


# A key pair of GEC 2, and the order.
assert times(0xAA374FFC3CE144E6B073307972CB6D57B2A4E982, G)[0] == 0x51B4496FECC406ED0E75A24A3C03206251419DC0
assert times(N, G) is None
