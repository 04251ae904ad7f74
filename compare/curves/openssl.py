"""OpenSSL's curves, by its library libcrypto: the order of a base point, and x coordinates of its multiples."""
import ctypes, ctypes.util, sys

lib = ctypes.CDLL(ctypes.util.find_library("crypto"))
P = ctypes.c_void_p


class Curve:
    """A curve of OpenSSL's by its name: the order, and the x coordinate of r times the base point (0 for infinity)."""

    def __init__(self, digit, name, size):
        self.digit, self.name, self.size = digit, name, size
        for f in ("EC_GROUP_new_by_curve_name", "EC_POINT_new", "BN_new", "BN_CTX_new", "BN_bin2bn", "EC_GROUP_get0_order"):
            getattr(lib, f).restype = P
        self.group = P(lib.EC_GROUP_new_by_curve_name(lib.OBJ_sn2nid(name.encode())))
        self.point, self.context = P(lib.EC_POINT_new(self.group)), P(lib.BN_CTX_new())
        self.scalar, self.x = P(lib.BN_new()), P(lib.BN_new())
        self.order = self.number(P(lib.EC_GROUP_get0_order(self.group)))

    def number(self, bn):
        room = ctypes.create_string_buffer(64)
        size = lib.BN_bn2bin(bn, room)
        return int.from_bytes(room.raw[:size], "big")

    def times_base(self, r):
        if r == 0:
            return 0
        lib.BN_bin2bn(r.to_bytes(32, "big"), 32, self.scalar)
        if lib.EC_POINT_mul(self.group, self.point, self.scalar, None, None, self.context) != 1:
            sys.exit("EC_POINT_mul failed")
        if lib.EC_POINT_get_affine_coordinates(self.group, self.point, self.x, None, self.context) != 1:
            sys.exit("EC_POINT_get_affine_coordinates failed")
        return self.number(self.x)
