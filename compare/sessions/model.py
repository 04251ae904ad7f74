"""Tags, and the small model of the tag that runs along while a session is made; it follows the papers."""

import hashlib
import hmac

from aes import decrypt, encrypt
from curve import identifier


def sha(*parts):
    return hashlib.sha256(b"".join(parts)).digest()


def mac(key, *parts):
    return hmac.new(key, b"".join(parts), hashlib.sha256).digest()[:8]


def request(key, nonce, ident, data=b""):
    head = bytes([ident, 8 + len(data)])
    return head + mac(key, b"\x01", nonce, head, data) + data


def response(key, nonce, ident, data=b""):
    head = bytes([ident, 8 + len(data)])
    return head + mac(key, b"\x01", nonce, head, data, b"\x01") + data


class Refused(Exception):
    def __init__(self, code):
        self.code = code


LENGTHS = {0: (8,), 1: (8,), 2: (40, 48), 3: (16,), 4: (8,), 5: (12,), 6: (8,), 7: (8, 9), 8: (16,)}


class Model:
    def __init__(self, power, components, volume):
        if not -100 <= power <= 20 or components > 3 or volume > 1:
            raise Refused(1)
        self.power, self.components, self.volume = power, components, volume
        self.time = 0  # tenths, modulo 2^32 seconds
        self.nonces, self.live = [], False  # the last sixteen, the newest first
        self.pairing, self.battery = False, 0
        self.clear()

    def clear(self):
        self.keys, self.owner = [], None  # the most recently used first
        self.identity, self.waiting = None, None  # the key in force, and the one that waits for the disconnect
        self.ring = None  # mask, tenths left, nonce
        self.protection = None  # the skip flag
        self.consent = 0

    @property
    def nonce(self):
        return self.nonces[0] if self.nonces else None

    @property
    def seconds(self):
        return self.time // 10

    @property
    def window(self):
        return self.seconds // 1024 * 1024

    def sub_key(self, number):
        return sha(self.identity, bytes([number]))[:8]

    def proof(self):
        return sha(self.identity, self.nonce)[:8]

    def identifier_now(self):
        """The identifier of the window and its r, if there is a key in force."""
        return None if self.identity is None else identifier(self.identity, self.window)

    def notice(self, nonce, status, mask=0, left=0):
        return response(self.sub_key(2), nonce, 5, bytes([status, mask]) + left.to_bytes(2, "big"))

    def read(self, nonce):
        if len(nonce) != 8 or nonce in self.nonces:
            raise Refused(3)
        self.nonces, self.live = [nonce] + self.nonces[:15], True
        return b"\x01" + nonce

    @property
    def parts(self):
        """The ringable mask."""
        return (1 << self.components) - 1

    def write(self, data, reach):
        if reach | self.parts != self.parts:
            raise Refused(1)
        live, self.live = self.live, False
        if len(data) < 2 or data[1] not in LENGTHS.get(data[0], ()) or len(data) != data[1] + 2:
            raise Refused(0x81)
        ident, tail = data[0], data[10:]
        if not live:
            raise Refused(0x80)

        def right(key):
            return request(key, self.nonce, ident, tail) == data

        def need(fact, code=0x80):
            if not fact:
                raise Refused(code)

        if ident in (0, 1):
            key = next((k for k in self.keys if right(k)), None)
            need(key is not None)
            self.used(key)
            if ident == 0:
                block = bytes([self.power & 0xFF]) + self.seconds.to_bytes(4, "big")
                block += bytes([0, self.components, self.volume]) + bytes(8)
                return response(key, self.nonce, 0, encrypt(key, block))
            if self.owner is None:
                self.owner = key
            bits = (self.identity is not None) + 2 * (key == self.owner)
            return response(key, self.nonce, 1, bytes([bits]) + (self.identifier_now() or (b"",))[0])
        if ident == 2:
            need(self.owner is not None and right(self.owner))
            if self.identity is None:
                need(len(tail) == 32)
            else:
                need(len(tail) == 40 and tail[32:] == self.proof())
            self.used(self.owner)
            self.waiting = decrypt(self.owner, tail[:32])
            return response(self.owner, self.nonce, 2)
        need(self.identity is not None)
        if ident == 3:
            need(right(self.owner) and tail == self.proof())
            owner = self.owner
            self.clear()
            return response(owner, self.nonce, 3)
        if ident == 4:
            need(right(self.sub_key(1)))
            need(self.consent or self.pairing, 0x82)
            return response(self.sub_key(1), self.nonce, 4, encrypt(self.owner, self.identity))
        if ident == 5:
            need(self.protection is True or right(self.sub_key(2)))
            whole = self.parts
            mask, left, volume = tail[0], int.from_bytes(tail[1:3], "big"), tail[3]
            if mask == 0xFF:
                need(whole, 0x81)
                mask = whole
            need(mask | whole == whole and volume <= 3, 0x81)
            need(mask == 0 or 1 <= left <= 6000, 0x81)
            if not reach & (mask or (self.ring[0] if self.ring else 0)) and (mask or self.ring):
                return self.notice(self.nonce, 1, *(self.ring[:2] if self.ring else ()))
            if mask == 0:
                self.ring = None
                return self.notice(self.nonce, 4)
            self.ring = [mask & reach, left, self.nonce]
            return self.notice(self.nonce, 0, mask & reach, left)
        if ident == 6:
            need(right(self.sub_key(2)))
            mask, left = self.ring[:2] if self.ring else (0, 0)
            return response(self.sub_key(2), self.nonce, 6, bytes([mask]) + left.to_bytes(2, "big"))
        need(right(self.sub_key(3)))
        if ident == 7:
            need(tail in (b"", b"\x00", b"\x01"), 0x81)
            self.protection = tail == b"\x01"
        else:
            need(tail == self.proof())
            self.protection = None
        return response(self.sub_key(3), self.nonce, ident)

    def button(self):
        if self.ring:
            told = self.notice(self.ring[2], 3)
            self.ring = None
            return told
        self.consent = 600
        return b""

    def disconnect(self):
        if self.waiting is not None:
            self.identity, self.waiting = self.waiting, None
            self.ring = None

    def elapsed(self, tenths):
        """The tenth at which a ring ended, or 0, and the notice."""
        self.time = (self.time + tenths) % (10 << 32)
        self.consent = max(0, self.consent - tenths)
        if self.ring and self.ring[1] <= tenths:
            ended = self.ring[1], self.notice(self.ring[2], 2)
            self.ring = None
            return ended
        if self.ring:
            self.ring[1] -= tenths
        return 0, b""

    def used(self, key):
        self.keys.remove(key)
        self.keys.insert(0, key)

    def key(self, key):
        if len(key) != 16:
            raise Refused(4)
        if key not in self.keys:
            if len(self.keys) == 10:
                self.keys.remove([k for k in self.keys if k != self.owner][-1])
            self.keys.insert(0, key)

    def frame(self):
        found = self.identifier_now()
        if found is None:
            raise Refused(5)
        ident, r = found
        shield = self.protection is not None
        flags = self.battery * 2 + shield
        body = bytes([0x16, 0xAA, 0xFE, 0x40 + shield]) + ident
        if flags:
            body += bytes([flags ^ sha(r)[31]])
        return bytes([2, 1, 6, len(body)]) + body
