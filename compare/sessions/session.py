"""A session being written: the lines of its file, and what the model answers to them."""

from aes import encrypt
from model import Model, Refused, request, sha


OK = "ok"


class Session:
    """Lines of a replay file, and the answers that the model gives to them."""

    def __init__(self, power=-20, components=3, volume=1, first=1):
        self.lines = [f"power={power}", f"components={components}", f"volume={volume}"]
        self.answers = []
        self.count = first  # numbers the nonces
        try:
            self.tag = Model(power, components, volume)
        except Refused as no:
            self.refuse(no)

    def text(self):
        return "".join(line + "\n" for line in self.lines)

    def answer_text(self):
        return "".join(line + "\n" for line in self.answers)

    def refuse(self, no):
        self.answers += ["answer=refused", f"code={no.code:02x}"]

    def run(self, name, lines, call, expect):
        self.lines += ["event=" + name] + lines
        try:
            told = call()
        except Refused as no:
            self.refuse(no)
            outcome = no.code
        else:
            outcome = OK
            self.answers.append("answer=" + name)
            if told:
                self.answers.append("bytes=" + told.hex())
        if expect is not None and expect != outcome:
            raise SystemExit(f"{self.lines[-1]}: {outcome}, expected {expect}")

    def read(self, nonce=None, expect=OK):
        if nonce is None:
            nonce = sha(b"nonce", self.count.to_bytes(4, "big"))[:8]
            self.count += 1
        self.run("read", ["nonce=" + nonce.hex()], lambda: self.tag.read(nonce), expect)

    def write(self, data, expect=OK, reach=None):
        """With everything in reach, unless a mask is given."""
        reach = self.tag.parts if reach is None else reach
        self.run("write", ["data=" + data.hex(), f"reach={reach:02x}"], lambda: self.tag.write(data, reach), expect)

    def elapsed(self, tenths, ends=None):
        self.lines += ["event=elapsed", f"tenths={tenths}"]
        at, told = self.tag.elapsed(tenths)
        if ends is not None and ends != at:
            raise SystemExit(f"tenths={tenths}: ends at {at}, expected {ends}")
        self.answers += ["answer=elapsed", f"notes={int(at > 0)}"]
        if at:
            self.answers += [f"at={at}", "bytes=" + told.hex()]
        self.answers.append(f"clock={self.tag.seconds}")

    def button(self):
        self.run("button", [], self.tag.button, OK)

    def disconnect(self):
        self.run("disconnect", [], self.tag.disconnect, OK)

    def pairing(self, on):
        def call():
            self.tag.pairing = on == 1
        self.run("pairing", [f"on={on}"], call, OK)

    def battery(self, level, expect=OK):
        def call():
            if level > 3:
                raise Refused(1)
            self.tag.battery = level
        self.run("battery", [f"level={level}"], call, expect)

    def key(self, key, expect=OK):
        self.run("key", ["bytes=" + key.hex()], lambda: self.tag.key(key), expect)

    def frame(self, expect=OK):
        self.run("frame", [], self.tag.frame, expect)

    # Whole requests, each with a read before it.

    def ask(self, key, ident, data=b"", expect=OK, reach=None):
        """A read, then a write with a right tag. Data may be a function of the nonce."""
        self.read()
        if callable(data):
            data = data(self.tag.nonce)
        self.write(request(key, self.tag.nonce, ident, data), expect, reach)

    def sub(self, number):
        return self.tag.sub_key(number)

    def ring(self, mask, tenths, volume=0, expect=OK, reach=None):
        self.ask(self.sub(2), 5, bytes([mask]) + tenths.to_bytes(2, "big") + bytes([volume]), expect, reach)

    def ring_state(self, expect=OK):
        self.ask(self.sub(2), 6, b"", expect)

    def protect(self, data=b"", expect=OK):
        self.ask(self.sub(3), 7, data, expect)

    def unprotect(self, expect=OK):
        self.ask(self.sub(3), 8, lambda nonce: self.tag.proof(), expect)

    def status(self, key, expect=OK):
        self.ask(key, 1, b"", expect)

    def parameters(self, key, expect=OK):
        self.ask(key, 0, b"", expect)

    def recover(self, expect=OK):
        self.ask(self.sub(1), 4, b"", expect)

    def recover_as(self, identity, expect=OK):
        """0x04 as by a phone that holds this identity key, whatever the tag holds."""
        self.ask(sha(identity, b"\x01")[:8], 4, b"", expect)

    def offer_identity(self, identity, expect=OK):
        """0x02 of 40 or, where a key is in force, of 48."""
        held = self.tag.identity is not None
        self.ask(self.tag.owner, 2,
                 lambda nonce: encrypt(self.tag.owner, identity) + (self.tag.proof() if held else b""), expect)

    def set_identity(self, identity):
        """0x02 and the disconnect that brings the key in."""
        self.offer_identity(identity)
        self.disconnect()

    def clear(self, expect=OK):
        self.ask(self.tag.owner, 3, lambda nonce: self.tag.proof(), expect)


KEY_A = bytes.fromhex("a0a1a2a3a4a5a6a7a8a9aaabacadaeaf")
KEY_B = bytes.fromhex("b0b1b2b3b4b5b6b7b8b9babbbcbdbebf")
KEY_C = bytes.fromhex("c0c1c2c3c4c5c6c7c8c9cacbcccdcecf")
IDENTITY_1 = bytes(range(0x10, 0x30))
IDENTITY_2 = bytes(range(0x80, 0xA0))
ANY_TAG = bytes.fromhex("0123456789abcdef")


def owned(**settings):
    """A session with two account keys, the first of them the owner, and an identity key."""
    s = Session(**settings)
    s.key(KEY_A)
    s.key(KEY_B)
    s.status(KEY_A)
    s.set_identity(IDENTITY_1)
    return s


STORED = {}


def stored(make):
    STORED[make.__name__.replace("_", "-")] = make
    return make
