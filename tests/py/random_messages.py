"""Messages made at random: valid ones in every form that a writer may choose, and damaged ones."""

from scope import BYTES, FIXED32, FIXED64, GROUP, GROUP_END, VARINT, varint

# Where a reader may go wrong by one: the ranges' ends and the ends of 7, 32 and 64 bits.
EDGES = [0, 1, 2, 127, 128, 255, 256, 65535, 65536, 999999999, 1000000000, 2**31 - 1, 2**31, 2**32 - 1, 2**32,
         2**63 - 1, 2**63, 2**64 - 256, 2**64 - 1]
TEXTS = [b"", b"k", b"command", b"TSTP", "übung".encode(), "広告".encode(), b"x" * 127, b"x" * 128]
NO_TEXTS = [b"\xff", b"\xc3(", b"\xed\xa0\x80", b"ok\x80"]
LOG_IDS = [b"i" * 4095, b"i" * 4096]
UNKNOWN = [6, 14, 15, 16, 100, 2047, 2048, 2**29 - 1]


class Maker:
    """Makes messages over a schema. `faults` is how often a field is written wrongly, 0 for never."""

    def __init__(self, schema, rng, faults=0.0):
        self.schema = schema
        self.rng = rng
        self.faults = faults

    def chance(self, share):
        return self.rng.random() < share

    def padded(self, number, share, most):
        """The number's varint, at times longer than needed, up to `most` bytes."""
        out = varint(number)
        if len(out) >= most or not self.chance(share):
            return out
        more = self.rng.randint(1, most - len(out))
        return out[:-1] + bytes([out[-1] | 128]) + b"\x80" * (more - 1) + b"\x00"

    def head(self, number):
        """A tag or length: more than five bytes, which the stock library refuses, are rare."""
        return self.padded(number, 0.06, 10 if self.chance(0.05) else 5)

    def number(self):
        choice = self.rng.random()
        if choice < 0.5:
            return self.rng.randint(0, 300)
        return self.rng.choice(EDGES) if choice < 0.9 else self.rng.getrandbits(64)

    def value(self):
        if self.chance(self.faults):
            return b"\xff" * 9 + bytes([self.rng.randint(2, 127)])
        return self.padded(self.number(), 0.1, 10)

    def text(self):
        if self.chance(0.004):
            return self.rng.choice(NO_TEXTS)
        if self.chance(0.004):
            return self.rng.choice(LOG_IDS)
        if self.chance(0.5):
            return self.rng.choice(TEXTS)
        return bytes(self.rng.randint(32, 126) for _ in range(self.rng.randint(1, 12)))

    def body(self, field):
        if field.message:
            return self.message(field.message)
        if field.numbers:
            return b"".join(self.value() for _ in range(self.rng.randint(0, 4)))
        return self.text() if field.text else self.rng.randbytes(self.rng.randint(0, 20))

    def payload(self, wire_type, body):
        if wire_type == BYTES:
            return self.head(len(body)) + body
        return self.rng.randbytes(8 if wire_type == FIXED64 else 4) if wire_type != VARINT else self.value()

    def known(self, field):
        wire_type = self.rng.choice(field.wire_types)
        body = self.body(field) if wire_type == BYTES else b""
        return self.head(field.number << 3 | wire_type) + self.payload(wire_type, body)

    def unknown(self, name):
        number = self.rng.choice([n for n in UNKNOWN if n not in self.schema[name]])
        wire_type = self.rng.choice((VARINT, FIXED64, BYTES, FIXED32))
        return self.head(number << 3 | wire_type) + self.payload(wire_type, self.rng.randbytes(self.rng.randint(0, 9)))

    def fault(self, name):
        """A field as no writer may write it."""
        field = self.rng.choice(list(self.schema[name].values()))
        number = self.rng.choice([field.number] + UNKNOWN)
        choice = self.rng.randrange(6)
        if choice < 2:
            others = [t for t in (VARINT, FIXED64, BYTES, FIXED32) if t not in field.wire_types]
            wire_type = self.rng.choice(others)
            return varint(field.number << 3 | wire_type) + self.payload(wire_type, self.rng.randbytes(3))
        if choice == 5:
            inner = self.unknown(name) if self.chance(0.5) else b""
            return varint(number << 3 | GROUP) + inner + varint(number << 3 | GROUP_END)
        if choice == 2:
            return varint(number << 3 | self.rng.choice((GROUP, GROUP_END, 6, 7)))
        if choice == 3:
            return varint(self.rng.randint(0, 7)) + self.rng.randbytes(4)
        return varint(self.rng.randint(1, 7) << 32 | number << 3) + self.value()

    def message(self, name):
        fields = list(self.schema[name].values())
        out = b""
        for _ in range(self.rng.choice((0, 1, 1, 2, 2, 3, 4, 6))):
            if self.chance(self.faults):
                out += self.fault(name)
            elif self.chance(0.1):
                out += self.unknown(name)
            else:
                out += self.known(self.rng.choice(fields))
        return out


def flipped(rng, data, at):
    return data[:at] + bytes([data[at] ^ 1 << rng.randrange(8)]) + data[at + 1:]


def cut(_rng, data, at):
    return data[:at]


def stepped(rng, data, at):
    """A byte up or down by one: where it is a length, its part ends one byte off."""
    return data[:at] + bytes([data[at] + rng.choice((1, 255)) & 255]) + data[at + 1:]


def replaced(rng, data, at):
    return data[:at] + bytes([rng.choice((0, 1, 127, 128, 255))]) + data[at + 1:]


def inserted(rng, data, at):
    return data[:at] + rng.randbytes(rng.randint(1, 3)) + data[at:]


def removed(rng, data, at):
    return data[:at] + data[at + rng.randint(1, 3):]


def repeated(rng, data, at):
    return data[:at] + data[at:at + rng.randint(1, 12)] + data[at:]


def retyped(rng, data, at):
    """A byte with other low three bits: where it is a tag, the wire type."""
    return data[:at] + bytes([data[at] & 0xF8 | rng.randrange(8)]) + data[at + 1:]


DAMAGES = [flipped, cut, stepped, replaced, inserted, removed, repeated, retyped]


def damaged(rng, data):
    """The message after one to three accidents."""
    for _ in range(rng.choice((1, 1, 1, 2, 3))):
        if data:
            data = rng.choice(DAMAGES)(rng, data, rng.randrange(len(data)))
    return data
