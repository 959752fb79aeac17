"""Values made at random for the writers: in range, with what stands at the ranges' ends, and some beyond."""

from writing import MEMBERS

# The ends of 7, 14, 32 and 64 bits and of the ranges, from which the numbers in a range are picked.
EDGES = [-2**63, -2**31, -1, 0, 1, 127, 128, 255, 256, 16383, 16384, 65535, 65536, 999999999, 1000000000,
         2**31 - 1, 2**31, 2**32 - 1, 2**32, 2**63 - 1]
# Lengths at which a length's own varint grows, that of the message around it too, and the ranges' ends.
SIZES = [0, 1, 100, 120, 126, 127, 128, 129, 4095, 4096]
LONG_SIZES = [16370, 16383, 16384, 20000]
KEYS = ["command", "runuser", "submithost", "submituser", "runargv", "übung"]
INT64, INT32 = (-2**63, 2**63 - 1), (-2**31, 2**31 - 1)
SECONDS, NANOSECONDS = (0, 2**32 - 1), (0, 999999999)
PRINTABLE = bytes(range(32, 127))
NO_UTF8 = [b"\xff", b"\xc3(", b"ok\x80"]


class Values:
    """Makes values in the shape of the vector files. `wild` is how often a part is made without a look at
    its range, 0 for never."""

    def __init__(self, rng, wild=0.0):
        self.rng = rng
        self.wild = wild

    def chance(self, share):
        return self.rng.random() < share

    def number(self, least, most):
        if self.chance(self.wild):
            return self.rng.choice(EDGES)
        choice = self.rng.random()
        if choice < 0.2:
            return 0
        if choice < 0.6:
            return self.rng.choice([edge for edge in EDGES if least <= edge <= most])
        return self.rng.randint(least, most if choice < 0.8 else min(most, 300))

    def flag(self):
        return self.chance(0.5)

    def size(self, least, most):
        if self.chance(self.wild):
            return self.rng.choice((0, 128, 4096))
        choice = self.rng.random()
        if choice < 0.25:
            sizes = SIZES + LONG_SIZES if choice < 0.01 else SIZES
            return self.rng.choice([size for size in sizes if least <= size <= most])
        return self.rng.randint(least, min(most, 12))

    def text(self, least=0, most=2**20):
        """A string's bytes in hex, most of them UTF-8."""
        size = self.size(least, most)
        if 0 < size < most and self.chance(0.03):
            return (self.rng.choice(NO_UTF8) + b"x" * size)[:size].hex()
        start = self.rng.randrange(len(PRINTABLE))
        return (PRINTABLE[start:] + PRINTABLE * (size // len(PRINTABLE) + 1))[:size].hex()

    def data(self):
        return self.rng.randbytes(self.size(0, 2**20)).hex()

    def moment(self):
        return [self.number(*INT64), self.number(*NANOSECONDS)]

    def span(self):
        return [self.number(*SECONDS), self.number(*NANOSECONDS)]

    def time(self):
        """A TimeSpec by itself: any int64, any int32."""
        tame = Values(self.rng)
        return [tame.number(*INT64), self.number(*INT32)]

    def strings(self):
        return [self.text() for _ in range(self.rng.choice((0, 0, 1, 2, 3, 8)))]

    def int64s(self):
        return [self.number(*INT64) for _ in range(self.rng.choice((0, 0, 1, 2, 3, 20)))]

    def entry(self):
        key = self.rng.choice(KEYS).encode().hex() if self.chance(0.5) else self.text(least=1)
        if self.chance(self.wild):
            key = ""
        kind = self.rng.choice((2, 3, 4, 5))
        made = {2: lambda: self.number(*INT64), 3: self.text, 4: self.strings, 5: self.int64s}
        return {"key": key, "value": [kind, made[kind]()]}

    def entries(self):
        return [self.entry() for _ in range(self.rng.choice((0, 1, 2, 3)))]

    def message(self, name, member=0):
        """A value of the message; of a ClientMessage or ServerMessage with that member."""
        if name in MEMBERS:
            held = MEMBERS[name][member]
            return {"type": [member, self.span() if held == "TimeSpec" else self.message(held)]}
        return MADE[name](self)


MADE = {
    "AcceptMessage": lambda v: {"submit_time": v.moment(), "info_msgs": v.entries(), "expect_iobufs": v.flag()},
    "RejectMessage": lambda v: {"submit_time": v.moment(), "reason": v.text(), "info_msgs": v.entries()},
    "AlertMessage": lambda v: {"alert_time": v.moment(), "reason": v.text(), "info_msgs": v.entries()},
    "ExitMessage": lambda v: {"run_time": v.span(), "exit_value": v.number(0, 255), "dumped_core": v.flag(),
                              "signal": v.text(0, 127), "error": v.text()},
    "RestartMessage": lambda v: {"log_id": v.text(1, 4095), "resume_point": v.span()},
    "IoBuffer": lambda v: {"delay": v.span(), "data": v.data()},
    "ChangeWindowSize": lambda v: {"delay": v.span(), "rows": v.number(0, 65535), "cols": v.number(0, 65535)},
    "CommandSuspend": lambda v: {"delay": v.span(), "signal": v.text(1, 127)},
    "ClientHello": lambda v: {"client_id": v.text()},
    "ServerHello": lambda v: {"server_id": v.text(), "redirect": v.text(), "servers": v.strings(),
                              "subcommands": v.flag()},
    "InfoMessage": lambda v: v.entry(),
    "StringList": lambda v: v.strings(),
    "NumberList": lambda v: v.int64s(),
    "TimeSpec": lambda v: v.time(),
    None: lambda v: v.text(),  # log_id, error, abort
}
