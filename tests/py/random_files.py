"""Random stored files for tests/side_by_side: a file, and a second one made from it by changing a little.

A file is made as a list of records, (kind, delay in nanoseconds, data), the first an accept.
"""

import collector
from side_by_side import ACCEPT, AREA_LIMIT, EXIT, WINDOW_SIZE, Lent

SUSPEND = 12
IO_KINDS = range(6, 11)
# around the blocks that data may be compared by, and some larger
SIZES = [0, 1, 2, 7, 8, 9, 15, 16, 17, 31, 32, 33, 47, 48, 49, 63, 64, 65, 96, 100, 127, 128, 129, 300, 1000, 4096]
PLAIN = b" Recorded at a terminal: ls -l /var/log.\r\n"


# ---- an accept's message

def varint(number):
    out = bytearray()
    while number > 127:
        out.append(number & 127 | 128)
        number >>= 7
    return bytes(out) + bytes([number])


def number_field(field, value):
    return varint(field << 3) + varint(value % 2**64)


def bytes_field(field, value):
    return varint(field << 3 | 2) + varint(len(value)) + value


def text(rng):
    return rng.choice([b"x", b"root", b"/usr/bin/ls", b"", b"a\\b\x1b[31m\x7f", rng.randbytes(20)])


def numbers(rng):
    return [rng.choice([0, 4, 24, -1, 2**63, 12345678901234]) for _ in range(rng.randrange(4))]


# An entry's value of each kind, or none, or two of which the last counts.
VALUES = [
    lambda rng: b"",
    lambda rng: number_field(2, rng.choice([80, 0, -5, 2**63])),
    lambda rng: bytes_field(3, text(rng)),
    lambda rng: bytes_field(4, b"".join(bytes_field(1, text(rng)) for _ in range(rng.randrange(4)))),
    lambda rng: bytes_field(5, bytes_field(1, b"".join(varint(number % 2**64) for number in numbers(rng)))),
    lambda rng: bytes_field(5, b"".join(number_field(1, number) for number in numbers(rng))),
    lambda rng: bytes_field(3, text(rng)) + number_field(2, 7),
    lambda rng: bytes_field(4, bytes_field(1, b"old")) + bytes_field(4, bytes_field(1, b"new")),
]


def accept_message(rng):
    time = number_field(1, rng.choice([1712345678, 0, -5, 2**40])) + number_field(2, rng.choice([123456789, 1, 0, -1, 10**9]))
    entries = [bytes_field(2, bytes_field(1, rng.choice([b"command", b"runargv", b"k", b"", b"\n"])) + rng.choice(VALUES)(rng))
               for _ in range(rng.randrange(6))]
    parts = [bytes_field(1, time)] * rng.randrange(2) + entries + [number_field(3, 1)] * rng.randrange(2)
    rng.shuffle(parts)
    return b"".join(parts)


# ---- records

def data_bytes(rng, size):
    """Text, zeros, or any bytes; repeated, so that two records' data are often the same for long."""
    some = rng.choice([PLAIN, b"\0", b"A", rng.randbytes(16)])
    return (some * (size // len(some) + 1))[:size]


def delay(rng):
    return rng.choice([0, 0, 1, collector.SECOND, 999999999, rng.randrange(5 * collector.SECOND), rng.randrange(2**20) * collector.SECOND])


def exit_record(rng):
    signal = rng.choice([b"", b"", b"SEGV", b"\x1b[0m", b"x" * 127])
    error = rng.choice([b"", b"", b"command not found", data_bytes(rng, rng.choice(SIZES))])
    return EXIT, delay(rng), bytes([rng.randrange(256), rng.choice([0, 128]) | len(signal)]) + signal + error


def timed_record(rng):
    kind = rng.choice([7, 7, 7, *IO_KINDS, WINDOW_SIZE, SUSPEND])
    if kind == WINDOW_SIZE:
        data = bytes(rng.choice([0, 1, 24, 80, 255]) for _ in range(4))
    elif kind == SUSPEND:
        data = rng.choice([b"TSTP", b"CONT", b"\x1b]0;", data_bytes(rng, rng.choice([1, 31, 32, 33, 127]))])
    else:
        data = data_bytes(rng, rng.choice(SIZES))
    return kind, delay(rng), data


def made(rng):
    """A valid file's records."""
    how = rng.random()
    accept = b"A" if how < 0.4 else accept_message(rng) if how < 0.8 else data_bytes(rng, rng.choice(SIZES))
    ends = [exit_record(rng)] if rng.random() < 0.5 else []
    return [(ACCEPT, 0, accept)] + [timed_record(rng) for _ in range(rng.randrange(7))] + ends


def packed(records):
    return b"".join(collector.record(*record) for record in records)


# ---- one file made from the other: each takes records and returns others, valid or not

def with_record(records, at, record):
    return records[:at] + [record] + records[at + 1:]


def byte_changed(rng, records):
    at = rng.randrange(len(records))
    kind, moment, data = records[at]
    if not data:
        return records
    changed = bytearray(data)
    for _ in range(rng.choice([1, 1, 1, 2])):
        changed[rng.choice([rng.randrange(len(data)), 0, len(data) - 1])] ^= 1 << rng.randrange(8)
    return with_record(records, at, (kind, moment, bytes(changed)))


def data_cut(rng, records):
    at = rng.randrange(len(records))
    kind, moment, data = records[at]
    return with_record(records, at, (kind, moment, data[:rng.choice([rng.randrange(len(data) + 1), max(0, len(data) - 1)])]))


def data_lengthened(rng, records):
    at = rng.randrange(len(records))
    kind, moment, data = records[at]
    return with_record(records, at, (kind, moment, data + data_bytes(rng, rng.choice([1, 1, 2, 32, 100]))))


def time_changed(rng, records):
    """By seconds, by nanoseconds alone, or by one of each."""
    at = rng.randrange(len(records))
    kind, moment, data = records[at]
    other = moment + rng.choice([1, collector.SECOND, collector.SECOND + 1, 1 << 28, 16 * collector.SECOND])
    return with_record(records, at, (kind, other if other <= collector.LIMIT else moment - 1, data))


def kind_changed(rng, records):
    at = rng.randrange(len(records))
    return with_record(records, at, (rng.choice([*IO_KINDS, *IO_KINDS, *range(16)]), *records[at][1:]))


def dropped(rng, records):
    at = rng.randrange(len(records))
    return records[:at] + records[at + 1:]


def doubled(rng, records):
    at = rng.randrange(len(records))
    return records[:at + 1] + records[at:]


def swapped(rng, records):
    one, other = rng.randrange(len(records)), rng.randrange(len(records))
    return with_record(with_record(records, one, records[other]), other, records[one])


def without_end(rng, records):
    return records[:-rng.randrange(1, 3)]


def with_another_end(rng, records):
    return (records[:-1] if records[-1][0] == EXIT else records) + [exit_record(rng)]


def with_another_record(rng, records):
    at = rng.randrange(1, len(records) + 1)
    return records[:at] + [timed_record(rng)] + records[at:]


def with_a_great_delay(rng, records):
    """The greatest delay there is, so that the total is at its limit or beyond it."""
    return records[:1] + [(7, collector.LIMIT - rng.randrange(2), b"late")] + records[1:]


CHANGES = [byte_changed, byte_changed, byte_changed, data_cut, data_lengthened, time_changed, time_changed, kind_changed, dropped, doubled,
           swapped, without_end, with_another_end, with_another_record, with_a_great_delay]


def changed(rng, records):
    for _ in range(rng.choice([0, 1, 1, 1, 1, 2, 3])):
        records = rng.choice(CHANGES)(rng, records) or records
    return records


# ---- damage to the bytes

def bit_turned(rng, file):
    at = rng.choice([rng.randrange(len(file)), min(len(file) - 1, rng.randrange(11))])
    return file[:at] + bytes([file[at] ^ 1 << rng.randrange(8)]) + file[at + 1:]


def cut(rng, file):
    return file[:rng.choice([rng.randrange(len(file)), len(file) - 1, 0])]


def with_more(rng, file):
    return file + rng.choice([b"\0", b"x" * 10, b"\0" * 11, bytes([0xFF]) * 11, file])


def other_bytes(rng, file):
    return rng.randbytes(rng.randrange(40))


def damaged(rng, file):
    return rng.choice([bit_turned, bit_turned, cut, with_more, other_bytes])(rng, file)


# ---- files as they are lent

def pair(rng):
    """The bytes of two files: the second from the first, in some cases one or both damaged."""
    records = made(rng)
    if rng.random() < 0.05:
        records = with_a_great_delay(rng, records)
    first, second = packed(records), packed(changed(rng, records))
    if rng.random() < 0.1:
        first = damaged(rng, first)
    if second and rng.random() < 0.1:
        second = damaged(rng, second)
    return (first, second) if rng.random() < 0.5 else (second, first)


def lent(rng, file):
    """A file with bytes behind its used ones; of some the used length goes beyond the area, or the area beyond its limit."""
    behind = rng.choice([b"", b"", b"\0" * 11, file[:rng.randrange(len(file) + 1)], b"\x70" + b"\0" * 10])
    area, used = file + behind, len(file)
    if rng.random() < 0.96:
        return Lent(area, len(area), used)
    return rng.choice([
        Lent(area, len(area), len(area) + rng.choice([1, 2, 2**32, 2**63, 2**64 - 1 - len(area)])),
        Lent(area, AREA_LIMIT + 1, used),
        Lent(area, AREA_LIMIT, used),
        Lent(area, len(area), max(0, used - 1)),
    ])
