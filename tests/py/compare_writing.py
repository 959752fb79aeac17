"""The writers beside the stock library's serialisation of the same values: byte for byte, with each TimeSpec
field present in the stock message, since document 01 writes it always. What is written is read back by both
libraries. No difference is known; every one is a failure.

The stock library has nothing like a run of entries that is lent as bytes: what becomes of damaged ones, and of
ones in longer forms, is compared with tests/py/scope.py's walk.
"""

import collections
import json

import scope
import writing
from random_messages import Maker, damaged
from random_values import Values

# What a case may end as.
SAME = "written as stock writes it, and read back by both"
RANGE = "refused with 7: a value outside its range"
ENTRY_RANGE = "refused with 7: an entry outside its range in the run"
ROOM = "refused with 12: a byte too little room"
COPIED = "run of entries in any form, copied unchanged"
RUN_REFUSED = "run of entries, refused with {}"

FORMS = [(name, member) for name, members in writing.MEMBERS.items() for member in members] + [
    (name, 0) for name in [*writing.INFO_MSGS, "ExitMessage", "RestartMessage", "IoBuffer", "ChangeWindowSize",
                           "CommandSuspend", "ClientHello", "ServerHello", "InfoMessage", "StringList", "NumberList",
                           "TimeSpec"]]
RUNS = 5  # every fifth case lends a run
# The least share of all cases, and of each form's cases that end in SAME.
LEAST = {SAME: 0.5, RANGE: 0.04, ENTRY_RANGE: 0.005, ROOM: 0.05, COPIED: 0.03,
         **{RUN_REFUSED.format(number): 0.003 for number in (2, 3, 4, 5, 7)}}
LEAST_SAME = 0.4


class Wrong(Exception):
    """What is wrong with a case."""


class RunWalk(scope.Walk):
    """The walk over a run of entries for a message: as over the message, with any other field refused with 4."""

    def __init__(self, schema, name, run):
        entries = schema[name][writing.INFO_MSGS[name]]
        super().__init__({**schema, name: OnlyField(entries, self)}, name, run)


class OnlyField(dict):
    def __init__(self, field, walk):
        super().__init__({field.number: field})
        self.walk = walk

    def get(self, number):
        return self[number] if number in self else self.walk.refuse(4)


class WritingComparison:
    def __init__(self, library, stock, schema):
        self.library = library
        self.stock = stock
        self.schema = schema
        self.counts = collections.Counter()
        self.written = collections.Counter()

    def expect(self, what, expected, got):
        if expected != got:
            raise Wrong(f"{what}\n  expected {json.dumps(expected)}\n  got      {json.dumps(got)}")

    def entry(self, name, entry):
        """One entry of the message's run, in hex. One that is refused goes on as the stock library writes it."""
        inner = self.stock.written("InfoMessage", entry)
        run = scope.written(writing.INFO_MSGS[name], scope.BYTES, inner).hex()
        expected = {"written": run} if scope.is_entry(entry) else {"refused": 7}
        answer = writing.write(self.library, f"entry:{name}", writing.lent_entry(entry), len(run) // 2)
        self.expect("entry", expected, answer)
        return run

    def lent(self, name, value):
        """The value as its writer is lent it."""
        if name in writing.MEMBERS:
            member, held = value["type"]
            return {"type": [member, self.lent(writing.MEMBERS[name][member], held)]}
        if name in writing.INFO_MSGS:
            return {**value, "run": "".join(self.entry(name, entry) for entry in value["info_msgs"])}
        if name == "ServerHello":
            return {**value, "servers": writing.joined(value["servers"])}
        if name == "StringList":
            return writing.joined(value)
        return writing.lent_entry(value) if name == "InfoMessage" else value

    def refused(self, name, value):
        """Whether a value is outside its range, and by which name it is counted."""
        if scope.in_range(self.schema, name, value):
            return None
        held = value["type"][1] if name in writing.MEMBERS else value
        entries = held.get("info_msgs", []) if isinstance(held, dict) else []
        return RANGE if all(map(scope.is_entry, entries)) else ENTRY_RANGE

    def read_back(self, name, value, message):
        self.expect("read back", {"value": value}, self.library.ask("read", name, message.hex()))
        theirs = self.stock.read(name, message)
        if theirs is None:  # a string that is no UTF-8
            theirs = self.stock.read(name, message, strings=False)
        self.expect("read back by stock", value, theirs)

    def check_taken(self, rng, name, value, lent):
        """A value in range: the bytes, the frame before them, and the room that they need."""
        message = self.stock.written(name, value)
        framed = rng.random() < 0.3
        frame = (len(message).to_bytes(4, "big") if framed else b"") + message
        spare = rng.choice((0, 0, 0, 0, 1, 2, 40, -1))
        if len(frame) + spare < 0:
            spare = 0
        answer = writing.write(self.library, name, lent, len(frame) + spare, framed)
        self.expect("written", {"refused": 12} if spare < 0 else {"written": frame.hex()}, answer)
        if spare < 0:
            return ROOM
        self.read_back(name, value, message)
        return SAME

    def check(self, rng, name, member):
        """Writes and compares one value: what it ended as."""
        value = Values(rng, wild=0.3 if rng.random() < 0.35 else 0.0).message(name, member)
        lent = self.lent(name, value)
        outcome = self.refused(name, value)
        if outcome:
            room, framed = rng.choice((0, 5, 5000)), rng.random() < 0.3
            self.expect("written", {"refused": 7}, writing.write(self.library, name, lent, room, framed))
        else:
            outcome = self.check_taken(rng, name, value, lent)
        self.counts[outcome] += 1
        self.written[name, member] += outcome == SAME

    def made_run(self, rng, name):
        """A run of entries for the message, in any form, at times with what does not belong there."""
        maker = Maker(self.schema, rng, faults=0.05 if rng.random() < 0.3 else 0.0)
        run = b"".join(maker.known(self.schema[name][writing.INFO_MSGS[name]]) for _ in range(rng.randint(0, 3)))
        if rng.random() < 0.1:
            run += maker.message(name)
        return damaged(rng, run) if rng.random() < 0.4 else run

    def run_refusal(self, name, run):
        walk = RunWalk(self.schema, name, run)
        if walk.refusal is not None:
            return walk.refusal
        entries = self.library.ask("decode", name, run.hex())["value"]["info_msgs"]
        return None if all(map(scope.is_entry, entries)) else 7

    def check_run(self, rng, name):
        """Lends a run: copied unchanged, or refused before all else."""
        run = self.made_run(rng, name)
        refusal = self.run_refusal(name, run)
        value = {**Values(rng).message(name), "info_msgs": []}
        around = self.stock.written(name, value)
        behind = 2 if value.get("expect_iobufs") else 0  # 18 01, the only field that may follow the run
        message = around[:len(around) - behind] + run + around[len(around) - behind:]
        if refusal is not None and rng.random() < 0.3:  # goes before a time that is out of range
            value["alert_time" if name == "AlertMessage" else "submit_time"] = [0, -1]
        room = len(message) if refusal is None else rng.choice((0, len(message)))
        expected = {"written": message.hex()} if refusal is None else {"refused": refusal}
        self.expect("run", expected, writing.write(self.library, name, {**value, "run": run.hex()}, room))
        self.counts[COPIED if refusal is None else RUN_REFUSED.format(refusal)] += 1

    def run(self, rng, case):
        """Runs a case: what is wrong, or None."""
        name, member = FORMS[case % len(FORMS)]
        try:
            if rng.randrange(RUNS) == 0:
                name, member = rng.choice(list(writing.INFO_MSGS)), 0
                self.check_run(rng, name)
            else:
                self.check(rng, name, member)
        except Wrong as wrong:
            return f"{name} {member}: {wrong}"
        return None

    def missing(self, count):
        """What occurred too seldom for the comparison to mean anything."""
        few = [name for name, share in LEAST.items() if self.counts[name] < int(share * count)]
        least = int(LEAST_SAME * (count // len(FORMS)))
        return few + [f"{SAME}: {name} {member}" for name, member in FORMS if self.written[name, member] < least]

    def by_message(self):
        """How many were written as stock writes them, for each message."""
        rows = collections.Counter()
        for (name, _), count in self.written.items():
            rows[name] += count
        return rows
