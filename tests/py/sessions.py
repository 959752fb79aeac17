"""Vectors of areas, files and sessions: each function yields (what was asked, expected, got).

An area is mapped lazily, so that those of a GiB and more cost nothing.
"""

import hashlib

HASHED = 65536  # areas up to this size are compared whole


def lend(lib, size, start, area=0):
    """An area of this size with its first bytes; some files are longer than what is lent of them."""
    lib.ask("area", str(area), str(size), start[:2 * size])


def answer_of(told):
    """A vector's answer without the place of a refusal, which belongs to a later request."""
    return {name: value for name, value in told.items() if name != "at"}


def answered(reply):
    """The driver's answer, apart from what it says of the session afterwards."""
    return {name: value for name, value in reply.items() if name not in ("used", "state")}


def after(reply):
    return [reply["used"], reply["state"]]


def area_hash(lib, size, area=0):
    return hashlib.sha256(bytes.fromhex(lib.ask("bytes", str(area), "0", str(size))["bytes"])).hexdigest()


def time_in(nanoseconds):
    return [nanoseconds // 10**9, nanoseconds % 10**9]


def restart_message(point):
    """A RestartMessage of the log "a" at a point, as a ClientMessage, in hex."""
    def varint(value):
        out = b""
        while value > 127:
            out += bytes([value % 128 + 128])
            value //= 128
        return out + bytes([value])
    seconds, nanoseconds = point
    time = b"\x08" + varint(seconds) + b"\x10" + varint(nanoseconds)
    body = b"\x0a\x01a\x12" + varint(len(time)) + time
    return (b"\x22" + varint(len(body)) + body).hex()


def check_file(lib, case):
    """A file: what it is; of an unfinished one, what a restart at each of its totals keeps, and at others."""
    out, used = case["out"], str(case["used"])
    lend(lib, case["area_size"], case["area"])
    expected = {"refused": out["refused"]} if "refused" in out else {"finished": out["finished"]}
    yield "file", expected, lib.ask("file", "0", used)
    if "refused" in out:
        points, expected_at = [[0, 0]], lambda _: [15, case["used"]]
    elif out["finished"]:
        points, expected_at = [out["total"]], lambda _: [13, case["used"]]
    else:
        totals = [seconds * 10**9 + nanoseconds for seconds, nanoseconds in out["totals"]]
        ends = dict(zip(totals, out["ends"]))  # the last record of a total is the one that counts
        points = [time_in(t) for total in dict.fromkeys(totals) for t in (total, total + 1) if t < 2**32 * 10**9]
        expected_at = lambda t: [0, ends[t]] if t in ends else [14, case["used"]]
    for point in points:
        lib.ask("open", "0")
        reply = lib.ask("message", "0", "0", used, restart_message(point))
        expected = expected_at(point[0] * 10**9 + point[1])
        yield f"restart at {point}", expected, [reply.get("refused", 0), reply["used"]]


def check_difference(lib, case):
    """Two files laid side by side, and how many records each has: the longer one as many as there are entries."""
    out, asked, counted = case["out"], [], []
    for area, file in enumerate((case["first"], case["second"])):
        lend(lib, file["size"], file["area"], area)
        asked += [str(area), str(file["used"])]
        counted.append(lib.ask("count", *asked[-2:]))
    expected = {"written": out} if isinstance(out, str) else {"refused": out["refused"]}
    yield "compare", expected, lib.ask("compare", *asked, str(case["room"]))
    if expected == {"refused": 15}:
        yield "one is refused", True, {"refused": 15} in counted
    elif "written" in expected:
        yield "records", len(out) // 16, max(count.get("records", -1) for count in counted)


def check_session(lib, case):
    """Calls of sessions over one area."""
    lend(lib, case["area_size"], case["area"])
    opened = set()
    for call in case["calls"]:
        session = str(call["session"])
        if session not in opened:
            opened.add(session)
            lib.ask("open", session)
        reply = lib.ask("message", session, "0", str(call["lent"]), call["message"])
        yield "answer", answer_of(call["answer"]), answered(reply)
        yield "used, state", [call["used"], call["state"]], after(reply)
        yield "tick", call["tick"], lib.ask("tick", session)["point"]
    if case["area_sha256"] is not None:
        yield "area", case["area_sha256"], area_hash(lib, case["area_size"])


def check_stream(lib, case):
    """A stream, cut into frames, each handed to one session."""
    lend(lib, case["area_size"], case["area"])
    lib.ask("open", "0")
    used, rest = case["used"], case["stream"]
    for frame in case["frames"]:
        cut = lib.ask("frame", rest)
        if "frame" not in cut:
            yield "frame", "a whole frame", cut
            return
        end = 8 + 2 * cut["frame"]
        reply = lib.ask("message", "0", "0", str(used), rest[8:end])
        yield "answer", answer_of(frame["answer"]), answered(reply)
        yield "used, state", [frame["used"], frame["state"]], after(reply)
        yield "tick", frame["tick"], lib.ask("tick", "0")["point"]
        used, rest = reply["used"], rest[end:]
    end = case["end"]
    yield "end", {"refused": end["refused"]} if "refused" in end else end, lib.ask("frame", rest)
    yield "used", case["used_after"], used
    if case["file"] is not None and used <= case["area_size"]:
        yield "file", case["file"], lib.ask("bytes", "0", "0", str(used))["bytes"]


def check_trace(lib, case):
    """Demand 3's list: calls over many areas; at the end each area holds the first n records."""
    for number, area in enumerate(case["areas"]):
        lib.ask("area", str(number), str(area["size"]), "")
    opened, used = set(), [0] * len(case["areas"])
    for call in case["calls"]:
        session, area = str(call["session"]), call["area"]
        if session not in opened:
            opened.add(session)
            lib.ask("open", session)
        if call["call"] == "tick":
            yield "tick", call["point"], lib.ask("tick", session)["point"]
            continue
        yield "lent", call["lent"], used[area]
        reply = lib.ask("message", session, str(area), str(call["lent"]), call["message"])
        yield "answer", answer_of(call["answer"]), answered(reply)
        yield "used, state", [call["used"], call["state"]], after(reply)
        used[area] = reply["used"]
    for number, area in enumerate(case["areas"]):
        records = "".join(stored for stored, _ in case["records"][:area["n"]])
        yield "used bytes", area["used"], lib.ask("bytes", str(number), "0", str(used[number]))["bytes"]
        yield "first n records", records, area["used"]
