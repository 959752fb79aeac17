"""The writers as the test scripts ask for them: requests to tests/c/driver.c, made of values.

A value has the shape of the vector files. What a writer is lent has its own: an accept, reject or alert
has `run`, the entries written before, in place of `info_msgs`, and a list of strings is [joined, ends].
"""

# The message, or for a string None, of each member of a oneof.
MEMBERS = {
    "ClientMessage": {1: "AcceptMessage", 2: "RejectMessage", 3: "ExitMessage", 4: "RestartMessage", 5: "AlertMessage",
                      6: "IoBuffer", 7: "IoBuffer", 8: "IoBuffer", 9: "IoBuffer", 10: "IoBuffer",
                      11: "ChangeWindowSize", 12: "CommandSuspend", 13: "ClientHello"},
    "ServerMessage": {1: "ServerHello", 2: "TimeSpec", 3: None, 4: None, 5: None},
}
# info_msgs' field number: the member that an entry is written with.
INFO_MSGS = {"AcceptMessage": 2, "RejectMessage": 3, "AlertMessage": 3}
STRINGS = 4  # strlistval


def numbers(*values):
    return [str(int(value)) for value in values]


def number_list(values):
    return ",".join(numbers(*values))


def string_list(lent):
    joined, ends = lent
    return [joined, number_list(ends)]


# A message's writer in sudolog.h and its arguments in their order.
WRITERS = {
    "ClientHello": ("client_hello", lambda v: [v["client_id"]]),
    "AcceptMessage": ("accept", lambda v: numbers(*v["submit_time"]) + [v["run"]] + numbers(v["expect_iobufs"])),
    "RejectMessage": ("reject", lambda v: numbers(*v["submit_time"]) + [v["reason"], v["run"]]),
    "AlertMessage": ("alert", lambda v: numbers(*v["alert_time"]) + [v["reason"], v["run"]]),
    "ExitMessage": ("exit", lambda v: numbers(*v["run_time"], v["exit_value"], v["dumped_core"])
                    + [v["signal"], v["error"]]),
    "RestartMessage": ("restart", lambda v: [v["log_id"]] + numbers(*v["resume_point"])),
    "IoBuffer": ("io", lambda v: numbers(*v["delay"]) + [v["data"]]),
    "ChangeWindowSize": ("window_size", lambda v: numbers(*v["delay"], v["rows"], v["cols"])),
    "CommandSuspend": ("suspend", lambda v: numbers(*v["delay"]) + [v["signal"]]),
    "ServerHello": ("server_hello", lambda v: [v["server_id"], v["redirect"]] + string_list(v["servers"])
                    + numbers(v["subcommands"])),
    "TimeSpec": ("time", lambda v: numbers(*v)),
    "StringList": ("string_list", string_list),
    "NumberList": ("number_list", lambda v: [number_list(v)]),
    None: ("note", lambda v: [v]),
}
# An entry's, by its value's field number.
ENTRY_WRITERS = {
    2: ("entry_number", numbers),
    3: ("entry_string", lambda v: [v]),
    STRINGS: ("entry_strings", string_list),
    5: ("entry_numbers", lambda v: [number_list(v)]),
}


def call(writer, lent):
    """The function sudolog_write_.., the member and the arguments that write what is lent. "entry:K" is an
    entry of a run for the message K."""
    if writer in MEMBERS:
        member, content = lent["type"]
        name, arguments = WRITERS[MEMBERS[writer][member]]
        return name, member, arguments(content)
    if writer in WRITERS:
        name, arguments = WRITERS[writer]
        return name, 0, arguments(lent)
    kind, content = lent["value"]
    name, arguments = ENTRY_WRITERS[kind]
    return name, INFO_MSGS.get(writer.removeprefix("entry:"), 0), [lent["key"]] + arguments(content)


def write(library, writer, lent, room, framed=False):
    """The driver's answer: {"written": hex} or {"refused": n}."""
    name, member, arguments = call(writer, lent)
    return library.ask("write", name, *numbers(member, framed, room), *arguments)


def joined(strings):
    """A list of strings as it is lent."""
    ends = [0]
    for string in strings:
        ends.append(ends[-1] + len(string) // 2)
    return ["".join(strings), ends[1:]]


def lent_entry(entry):
    kind, content = entry["value"]
    return {"key": entry["key"], "value": [kind, joined(content) if kind == STRINGS else content]}
