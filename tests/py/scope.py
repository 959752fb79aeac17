"""The scope document's wire rules and ranges, read a second time: a walk in Python that knows nothing of
the library under test. It gives the refusal, and where the stock library is known to read otherwise it
gives the difference by name and takes it out of the bytes, so that both can read them again.
"""

from google.protobuf.descriptor import FieldDescriptor

VARINT, FIXED64, BYTES, GROUP, GROUP_END, FIXED32 = range(6)

# Where the scope refuses and the stock library goes on:
WIRE_TYPE = "known field with another wire type: 01 refuses 5, stock keeps it as unknown"
GROUPS = "group (wire types 3 and 4): 01 refuses 4, stock skips it"
TENTH_BYTE = "tenth varint byte above 1: 01 refuses 2, stock drops the bits"
WIDE_TAG = "tag above 4,294,967,295 in five bytes: 01 refuses 4, stock drops the bits"
NO_MEMBER = "no member set: 01 refuses 6, stock takes an empty oneof"
# Where the scope reads on and the stock library refuses:
LONG_FORM = "tag or length of more than five bytes: 01 reads it, stock refuses"
NO_UTF8 = "string that is no UTF-8: 01 reads it, stock refuses"
# Where both read, to different values:
TWICE = "embedded message given twice: 01 takes the last, stock merges"

STRICTER = {WIRE_TYPE, GROUPS, TENTH_BYTE, WIDE_TAG, NO_MEMBER}
LOOSER = {LONG_FORM, NO_UTF8}

GROUP_DEPTH = 100  # the stock library's limit; beyond it both refuse
LARGEST_TAG = 0xFFFFFFFF
WITH_MEMBER = ("ClientMessage", "ServerMessage")


class Broken(Exception):
    """Damage that the stock library refuses as well."""


class Field:
    """What the walk has to know of a field."""

    def __init__(self, described):
        scalar = described.type in (FieldDescriptor.TYPE_INT64, FieldDescriptor.TYPE_INT32, FieldDescriptor.TYPE_BOOL)
        self.number = described.number
        self.repeated = described.label == FieldDescriptor.LABEL_REPEATED
        self.text = described.type == FieldDescriptor.TYPE_STRING
        self.message = described.message_type.name if described.message_type else None
        self.numbers = scalar and self.repeated
        self.wire_types = (VARINT, BYTES) if self.numbers else (VARINT,) if scalar else (BYTES,)
        self.member = described.containing_oneof is not None


def schema_of(classes):
    """{message: {field number: Field}} of the stock library's classes."""
    return {name: {described.number: Field(described) for described in kind.DESCRIPTOR.fields}
            for name, kind in classes.items()}


def varint(number):
    """The number's shortest form."""
    out = bytearray()
    while number > 127:
        out.append(number & 127 | 128)
        number >>= 7
    out.append(number)
    return bytes(out)


class Walk:
    """One walk over a message.

    refusal   the scope's number, 2 to 6, or None; `reason` its name where the stock library goes on
    names     the differences that were met
    shared    the bytes without what only the stock library takes, tags and lengths in their shortest
              form; None where the message is broken for both
    plain     the same without the earlier ones of an embedded message given twice
    """

    def __init__(self, schema, name, data):
        self.schema = schema
        self.refusal = self.reason = None
        self.names = set()
        try:
            self.shared, self.plain, members = self.message(name, data)
        except Broken:
            self.shared = self.plain = None
            return
        if name in WITH_MEMBER and not members:
            self.refuse(6, NO_MEMBER)

    def refuse(self, number, reason=None):
        """Notes the scope's refusal, the leftmost first. Without a reason both refuse."""
        if self.refusal is None:
            self.refusal, self.reason = number, reason
        if reason is None:
            raise Broken
        self.names.add(reason)

    def bits(self, data, at):
        """The varint at a place: its number, with all 70 bits, and the place behind it."""
        number = 0
        for i in range(10):
            if at + i >= len(data):
                self.refuse(2)
            number |= (data[at + i] & 127) << 7 * i
            if data[at + i] < 128:
                return number, at + i + 1
        return self.refuse(2)

    def head(self, data, at):
        """A tag or a length: a varint that the stock library takes in five bytes at most."""
        number, end = self.bits(data, at)
        if number >> 64:
            self.refuse(2)
        if end - at > 5:
            self.names.add(LONG_FORM)
        return number, end

    def tag(self, data, at):
        tag, end = self.head(data, at)
        if tag > LARGEST_TAG:
            self.refuse(4, WIDE_TAG if end - at <= 5 else None)
            tag &= LARGEST_TAG
        if tag >> 3 == 0 or tag & 7 > FIXED32:
            self.refuse(4)
        return tag >> 3, tag & 7, end

    def payload(self, wire_type, data, at):
        """What follows a tag: its bytes in a form that both take, a length left out, and the place behind."""
        if wire_type == VARINT:
            number, end = self.bits(data, at)
            if number >> 64:
                self.refuse(2, TENTH_BYTE)
                return varint(number & (1 << 64) - 1), end
            return data[at:end], end
        if wire_type == BYTES:
            size, at = self.head(data, at)
        else:
            size = 8 if wire_type == FIXED64 else 4
        if size > len(data) - at:
            self.refuse(3)
        return data[at:at + size], at + size

    def group(self, number, data, at, depth=1):
        """The place behind a group. The scope has refused it already."""
        if depth > GROUP_DEPTH:
            raise Broken
        while True:
            inner, wire_type, at = self.group_tag(data, at)
            if wire_type == GROUP:
                at = self.group(inner, data, at, depth + 1)
            elif wire_type != GROUP_END:
                at = self.payload(wire_type, data, at)[1]
            elif inner == number:
                return at
            else:
                raise Broken

    def group_tag(self, data, at):
        if at >= len(data):
            raise Broken
        return self.tag(data, at)

    def content(self, field, body):
        """A field's bytes as (shared, plain)."""
        if field is None:
            return body, body
        if field.message:
            return self.message(field.message, body)[:2]
        if field.text and not is_utf8(body):
            self.names.add(NO_UTF8)
        if field.numbers:
            body = self.packed(body)
        return body, body

    def packed(self, body):
        out, at = b"", 0
        while at < len(body):
            number, at = self.payload(VARINT, body, at)
            out += number
        return out

    def message(self, name, data):
        """(shared, plain, whether a member of a oneof is set)."""
        fields, at, members = [], 0, False
        while at < len(data):
            number, wire_type, at = self.tag(data, at)
            if wire_type in (GROUP, GROUP_END):
                self.refuse(4, GROUPS if wire_type == GROUP else None)
                at = self.group(number, data, at)
                continue
            field = self.schema[name].get(number)
            known = field is None or wire_type in field.wire_types
            if not known:
                self.refuse(5, WIRE_TYPE)
            body, at = self.payload(wire_type, data, at)
            if known:
                lone = field is not None and field.message is not None and not field.repeated
                members = members or (field is not None and field.member)
                shared, plain = self.content(field if wire_type == BYTES else None, body)
                fields.append((number, wire_type, lone, shared, plain))
        return self.joined(fields) + (members,)

    def joined(self, fields):
        last = {number: i for i, (number, *_) in enumerate(fields)}
        shared = plain = b""
        for i, (number, wire_type, lone, mine, mine_plain) in enumerate(fields):
            shared += written(number, wire_type, mine)
            if lone and last[number] != i:
                self.names.add(TWICE)
            else:
                plain += written(number, wire_type, mine_plain)
        return shared, plain


def written(number, wire_type, body):
    size = varint(len(body)) if wire_type == BYTES else b""
    return varint(number << 3 | wire_type) + size + body


def is_utf8(body):
    try:
        body.decode()
    except UnicodeDecodeError:
        return False
    return True


# ---- ranges: of a value in the shape of the vector files ----

def is_moment(time):
    return 0 <= time[1] <= 999999999


def is_span(time):
    return 0 <= time[0] <= 4294967295 and is_moment(time)


def is_size(hex_bytes, least, most):
    return least <= len(hex_bytes) // 2 <= most


def is_entry(entry):
    return entry["key"] != "" and entry["value"] is not None


def is_event(time, event):
    return is_moment(event[time]) and all(map(is_entry, event["info_msgs"]))


RANGES = {
    "AcceptMessage": lambda v: is_event("submit_time", v),
    "RejectMessage": lambda v: is_event("submit_time", v),
    "AlertMessage": lambda v: is_event("alert_time", v),
    "ExitMessage": lambda v: is_span(v["run_time"]) and 0 <= v["exit_value"] <= 255 and is_size(v["signal"], 0, 127),
    "RestartMessage": lambda v: is_span(v["resume_point"]) and is_size(v["log_id"], 1, 4095),
    "IoBuffer": lambda v: is_span(v["delay"]),
    "ChangeWindowSize": lambda v: is_span(v["delay"]) and 0 <= v["rows"] <= 65535 and 0 <= v["cols"] <= 65535,
    "CommandSuspend": lambda v: is_span(v["delay"]) and is_size(v["signal"], 1, 127),
    "InfoMessage": is_entry,
    "TimeSpec": lambda v: -2**31 <= v[1] < 2**31,  # by itself: a reader's are an int32
    "ServerMessage": lambda v: v["type"][0] != 2 or is_span(v["type"][1]),
}


def in_range(schema, name, value):
    """Whether a value keeps all ranges: a reader by itself refuses it with 7 otherwise."""
    if name == "ClientMessage":
        number, value = value["type"]
        name = schema[name][number].message
    return RANGES[name](value) if name in RANGES else True
