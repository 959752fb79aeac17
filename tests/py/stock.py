"""The stock Protocol Buffers library: Debian's python3-protobuf, over tests/data/sudo_logsrv.proto."""

import os
import subprocess
import warnings

from google.protobuf import descriptor_pb2, descriptor_pool, message_factory
from google.protobuf.descriptor import FieldDescriptor
from google.protobuf.message import DecodeError

from library import ROOT

LISTS = {"StringList": "strings", "NumberList": "numbers"}


def described():
    """sudo_logsrv.proto as protoc understands it."""
    made = os.path.join(ROOT, "target", "tests", "sudo_logsrv.pb")
    os.makedirs(os.path.dirname(made), exist_ok=True)
    folder = os.path.join(ROOT, "tests", "data")
    subprocess.run(["protoc", "-I", folder, f"--descriptor_set_out={made}", "sudo_logsrv.proto"], check=True)
    with open(made, "rb") as file:
        return descriptor_pb2.FileDescriptorSet.FromString(file.read()).file[0]


def classes_of(file):
    """The message classes of a described file, by the message's name."""
    pool = descriptor_pool.DescriptorPool()
    pool.Add(file)
    factory = message_factory.MessageFactory(pool)
    outer = pool.FindFileByName(file.name).message_types_by_name.values()
    every = [kind for top in outer for kind in [top, *top.nested_types]]
    return {kind.name: factory.GetPrototype(kind) for kind in every}


def with_bytes(messages):
    """The same messages, every string a bytes field: read with no look at UTF-8."""
    for message in messages:
        with_bytes(message.nested_type)
        for field in message.field:
            if field.type == FieldDescriptor.TYPE_STRING:
                field.type = FieldDescriptor.TYPE_BYTES


def plain(field, value):
    """A field's value in the shape of the vector files."""
    if field.type == FieldDescriptor.TYPE_MESSAGE:
        return shaped(value)
    if field.type == FieldDescriptor.TYPE_STRING:
        return value.encode().hex()
    return value.hex() if field.type == FieldDescriptor.TYPE_BYTES else value


def field_value(message, field):
    value = getattr(message, field.name)
    if field.label == FieldDescriptor.LABEL_REPEATED:
        return [plain(field, element) for element in value]
    return plain(field, value)


def shaped(message):
    """A message in the shape of the vector files: what the driver prints."""
    kind = message.DESCRIPTOR
    if kind.name == "TimeSpec":
        return [message.tv_sec, message.tv_nsec]
    if kind.name in LISTS:
        return field_value(message, kind.fields_by_name[LISTS[kind.name]])
    shape = {field.name: field_value(message, field) for field in kind.fields if not field.containing_oneof}
    for oneof in kind.oneofs:
        held = message.WhichOneof(oneof.name)
        field = held and kind.fields_by_name[held]
        shape[oneof.name] = [field.number, field_value(message, field)] if field else None
    return shape


def native(field, value):
    """A value in the shape of the vector files as the field takes it; TYPE_MESSAGE apart."""
    if field.type == FieldDescriptor.TYPE_STRING:
        return bytes.fromhex(value).decode()
    return bytes.fromhex(value) if field.type == FieldDescriptor.TYPE_BYTES else value


def set_field(message, field, value):
    held = getattr(message, field.name)
    repeated = field.label == FieldDescriptor.LABEL_REPEATED
    if field.type == FieldDescriptor.TYPE_MESSAGE and repeated:
        for element in value:
            filled(held.add(), element)
    elif field.type == FieldDescriptor.TYPE_MESSAGE:
        held.SetInParent()  # written even where it is empty: each TimeSpec field, and the member of a oneof
        filled(held, value)
    elif repeated:
        held.extend(native(field, element) for element in value)
    else:
        setattr(message, field.name, native(field, value))


def fields_of(kind, value):
    """The fields of a value in the shape of the vector files: (field, its part)."""
    if kind.name == "TimeSpec":
        return zip(kind.fields, value)
    if kind.name in LISTS:
        return [(kind.fields_by_name[LISTS[kind.name]], value)]
    named = {kind.fields_by_name.get(name): part for name, part in value.items()}
    number, held = named.pop(None, (0, None))  # the oneof's name is no field's
    return list(named.items()) + ([(kind.fields_by_number[number], held)] if number else [])


def filled(message, value):
    """The empty message with a value in the shape of the vector files: shaped() gives it back."""
    for field, part in fields_of(message.DESCRIPTOR, value):
        set_field(message, field, part)
    return message


class Stock:
    """The stock library's readers and writers, with strings as the protocol has them and as bytes."""

    def __init__(self):
        file = described()
        self.classes = classes_of(file)
        with_bytes(file.message_type)
        self.bytes_classes = classes_of(file)
        warnings.simplefilter("always")
        warnings.showwarning = self.stop

    def stop(self, *_):
        self.stopped = True

    def parsed(self, name, data, strings=True):
        """The message; None where the library refuses it. At a tag of 0 or an end of group at the
        outermost level the Python library stops reading and only warns: that is a refusal too."""
        classes = self.classes if strings else self.bytes_classes
        self.stopped = False
        try:
            message = classes[name].FromString(data)
        except DecodeError:
            return None
        return None if self.stopped else message

    def read(self, name, data, strings=True):
        """The message's value in the shape of the vector files; None where the library refuses it."""
        message = self.parsed(name, data, strings)
        return None if message is None else shaped(message)

    def rewritten(self, name, data):
        """What the library writes for a message that it takes; None where it refuses it."""
        message = self.parsed(name, data)
        return None if message is None else message.SerializeToString()

    def written(self, name, value):
        """What the library writes for a value in the shape of the vector files, each TimeSpec field of its
        messages present. Strings are bytes where one of them is no UTF-8."""
        try:
            return filled(self.classes[name](), value).SerializeToString()
        except UnicodeDecodeError:
            return filled(self.bytes_classes[name](), value).SerializeToString()
