"""Fields of messages as bytes (Protocol Buffers, "Encoding")."""
import struct

VARINT, I64, LEN, I32 = 0, 1, 2, 5  # wire types


def varint(value):
    """A number in groups of seven bits, the lowest first."""
    return bytes([value % 128 + 128]) + varint(value >> 7) if value >= 128 else bytes([value])


def number(field, value):
    """A field that holds a number as a varint."""
    return varint(field << 3 | VARINT) + varint(value)


def fixed64(field, value):
    """A field that holds a number in eight bytes."""
    return varint(field << 3 | I64) + struct.pack("<Q", value)


def fixed32(field, value):
    """A field that holds a number in four bytes."""
    return varint(field << 3 | I32) + struct.pack("<I", value)


def piece(field, content):
    """A field that holds a text, bytes or a message."""
    return varint(field << 3 | LEN) + varint(len(content)) + content


def varint_at(data, at):
    """The number in groups of seven bits at a place, and the place after it."""
    value = shift = 0
    while data[at] >= 128:
        value, shift, at = value | (data[at] - 128) << shift, shift + 7, at + 1
    return value | data[at] << shift, at + 1


def fields_of(message):
    """The fields of a message that is well formed: each with its number, and what it holds."""
    at = 0
    while at < len(message):
        tag, at = varint_at(message, at)
        if tag & 7 == VARINT:
            value, at = varint_at(message, at)
        elif tag & 7 == LEN:
            size, start = varint_at(message, at)
            value, at = message[start : start + size], start + size
        else:
            size = 8 if tag & 7 == I64 else 4
            value, at = int.from_bytes(message[at : at + size], "little"), at + size
        yield tag >> 3, value


def parts_of(messages, field):
    """What the fields with this number hold, of all these messages."""
    return [value for it in messages for number, value in fields_of(it) if number == field]


def request_of(span):
    """The body of a request that has a span of these fields, without a resource or a scope
    (opentelemetry-proto)."""
    return piece(1, piece(2, piece(2, span)))
