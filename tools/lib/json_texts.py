"""A plain reader of OTLP's JSON, and texts for it: written by hand, and changed at random."""
import base64
import json
import random
import re
import struct

from lib.wire import piece, varint

ALONE = re.compile("[\ud800-\udfff]")  # a surrogate that isn't in a pair, in a text that was read
NUMBER = re.compile(r"-?(0|[1-9][0-9]*)(\.[0-9]+)?([eE][-+]?[0-9]+)?")
U32, I32 = (0, 2**32 - 1), (-(2**31), 2**31 - 1)
U64, I64 = (0, 2**64 - 1), (-(2**63), 2**63 - 1)
NO_NUMBERS = {
    "NaN": 0x7FF8 << 48, "Infinity": 0x7FF0 << 48, "-Infinity": 0xFFF0 << 48,
}
PAIRS = ("each", "KeyValue")
# The members of each message: the number of the field, and what it holds.
NAMES = {
    "Request": {"resourceSpans": (1, ("each", "ResourceSpans"))},
    "ResourceSpans": {
        "resource": (1, ("one", "Resource")), "scopeSpans": (2, ("each", "ScopeSpans")),
        "schemaUrl": (3, "text"),
    },
    "Resource": {"attributes": (1, PAIRS), "droppedAttributesCount": (2, "uint32")},
    "ScopeSpans": {
        "scope": (1, ("one", "Scope")), "spans": (2, ("each", "Span")), "schemaUrl": (3, "text"),
    },
    "Scope": {
        "name": (1, "text"), "version": (2, "text"), "attributes": (3, PAIRS),
        "droppedAttributesCount": (4, "uint32"),
    },
    "Span": {
        "traceId": (1, "id"), "spanId": (2, "id"), "traceState": (3, "text"),
        "parentSpanId": (4, "id"), "name": (5, "text"), "kind": (6, "enum"),
        "startTimeUnixNano": (7, "fixed64"), "endTimeUnixNano": (8, "fixed64"),
        "attributes": (9, PAIRS), "droppedAttributesCount": (10, "uint32"),
        "events": (11, ("each", "Event")), "droppedEventsCount": (12, "uint32"),
        "links": (13, ("each", "Link")), "droppedLinksCount": (14, "uint32"),
        "status": (15, ("one", "Status")), "flags": (16, "fixed32"),
    },
    "Event": {
        "timeUnixNano": (1, "fixed64"), "name": (2, "text"), "attributes": (3, PAIRS),
        "droppedAttributesCount": (4, "uint32"),
    },
    "Link": {
        "traceId": (1, "id"), "spanId": (2, "id"), "traceState": (3, "text"),
        "attributes": (4, PAIRS), "droppedAttributesCount": (5, "uint32"), "flags": (6, "fixed32"),
    },
    "Status": {"message": (2, "text"), "code": (3, "enum")},
    "KeyValue": {"key": (1, "text"), "value": (2, ("one", "AnyValue"))},
    "AnyValue": {
        "stringValue": (1, "text"), "boolValue": (2, "bool"), "intValue": (3, "int64"),
        "doubleValue": (4, "double"), "arrayValue": (5, ("one", "ArrayValue")),
        "kvlistValue": (6, ("one", "KeyValueList")), "bytesValue": (7, "bytes"),
    },
    "ArrayValue": {"values": (1, ("each", "AnyValue"))},
    "KeyValueList": {"values": (1, PAIRS)},
}


class Number(str):
    """A number of a text, as its digits."""


class Pairs(list):
    """The members of an object, in order, also those of one name."""


def is_text(value):
    """Whether a value is a text, and no number."""
    return isinstance(value, str) and not isinstance(value, Number)


def wanted(is_right):
    """Ends the reading of a text that is wrong."""
    if not is_right:
        raise ValueError


def whole(value, limits):
    """The whole number that a text is, from the least to the largest."""
    wanted(isinstance(value, str) and NUMBER.fullmatch(value))
    sign = "-" if value.startswith("-") else ""
    digits, _, exponent = value.lstrip("-").lower().partition("e")
    front, _, rest = digits.partition(".")
    power = int(exponent or 0) - len(rest)
    digits = (front + rest).lstrip("0")
    if not digits:
        return 0
    digits, power = digits.rstrip("0"), power + len(digits) - len(digits.rstrip("0"))
    wanted(0 <= power and len(digits) + power <= 20)
    number = int(sign + digits + "0" * power)
    wanted(limits[0] <= number <= limits[1])
    return number


def double(value):
    """The bits of the double that a value is."""
    if is_text(value) and value in NO_NUMBERS:
        return NO_NUMBERS[value]
    wanted(isinstance(value, str) and NUMBER.fullmatch(value))
    number = float(value)
    wanted(abs(number) != float("inf"))
    return struct.unpack("<Q", struct.pack("<d", number))[0]


def decoded(value):
    """The bytes that a text is in Base64, of one alphabet, with all padding or none, and no bit
    that counts for nothing."""
    wanted(is_text(value) and re.fullmatch(r"[A-Za-z0-9+/]*=*|[A-Za-z0-9_-]*=*", value))
    digits = value.rstrip("=").replace("-", "+").replace("_", "/")
    padding = "=" * (-len(digits) % 4)
    wanted(len(digits) % 4 != 1 and len(value) - len(digits) <= len(padding))
    data = base64.b64decode(digits + padding)
    wanted(base64.b64encode(data).decode() == digits + padding)
    return data


def field(number, wire, data):
    """A field of this wire type."""
    return varint(number * 8 + wire) + data


def leaf(number, kind, value):
    """The field of a value that is no message."""
    if kind == "text":
        wanted(is_text(value))
        return piece(number, ALONE.sub("\ufffd", value).encode())
    if kind == "id":
        wanted(is_text(value) and re.fullmatch("([0-9a-fA-F]{2})*", value))
        return piece(number, bytes.fromhex(value))
    if kind == "bytes":
        return piece(number, decoded(value))
    if kind == "bool":
        wanted(isinstance(value, bool))
        return field(number, 0, varint(int(value)))
    if kind == "double":
        return field(number, 1, double(value).to_bytes(8, "little"))
    wanted(kind != "enum" or isinstance(value, Number))
    limits = {"uint32": U32, "fixed32": U32, "enum": I32, "int64": I64, "fixed64": U64}[kind]
    found = whole(value, limits)
    if kind == "fixed64":
        return field(number, 1, found.to_bytes(8, "little"))
    if kind == "fixed32":
        return field(number, 5, found.to_bytes(4, "little"))
    return field(number, 0, varint(found % 2**64))


def message(name, value):
    """The fields of an object."""
    wanted(isinstance(value, Pairs))
    found = b""
    for key, it in value:
        if key not in NAMES[name] or it is None:
            continue
        number, kind = NAMES[name][key]
        if isinstance(kind, str):
            found += leaf(number, kind, it)
        elif kind[0] == "one":
            found += piece(number, message(kind[1], it))
        else:
            wanted(isinstance(it, list) and not isinstance(it, Pairs))
            found += b"".join(piece(number, message(kind[1], item)) for item in it)
    return found


def meaning(text):
    """The bytes that a text means, or None."""
    try:
        text = text.decode()
        value = json.loads(
            text, parse_int=Number, parse_float=Number, parse_constant=lambda _: wanted(False),
            object_pairs_hook=Pairs,
        )
        wanted(not text.startswith("\ufeff"))
        return message("Request", value)
    except (ValueError, RecursionError):
        return None


TRACE = "5b8efff798038103d269b633813fc60c"
SPAN = (
    f'{{"traceId":"{TRACE}","spanId":"eee19b7ec3c1b174","traceState":"",'
    '"parentSpanId":"","name":"I\\u00e9\\ud83d\\ude00","kind":2,"startTimeUnixNano":"1544712660",'
    '"endTimeUnixNano":1.5e9,"attributes":[%s],"droppedAttributesCount":1,'
    '"events":[{"timeUnixNano":"7","name":"e","attributes":[]}],'
    '"links":[{"traceId":"","spanId":"0A","flags":257}],'
    '"status":{"code":2,"message":"m"},"flags":"256","later":[{"a":[1,true,null]}]}'
)
VALUES = (
    '{"stringValue":"x"}', '{"boolValue":true}', '{"intValue":"-9223372036854775808"}',
    '{"intValue":9223372036854775807}', '{"doubleValue":1.5}', '{"doubleValue":"-Infinity"}',
    '{"arrayValue":{"values":[{},{"intValue":1e3}]}}', '{"bytesValue":"-_8"}',
    '{"kvlistValue":{"values":[{"key":"k","value":{"bytesValue":"+/8="}}]}}', "{}", "null",
)
PAIR = ",".join(f'{{"key":"k","value":{it}}}' for it in VALUES)


def with_pairs(pairs):
    """The text of a request of one span, which has these attributes."""
    return (
        '{"resourceSpans":[{"resource":{"attributes":[{"key":"service.name","value":{"stringValue":'
        '"shop"}}]},"scopeSpans":[{"scope":{"name":"s","version":"1"},"spans":['
        f'{SPAN % pairs}],"schemaUrl":"u"}}],"schemaUrl":""}}]}}'
    ).encode()


TEXT = with_pairs(PAIR)
# A text that JavaScript cut within a character, a pair that is turned, and a backslash that is
# escaped; and how these are written again.
CUT = with_pairs('{"key":"cut","value":{"stringValue":"Ann\\ud83d, \\uDE00\\uD83D, \\\\ud83d"}}')
READ = '{"key":"cut","value":{"stringValue":"Ann\ufffd, \ufffd\ufffd, \\\\ud83d"}}'
# What a text is changed by: parts of other texts.
PARTS = [
    b"null", b"{}", b"[]", b"[null]", b"1", b"-0", b"1e3", b"1.0", b"0.5", b"-1", b"4294967296",
    b"9223372036854775808", b"18446744073709551616", b'"18446744073709551615"', b'"NaN"', b'"1e2"',
    b'""', b'"abc"', b'"AAA"', b'"AA=="', b'"A"', b"true", b'"\\ud800"', b'"\\udc00\\ud800"',
    b"\xff", b"\xed\xa0\x80", b",", b":", b"}", b"]", b'"', b"\\", b" ", b"\t", b"1e400",
    b'"-"', b'"+1"',
]
VALUE = re.compile(rb'"[^"]*"|-?[0-9.e]+|true|null|\{\}|\[\]')


def changed(count):
    """So many texts, each the one above with one or two places changed."""
    rng = random.Random(69)
    for _ in range(count):
        text = TEXT
        for _ in range(rng.choice((1, 1, 2))):
            way, at = rng.randrange(4), rng.randrange(len(text))
            if way < 2:
                places = list(VALUE.finditer(text))
                place = rng.choice(places)
                text = text[:place.start()] + rng.choice(PARTS) + text[place.end():]
            elif way == 2:
                text = text[:at] + text[at + 1:]
            else:
                text = text[:at] + rng.choice(PARTS) + text[at:]
        yield text
