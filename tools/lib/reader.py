"""A plain reader of OTLP requests, and the lines that otlp-collector prints of their spans."""
from lib.wire import I32, I64, LEN, VARINT

DEEPEST = 64  # levels of a value

# What the fields of each message hold, by their numbers; `*` marks what is repeated.
TABLES = {
    "Request": {1: ("resource_spans", "ResourceSpans*")},
    "ResourceSpans": {
        1: ("resource", "Resource"), 2: ("scope_spans", "ScopeSpans*"), 3: ("schema", "text")
    },
    "Resource": {1: ("attributes", "KeyValue*"), 2: ("dropped", "count")},
    "ScopeSpans": {1: ("scope", "Scope"), 2: ("spans", "Span*"), 3: ("schema", "text")},
    "Scope": {
        1: ("name", "text"), 2: ("version", "text"), 3: ("attributes", "KeyValue*"),
        4: ("dropped", "count"),
    },
    "Span": {
        1: ("trace", "bytes"), 2: ("span", "bytes"), 3: ("state", "text"), 4: ("parent", "bytes"),
        5: ("name", "text"),
        6: ("kind", "code"), 7: ("start", "fixed"), 8: ("end", "fixed"),
        9: ("attributes", "KeyValue*"), 10: ("dropped", "count"),
        11: ("events", "Event*"), 12: ("dropped_events", "count"),
        13: ("links", "Link*"), 14: ("dropped_links", "count"), 15: ("status", "Status"),
        16: ("flags", "flags"),
    },
    "Event": {
        1: ("at", "fixed"), 2: ("name", "text"), 3: ("attributes", "KeyValue*"),
        4: ("dropped", "count"),
    },
    "Link": {
        1: ("trace", "bytes"), 2: ("span", "bytes"), 3: ("state", "text"),
        4: ("attributes", "KeyValue*"), 5: ("dropped", "count"), 6: ("flags", "flags"),
    },
    "Status": {2: ("message", "text"), 3: ("code", "code")},
    "KeyValue": {1: ("key", "text"), 2: ("value", "AnyValue")},
    "AnyValue": {
        1: ("t:", "text"), 2: ("b:", "truth"), 3: ("i:", "integer"), 4: ("d:", "double"),
        5: ("a", "ArrayValue"),
        6: ("m", "KeyValueList"), 7: ("y:", "bytes"),
    },
    "ArrayValue": {1: ("values", "AnyValue*")},
    "KeyValueList": {1: ("values", "KeyValue*")},
}
NUMBERS = {
    "count": VARINT, "code": VARINT, "truth": VARINT, "integer": VARINT, "fixed": I64,
    "double": I64, "flags": I32,
}


# ---- the reader: it gives each scalar as the word that is printed of it


TEXT_WORDS = [
    chr(it) if chr(it) in "._-/:" or it < 128 and chr(it).isalnum() else f"%{it:02x}"
    for it in range(256)
]


class Fault(Exception):
    """The bytes are no request of traces."""


def varint_at(data, at):
    """The varint at a place, of at most ten bytes, of which 64 bits count, and the place after
    it."""
    value = 0
    for shift in range(0, 70, 7):
        if at >= len(data):
            raise Fault("the bytes end in a varint")
        value, at, is_last = value | data[at] % 128 << shift, at + 1, data[at] < 128
        if is_last:
            return value % 2**64, at
    raise Fault("a varint has more than ten bytes")


def fields_in(data):
    """The fields of a message: their numbers and wire types, and their payloads, numbers or
    bytes."""
    at = 0
    while at < len(data):
        tag, at = varint_at(data, at)
        number, wire, size = tag >> 3, tag & 7, {I64: 8, I32: 4}.get(tag & 7, 0)
        if not 0 < number < 2**29 or wire not in (VARINT, I64, LEN, I32):
            raise Fault("no field begins so")
        if wire in (VARINT, LEN):
            size, at = varint_at(data, at)
        if wire == VARINT:
            yield (number, wire), size
            continue
        if size > len(data) - at:
            raise Fault("a field runs past the end")
        payload, at = data[at : at + size], at + size
        yield (number, wire), payload if wire == LEN else int.from_bytes(payload, "little")


def last_of(payloads, default):
    return payloads[-1] if payloads else default


def signed(number, bits):
    number %= 2**bits
    return number - 2**bits if number >= 2 ** (bits - 1) else number


def text_word(data):
    """The word of a text, which is UTF-8."""
    try:
        str(data, "utf-8")
    except UnicodeDecodeError:
        raise Fault("a text isn't UTF-8") from None
    return "".join([TEXT_WORDS[byte] for byte in data]) or "%"


SCALARS = {
    "text": lambda payloads: text_word(last_of(payloads, b"")),
    "bytes": lambda payloads: last_of(payloads, b"").hex() or "%",
    "count": lambda payloads: str(last_of(payloads, 0) % 2**32),
    "code": lambda payloads: str(signed(last_of(payloads, 0), 32)),
    "integer": lambda payloads: str(signed(last_of(payloads, 0), 64)),
    "fixed": lambda payloads: str(last_of(payloads, 0)),
    "double": lambda payloads: f"{last_of(payloads, 0):016x}",
    "flags": lambda payloads: f"{last_of(payloads, 0):08x}",
    "truth": lambda payloads: "true" if last_of(payloads, 0) else "false",
}


def message_of(name, payloads, room):
    """A message whose parts these are: the fields of all of them are its own."""
    found = {}
    for payload in payloads:
        for key, content in fields_in(payload):
            found.setdefault(key, []).append(content)
    fields = TABLES[name].items()
    return {
        field: read(kind, found.get((number, NUMBERS.get(kind, LEN)), []), room)
        for number, (field, kind) in fields
    }


def value_of(payloads, room):
    """The word of a value: its last member counts, with all of its number after the last one of
    another number."""
    if payloads and room == 0:
        raise Fault("a value nests too deep")
    members = {
        (number, NUMBERS.get(kind, LEN)): (word, kind)
        for number, (word, kind) in TABLES["AnyValue"].items()
    }
    run, run_key = [], None
    for key, content in (
        it for payload in payloads for it in fields_in(payload) if it[0] in members
    ):
        run, run_key = [*(run if key == run_key else ()), content], key
    if not run_key:
        return "n:"
    word, kind = members[run_key]
    inner = read(kind, run, room - 1)
    if kind == "ArrayValue":
        return f"a({','.join(inner['values'])})"
    if kind == "KeyValueList":
        return f"m({','.join(it['key'] + '=' + it['value'] for it in inner['values'])})"
    return word + inner


def read(kind, payloads, room):
    """What these payloads of a field mean, where the values in it may have so many levels."""
    if kind[-1] == "*":
        return [read(kind[:-1], [it], room) for it in payloads]
    if kind == "AnyValue":
        return value_of(payloads, room)
    return message_of(kind, payloads, room) if kind in TABLES else SCALARS[kind](payloads)


# ---- what is printed


def pair_lines(word, pairs):
    return [f"{word} {it['key']} {it['value']}" for it in pairs]


def flag_lines(word, flags):
    """The line of the flags of a span or of a link, if any bit is set."""
    return [f"{word} {flags}"] if int(flags, 16) else []


def part_lines(span):
    """The lines of the attributes, events and links of a span."""
    yield from pair_lines("attr", span["attributes"])
    for it in span["events"]:
        yield f"event {it['at']} {it['name']} {it['dropped']}"
        yield from pair_lines("eattr", it["attributes"])
    for it in span["links"]:
        yield f"link {it['trace']} {it['span']} {it['state']} {it['dropped']}"
        yield from flag_lines("lflags", it["flags"])
        yield from pair_lines("lattr", it["attributes"])


def span_lines(span, group, scopes):
    """The lines of a span of this scope and this resource."""
    resource, scope, status = group["resource"], scopes["scope"], span["status"]
    yield " ".join(
        [
            "span",
            *(
                span[it]
                for it in ("trace", "span", "parent", "state", "kind", "start", "end", "name")
            ),
        ]
    )
    yield from flag_lines("flags", span["flags"])
    yield f"resource {resource['dropped']} {group['schema']}"
    yield from pair_lines("rattr", resource["attributes"])
    yield f"scope {scope['name']} {scope['version']} {scopes['schema']} {scope['dropped']}"
    yield from pair_lines("sattr", scope["attributes"])
    yield from part_lines(span)
    yield f"dropped {span['dropped']} {span['dropped_events']} {span['dropped_links']}"
    yield f"status {status['code']} {status['message']}"


def text_of(body):
    """The lines of the spans of a request, or nothing if the bytes are none."""
    try:
        groups = read("Request", [body], DEEPEST)["resource_spans"]
    except Fault:
        return None
    found = (
        (span, group, scopes)
        for group in groups
        for scopes in group["scope_spans"]
        for span in scopes["spans"]
    )
    return "".join(f"{line}\n" for it in found for line in span_lines(*it))
