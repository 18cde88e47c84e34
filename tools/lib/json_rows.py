"""Rows of texts of OTLP's JSON that are posted to trace-view, and of what it writes of them."""
import collections
import json

from lib import json_texts
from lib.http import TYPE
from lib.view import Link, View

JSON = "Content-Type: application/json\r\n"
TEXTS = 2_000  # texts of JSON that are changed
# A pair without a value at the 64th level, which is the last: in a list in 63 arrays.
DEEP = (
    '{"key":"deep","value":' + 63 * '{"arrayValue":{"values":['
    + '{"kvlistValue":{"values":[{"key":"bare"}]}}' + 63 * "]}}" + "}"
)
ITEM = '{"key":"item","value":{"arrayValue":{"values":[{}]}}}'
# Pairs whose value is empty, or has one that is, as they are posted and as they are written.
BARE = [
    ('{"key":"bare"}', '{"key":"bare"}'), ('{"key":"empty","value":{}}', '{"key":"empty"}'),
    ('{"key":"null","value":null}', '{"key":"null"}'), (ITEM, ITEM), (DEEP, DEEP),
]


def again_rows(program, link):
    """What is written of each trace is read again: posted to another program, it is written so by
    that one too."""
    with View(program) as view:
        other = Link(view.port)
        for it in json.loads(link.ask("GET", "/api/traces")[2])["traces"]:
            path = f"/api/trace/{it['traceId']}"
            wanted = link.ask("GET", path)[2]
            status = other.ask("POST", "/v1/traces", JSON, wanted)[0]
            found = other.ask("GET", path)[2]
            is_right = (status, found) == (200, wanted)
            yield f"{path}, read again", [] if is_right else [f"{status}, {found[:200]!r}"]


def text_rows(program):
    """Texts of OTLP's JSON, changed at random: those that a plain reader, tools/lib/json_texts.py,
    reads are taken, and no others. What is shown of them is what is shown where the bytes that they
    mean are posted instead."""
    with View(program) as view, View(program) as other:
        links, faults, read = (Link(view.port), Link(other.port)), collections.Counter(), 0
        for text in [json_texts.TEXT, *json_texts.changed(TEXTS)]:
            meaning = json_texts.meaning(text)
            status, _, body = links[0].ask("POST", "/v1/traces", JSON, text)
            if status != (400 if meaning is None else 200):
                faults[f"{status} to {text!r}, {body!r}"] += 1
            if meaning is not None:
                read += 1
                links[1].ask("POST", "/v1/traces", TYPE, meaning)
        yield "texts of JSON", list(faults)
        yield "texts that are read", [] if read > TEXTS // 5 else [f"{read} of {TEXTS}"]
        for name in ("stats", "traces"):
            found, wanted = (it.ask("GET", f"/api/{name}", "", b"")[2] for it in links)
            yield f"{name} after texts", [] if found == wanted else [f"{found!r} for {wanted!r}"]
        for it in json.loads(wanted)["traces"]:
            path = f"/api/trace/{it['traceId']}"
            found, wanted = (it.ask("GET", path, "", b"")[2] for it in links)
            yield path, [] if found == wanted else [f"{found[:200]!r} for {wanted[:200]!r}"]
        yield from again_rows(program, links[1])


def bare_rows(program):
    """A value that is empty is left out of a pair, at any level, and written in an array. Each text
    is read again."""
    posted, written = (",".join(it) for it in zip(*BARE))
    with View(program) as view:
        link = Link(view.port)
        status, _, body = link.ask("POST", "/v1/traces", JSON, json_texts.with_pairs(posted))
        yield "pairs without a value", [] if status == 200 else [f"{status}, {body!r}"]
        found = link.ask("GET", f"/api/trace/{json_texts.TRACE}")[2].decode()
        is_right = f'"attributes":[{written}],"droppedAttributesCount":1,' in found
        yield "as they are written", [] if is_right else [f"{found!r} without {written!r}"]
        yield from again_rows(program, link)


def cut_rows(program):
    """Half a character, as JavaScript leaves it, is read as U+FFFD."""
    with View(program) as view:
        link = Link(view.port)
        status, _, body = link.ask("POST", "/v1/traces", JSON, json_texts.CUT)
        yield "half a character", [] if status == 200 else [f"{status}, {body!r}"]
        found = link.ask("GET", f"/api/trace/{json_texts.TRACE}")[2].decode()
        is_right = f'"attributes":[{json_texts.READ}],' in found
        yield "half a character, as it is read", [] if is_right else [f"{found!r}"]
        yield from again_rows(program, link)
