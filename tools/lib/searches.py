"""What the list of trace-view shows of some traces for each search, by hand: on the page and as
JSON, in parts where it is long, and where the search can't be read."""
import html
import json
import re
import urllib.parse

from lib.harness import compared
from lib.json_rows import JSON
from lib.view import Link, View

BEGAN = 1_790_000_000_000_000_000
LISTED = 1_000  # traces that a list has at most
MANY = 2_003  # traces, of which a list shows a part


def attribute(key, value):
    """An attribute as OTLP's JSON has it: of a text, a truth value, a number or a double."""
    kinds = {bool: "boolValue", int: "intValue", float: "doubleValue", str: "stringValue"}
    return {"key": key, "value": {kinds[type(value)]: str(value) if type(value) is int else value}}


def span_of(trace, at, name, took, code=0, **attributes):
    """A span of a trace, which took so many microseconds. Only the first one names no parent."""
    return {
        "traceId": f"{trace:032x}", "spanId": f"{at:016x}",
        "parentSpanId": "" if at == 1 else f"{1:016x}", "name": name, "kind": 2,
        "startTimeUnixNano": str(BEGAN), "endTimeUnixNano": str(BEGAN + took * 1_000),
        "attributes": [attribute(key, value) for key, value in attributes.items()],
        "status": {"code": code},
    }


def body_of(service, *spans, scope=(), **resource):
    """A request with these spans of a service."""
    resource = [attribute(key, value) for key, value in resource.items()]
    return json.dumps({"resourceSpans": [{
        "resource": {"attributes": [attribute("service.name", service), *resource]},
        "scopeSpans": [{"scope": {"name": "s", "attributes": list(scope)}, "spans": list(spans)}],
    }]}).encode()


# Posts, the oldest first: each of a trace, which is called by its number.
POSTS = [
    body_of("shop", span_of(1, 1, "GET /cart", 250_000, status=200, cart="a b"), host="red"),
    body_of("payments", span_of(2, 1, "POST /check", 100_000, code=2, status=503, retried=True)),
    body_of("payments", span_of(3, 1, "POST /check", 100_001, status=503, delta=-7)),
    body_of("shop", span_of(4, 1, "error", 5, note="Say \"x\"", status="503"),
            span_of(4, 2, "call", 3, code=2, host="blue"), scope=[attribute("in", "scope")]),
    body_of("shop-front", span_of(5, 1, "GET /", 2_000_000, ratio=0.5, empty="")),
]
# Each search, and the traces that it finds, the newest first.
FOUND = [
    ("", [5, 4, 3, 2, 1]), ("   ", [5, 4, 3, 2, 1]),
    ("error", [4, 2]), ("-error", [5, 4, 3, 1]), ("root error", [2]), ("-root", [4]),
    ("\"error\"", [4]), ("name=error", [4]), ("ERR", [4]), ("check", [3, 2]), ("Check", [3, 2]),
    ("name:\"POST /check\"", [3, 2]), ("name=\"POST /Check\"", []),
    ("name!=\"POST /check\"", [5, 4, 1]),
    ("service=shop", [4, 1]), ("service:SHOP", [5, 4, 1]), ("service!=shop", [5, 3, 2]),
    ("-service:shop", [3, 2]), ("service=", []),
    ("duration>100ms", [5, 3, 1]), ("duration>=100ms", [5, 3, 2, 1]), ("duration<=5us", [4]),
    ("duration<5us", [4]), ("duration<3us", []), ("duration>=2s", [5]),
    ("duration<1m", [5, 4, 3, 2, 1]), ("status=503", [4, 3, 2]), ("status!=503", [1]),
    ("-status=503", [5, 4, 1]), ("status>200", [3, 2]), ("status>=200", [3, 2, 1]),
    ("status<503", [1]), ("status:503", [4]), ("status:\"\"", [4, 3, 2, 1]),
    ("retried=true", [2]), ("retried=false", []), ("delta=-7", [3]), ("delta<0", [3]),
    ("delta>0", []),
    ("host=red", [1]), ("host=blue", [4]), ("host=RED", []), ("host:RED", [1]), ("in=scope", [4]),
    ("cart=\"a b\"", [1]), ("cart:\"A B\"", [1]), ("cart=a", []), ("empty=", [5]), ("ratio>0", []),
    ("service=payments status=503 duration>100ms", [3]),
    ("service=payments status=503 error name:\"POST /check\" root", [2]),
    ("error host=blue", [4]), ("error host=red", []), ("name=error host=blue", []),
    ("unknown=1", []), ("-unknown=1", [5, 4, 3, 2, 1]),
]
# Each search that can't be read, where its mistake is, and a part of what is said.
WRONG = [
    ("error duration>100", 6, "unit"), ("duration=5ms", 0, "sign"), ("a=1  service>b", 5, "sign"),
    ("x>y", 0, "number"), ("x>=-1", 0, "number"), (f"x<{2**64}", 0, "number"), ("=x", 0, "word"),
    ("é \"b", 3, "closed"), ("a=\"b\"c", 0, "quote"), ("a=b\"c", 0, "quote"), ("-", 0, "word"),
    ("root !x", 5, "word"), ("duration>1.5s", 0, "unit"), (f"duration>{2**63}s", 0, "unit"),
]
MISTAKE = re.compile(
    r"<p class='mistake' role='alert'>The search can't be read from byte (\d+) on: (.*?)</p>"
)


def traces_in(page):
    """The traces of a page, by their numbers."""
    return [int(it, 16) for it in re.findall("<tr><td><a href='/trace/([0-9a-f]{32})", page)]


def field_in(page, name):
    """What a field of the page's form has."""
    return html.unescape(re.search(f"<input name='{name}' value='(.*?)'", page)[1])


def query_of(**pairs):
    """A query with these pairs."""
    return "?" + urllib.parse.urlencode(pairs)


def search_rows(link):
    """Each search, and each that can't be read."""
    for body in POSTS:
        yield "a post", link.ask("POST", "/v1/traces", JSON, body)[0], 200
    for search, wanted in FOUND:
        status, _, page = link.ask("GET", "/" + query_of(q=search))
        page = page.decode()
        found = (status, traces_in(page), field_in(page, "q"))
        yield f"search {search}", found, (200, wanted, search)
        status, _, body = link.ask("GET", "/api/traces" + query_of(q=search))
        found = [int(it["traceId"], 16) for it in json.loads(body)["traces"]]
        yield f"search {search} in JSON", (status, found), (200, wanted)
    for search, at, why in WRONG:
        status, _, page = link.ask("GET", "/" + query_of(q=search))
        page = page.decode()
        place, said = MISTAKE.search(page).groups()
        found = (status, int(place), why in html.unescape(said), field_in(page, "q"))
        yield f"search {search}", found, (400, at, True, search)
        status, _, body = link.ask("GET", "/api/traces" + query_of(q=search))
        body = json.loads(body)
        found = (status, body["at"], why in body["message"])
        yield f"search {search} in JSON", found, (400, at, True)
    both = "/api/traces" + query_of(q="status=503", service="payments", errors=1)
    found = [int(it["traceId"], 16) for it in json.loads(link.ask("GET", both)[2])["traces"]]
    yield "a search beside filters", found, [2]


def hidden_in(page):
    """What the button below the rows asks for, or nothing where there is no button."""
    form = re.search("<form class='more'>(.*?)</form>", page)
    return form and dict(
        (name, html.unescape(value))
        for name, value in re.findall("type='hidden' name='(.*?)' value='(.*?)'", form[1])
    )


def part_rows(link):
    """A long list in parts, each after the last trace of the one before."""
    for first in range(1, MANY + 1, 500):
        numbers = range(first, min(first + 500, MANY + 1))
        spans = [span_of(it, 1, f"'{it % 2}' & \"more\"", it) for it in numbers]
        yield "a post", link.ask("POST", "/v1/traces", JSON, body_of("shop", *spans))[0], 200
    kept = json.loads(link.ask("GET", "/api/traces")[2])["traces"]
    kept = [int(it["traceId"], 16) for it in kept]
    odd = set(range(1, MANY + 1, 2))
    for search, wanted in (("", set(range(1, MANY + 1))), ("\"'1' & \"", odd)):
        asked, found, sizes = {"q": search}, [], []
        while asked is not None and len(sizes) < 5:
            page = link.ask("GET", "/" + query_of(**asked))[2].decode()
            query = {name: value for name, value in asked.items() if name in ("q", "after")}
            body = json.loads(link.ask("GET", "/api/traces" + query_of(**query))[2])
            traces = traces_in(page)
            yield "the same in JSON", [int(it["traceId"], 16) for it in body["traces"]], traces
            found, sizes, asked = found + traces, [*sizes, len(traces)], hidden_in(page)
        yield f"all parts of {search}", (len(found), set(found)), (len(wanted), wanted)
        whole, rest = divmod(len(wanted), LISTED)
        yield f"the parts of {search}", sizes, [LISTED] * whole + [rest] * bool(rest)
    yield "the newest first", kept, found_first(link)
    unknown = link.ask("GET", "/api/traces" + query_of(after=f"{MANY + 1:032x}"))
    yield "after a trace that isn't kept", json.loads(unknown[2])["traces"], []
    for bad in ("1", "g" * 32, "0" * 33):
        found = [link.ask("GET", path + query_of(after=bad))[0] for path in ("/", "/api/traces")]
        yield f"after {bad}", found, [400, 400]


def found_first(link):
    """The first part of the list, as the page has it."""
    return traces_in(link.ask("GET", "/")[2].decode())


def searched_rows(program):
    """Both, each of a run of its own."""
    for rows in (search_rows, part_rows):
        with View(program) as view:
            yield from compared(rows(Link(view.port)))
