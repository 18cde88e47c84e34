"""What trace-view shows of two traces with a value of each kind, by hand: of one as OTLP's JSON, of
the other as a page and a text, with orphans, a cycle, an early end and an identifier twice."""
import json

from lib.harness import compared
from lib.json_rows import JSON
from lib.view import Link, View

# A span with all fields, as OTLP's JSON has it (opentelemetry-proto, "JSON Protobuf Encoding"): it
# is answered just as it is posted.
FULL = (
    r'{"resourceSpans":[{"resource":{"attributes":[{"key":"service.name","value":{"stringValue":"'
    r'my.service"}}],"droppedAttributesCount":7},"scopeSpans":[{"scope":{"name":"my.library","ver'
    r'sion":"1.0.0","attributes":[{"key":"in","value":{"stringValue":"scope"}}],"droppedAttribute'
    r'sCount":6},"spans":[{"traceId":"5b8efff798038103d269b633813fc60c","spanId":"eee19b7ec3c1b17'
    r'4","traceState":"a=b","parentSpanId":"eee19b7ec3c1b173","flags":257,"name":"GET \"/\"\\\n\u'
    r'0001\u001f</script>é","kind":2,"startTimeUnixNano":"1544712660000000000","endTimeUnixNano":'
    r'"1544712661000000000","attributes":[{"key":"empty"},{"key":"text","value":{"stringValue":"a'
    r' \"b\"\n"}},{"key":"true","value":{"boolValue":true}},{"key":"int","value":{"intValue":"-7"'
    r'}},{"key":"least","value":{"intValue":"-9223372036854775808"}},{"key":"bytes","value":{"byt'
    r'esValue":"+//+AQ=="}},{"key":"one and a half","value":{"doubleValue":1.5}},{"key":"not a nu'
    r'mber","value":{"doubleValue":"NaN"}},{"key":"infinite","value":{"doubleValue":"Infinity"}},'
    r'{"key":"less","value":{"doubleValue":"-Infinity"}},{"key":"array","value":{"arrayValue":{"v'
    r'alues":[{"intValue":"0"},{"stringValue":"x"}]}}},{"key":"pairs","value":{"kvlistValue":{"va'
    r'lues":[{"key":"k","value":{"stringValue":"v"}}]}}}],"droppedAttributesCount":1,"events":[{"'
    r'timeUnixNano":"1544712660500000000","name":"retry","attributes":[{"key":"reason","value":{"'
    r'stringValue":"busy"}}],"droppedAttributesCount":4}],"droppedEventsCount":2,"links":[{"trace'
    r'Id":"0a0a0a0a0a0a0a0a0a0a0a0a0a0a0a0a","spanId":"b0b0b0b0b0b0b0b0","traceState":"vendor=1",'
    r'"attributes":[{"key":"kind","value":{"stringValue":"child"}}],"droppedAttributesCount":5,"f'
    r'lags":768}],"droppedLinksCount":3,"status":{"message":"it failed","code":2}}],"schemaUrl":"'
    r'of scope"}],"schemaUrl":"of resource"}]}'
)

TRACE = "30313233343536373839616263646566"
BEGAN = 1_790_000_000_000_000_000
HOSTILE = "</b><script>alert(\"1\" & '2')</script>\u202e\0"
# The spans of the page: their identifiers, their parents', names, starts and ends in milliseconds.
# The second one is an error.
SPANS = [
    (1, 0, "root", 0, 100), (2, 1, HOSTILE, 10, 60), (3, 99, "orphan", 20, 30),
    (4, 5, "round", 30, 40), (5, 4, "about", 32, 38), (6, 1, "", 70, 65), (2, 1, "again", 80, 90),
]
VALUES = [
    {"stringValue": "<b>&'\""}, {"boolValue": True}, {"intValue": "-7"}, {"doubleValue": 2.5}, {},
    {"bytesValue": "AP8="},
    {"kvlistValue": {"values": [{"key": "<i>", "value": {"boolValue": False}}]}},
]
# Parts of the page, each with how often it is there.
PARTS = [
    ("<li data-row='", 7), ("<em>parent not received</em>", 1), ("<em>cycle</em>", 1),
    ("<em>ends before it starts</em>", 1), ("<em>error</em>", 2),
    ("<em>identifier is repeated</em>", 2), ("id='s-0000000000000002'", 1), ("' id='s-", 6),
    ("<li data-row='1' class='row c0 bad' id='s-0000000000000002' aria-level='2'", 1),
    ("<li data-row='6' class='row c0 bad' aria-level='2'", 1), ("<p>7 spans in 100.00 ms.", 1),
    ("<script src='/view.js' defer></script><title>", 1), ("<b class='blank'>(no name)</b>", 1),
    ("<div class='axis'><span>0</span><span>25.00 ms</span><span>50.00 ms</span>", 1),
    ("<dt>span<dd>0000000000000001<dt>kind", 1), ("<dt>parent<dd>0000000000000063<dt>kind", 1),
    ("<a href='#s-0000000000000063'>", 0), ("<p>&lt;scope&gt; &lt;1&gt;</p>", 7),
    ("&lt;/b&gt;&lt;script&gt;alert(&quot;1&quot; &amp; &#39;2&#39;)", 1),
    ("&lt;/script&gt;\u202e\ufffd", 1),
    ("<dt>all&lt;<dd><ul><li>&lt;b&gt;&amp;&#39;&quot;<li>true<li>-7<li>2.5<li>", 7),
    ("<li>0x00ff<li><dl><dt>&lt;i&gt;<dd>false</dl></ul>", 7),
    ("<h4>Attributes <em>4 dropped</em></h4>", 7),
    ("<h5>&lt;event&gt; <small>+1.00 ms</small> <em>3 dropped</em></h5>", 7),
    (f"<a href='/trace/{TRACE}#s-3031323334353637'>", 7),
    ("<dt>kind<dd>server<dt>status<dd>error: &lt;why&gt;<dt>start", 2),
    ("<dt>start<dd>2026-09-21T14:13:20.010000000Z", 1),
    *[(it, 0) for it in (
        "<script>", "<event>", "<scope>", "<why>", "<url>", "<1>", "shop<", "all<", "=<"
    )],
]


def span_of(number, parent, name, start, end):
    """A span of the page as OTLP's JSON has it."""
    moment = lambda after: str(BEGAN + after * 1_000_000)
    return {
        "traceId": TRACE, "spanId": f"{number:016x}", "traceState": "s=<",
        "parentSpanId": f"{parent:016x}" if parent else "", "name": name, "kind": 2, "flags": 257,
        "startTimeUnixNano": moment(start), "endTimeUnixNano": moment(end),
        "attributes": [{"key": "all<", "value": {"arrayValue": {"values": VALUES}}}],
        "droppedAttributesCount": 4, "droppedEventsCount": 5, "droppedLinksCount": 6,
        "events": [{
            "timeUnixNano": moment(start + 1), "name": "<event>", "droppedAttributesCount": 3,
        }],
        "links": [{
            "traceId": TRACE, "spanId": "3031323334353637", "traceState": "a=<", "flags": 1,
        }],
        "status": {"message": "<why>", "code": 2 if number == 2 else 0},
    }


def page_body():
    """The request with all spans of the page."""
    service = {"key": "service.name", "value": {"stringValue": "shop<"}}
    spans = [span_of(*it) for it in SPANS]
    scope = {"scope": {"name": "<scope>", "version": "<1>"}, "spans": spans}
    group = {"resource": {"attributes": [service]}, "scopeSpans": [scope], "schemaUrl": "<url>"}
    return json.dumps({"resourceSpans": [group]}).encode()


def part_rows(view):
    """What is posted as JSON is answered so, and the page and the text have what is theirs."""
    link = Link(view.port)
    status = link.ask("POST", "/v1/traces", JSON, FULL.encode())[0]
    found = link.ask("GET", "/api/trace/5b8efff798038103d269b633813fc60c")[2].decode()
    yield "a trace in JSON as it was posted", (status, found), (200, FULL)
    yield "spans of all kinds", link.ask("POST", "/v1/traces", JSON, page_body())[0], 200
    page = link.ask("GET", f"/trace/{TRACE}")[2].decode()
    for part, count in PARTS:
        yield f"a page with {part}", page.count(part), count
    text = link.ask("GET", f"/trace/{TRACE}.txt")[2].decode()
    found = (text.count("\n"), text.count("10.0ms  parent not received\n"))
    yield "a text with each span", found, (7, 1)


def shown_rows(program):
    """The same, of a run of its own."""
    with View(program) as view:
        yield from compared(part_rows(view))
