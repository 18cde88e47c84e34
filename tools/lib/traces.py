"""What trace-view is to show of the spans that were posted to it (docs/FORMATS.md, "trace-view"),
and what its pages say, as a reader of their rows finds it."""
import dataclasses
import datetime
import html
import json
import re
import urllib.parse

from lib.harness import Wrong
from lib.wire import fixed64, number, piece

LISTED = 1_000  # traces that a list has at most
SHOWN = 120  # characters of a name that a list shows
SCOPE = "view-runs"
ERROR = 2  # a status (opentelemetry-proto, trace.proto: Status)
UNITS = (("s", 10**9), ("ms", 10**6), ("us", 10**3))
COLUMNS, DEEPEST = 40, 12  # of a name in a text, and how many rows indent it at most
METRICS = {  # what is counted, in /api/stats and as a sample of /metrics
    "received": "trace_view_spans_received_total",
    "kept": "trace_view_spans_kept",
    "evicted": "trace_view_spans_evicted_total",
    "traces": "trace_view_traces_kept",
    "evictedTraces": "trace_view_traces_evicted_total",
}
CONNECTIONS = "trace_view_connections_total"


@dataclasses.dataclass(frozen=True)
class Span:
    """A span that is posted, and the service that made it."""

    trace: int
    at: int
    parent: int = 0
    name: str = "work"
    service: str = "shop"
    start: int = 1_790_000_000_000_000_000
    took: int = 500_000  # nanoseconds; below 0 where it ends before it starts
    code: int = 0

    def end(self):
        """When it ended, or its start where that is later."""
        return self.start + max(self.took, 0)

    def fields(self):
        """Its fields (opentelemetry-proto, trace.proto: Span)."""
        found = piece(1, self.trace.to_bytes(16, "big")) + piece(2, self.at.to_bytes(8, "big"))
        found += piece(4, self.parent.to_bytes(8, "big")) if self.parent else b""
        found += piece(5, self.name.encode()) + number(6, 2)
        found += fixed64(7, self.start) + fixed64(8, self.start + self.took)
        return found + (piece(15, number(3, self.code)) if self.code else b"")

    def size(self):
        """The bytes that it counts, without its resource and its scope (FORMATS, "Memory")."""
        return 768 + 16 + 8 + (8 if self.parent else 0) + len(self.name.encode())

    def shared(self):
        """The bytes that its resource and its scope count."""
        pair = 64 + len("service.name") + 48 + len(self.service.encode())
        return 256 + pair + 256 + len(SCOPE)


def shared_body(spans):
    """A request with these spans under one resource, with the service of the first, and one scope.
    The bytes of both count once for each trace of theirs."""
    value = piece(2, piece(1, spans[0].service.encode()))
    about = piece(1, piece(1, b"service.name") + value)
    scope = piece(1, piece(1, SCOPE.encode()))
    fields = b"".join(piece(2, it.fields()) for it in spans)
    return piece(1, piece(1, about) + piece(2, scope + fields))


def body_of(spans):
    """A request with these spans, each under a resource and a scope of its own."""
    return b"".join(shared_body([it]) for it in spans)


class Posted:
    """The spans of all posts that were taken, each under a resource of its own, with the bytes that
    each trace counts. All are kept, unless `keep` says less."""

    def __init__(self):
        self.spans, self.last, self.sizes, self.posts = {}, {}, {}, 0

    def add(self, spans):
        """One more post."""
        self.posts += 1
        for it in spans:
            self.spans.setdefault(it.trace, []).append(it)
            self.sizes[it.trace] = self.sizes.get(it.trace, 0) + it.size() + it.shared()
            self.last[it.trace] = self.posts

    def keep(self, most):
        """Forgets the oldest traces, as few as will do so that the others count that many bytes."""
        for trace in reversed(self.traces()):
            if sum(self.sizes.values()) <= most:
                return
            del self.spans[trace], self.last[trace], self.sizes[trace]

    def traces(self):
        """All traces: the one first whose spans came last."""
        return sorted(self.last, key=self.last.get, reverse=True)

    def total(self):
        """How many spans there are."""
        return sum(map(len, self.spans.values()))

    def root(self, trace):
        """The first span that names no parent, or else the first of all."""
        spans = self.spans[trace]
        return next((it for it in spans if not it.parent), spans[0])

    def times(self, trace):
        """The earliest start and the latest end."""
        spans = self.spans[trace]
        return min(it.start for it in spans), max(it.end() for it in spans)

    def errors(self, trace):
        """How many spans are errors."""
        return sum(it.code == ERROR for it in self.spans[trace])

    def takes(self, trace, asked):
        """Whether a trace is asked for by a query of these pairs."""
        start, end = self.times(trace)
        service = asked.get("service")
        return (
            (not service or any(it.service == service for it in self.spans[trace]))
            and self.root(trace).name.startswith(asked.get("name", ""))
            and (end - start) // 10**6 >= int(asked.get("least") or 0)
            and (not asked.get("errors") or self.errors(trace) > 0)
        )

    def listed(self, pairs):
        """The traces of the list for a query."""
        return [it for it in self.traces() if self.takes(it, dict(pairs))][:LISTED]

    def member(self, trace):
        """What /api/traces has of a trace (GUIDE, "Traces in a browser")."""
        root, (start, end) = self.root(trace), self.times(trace)
        return {
            "traceId": f"{trace:032x}", "service": cut(root.service), "name": cut(root.name),
            "startTimeUnixNano": str(start), "endTimeUnixNano": str(end),
            "spans": len(self.spans[trace]), "errors": self.errors(trace),
        }

    def row(self, trace):
        """What the list has of a trace, in its columns."""
        root, (start, end) = self.root(trace), self.times(trace)
        return (
            f"{trace:032x}", cut(root.name) or "(no name)", cut(root.service),
            str(len(self.spans[trace])), str(self.errors(trace)), duration(end - start),
            second(start),
        )

    def tree(self, trace):
        """The spans of a trace with their depths: below each its children, by their starts."""
        spans = sorted(self.spans[trace], key=lambda it: it.start)
        known = {it.at for it in spans}
        below = {}
        for it in spans:
            below.setdefault(it.parent if it.parent in known else 0, []).append(it)
        pile, found = [(it, 0) for it in reversed(below.get(0, []))], []
        while pile:
            it, depth = pile.pop()
            found.append((it, depth))
            pile += [(child, depth + 1) for child in reversed(below.get(it.at, []))]
        return found


def cut(text):
    """What a list shows of a text."""
    return text if len(text) <= SHOWN else text[:SHOWN] + "…"


def duration(nanos):
    """A time with two digits after the point, or in nanoseconds."""
    for name, unit in UNITS:
        if nanos >= unit:
            return f"{nanos // unit}.{nanos % unit * 100 // unit:02} {name}"
    return f"{nanos} ns"


def second(nanos):
    """A date and a time to the second, in UTC."""
    found = datetime.datetime.fromtimestamp(nanos // 10**9, datetime.timezone.utc)
    return found.strftime("%Y-%m-%d %H:%M:%S")


def query_of(pairs):
    """A query of these pairs, with its `?`, or nothing."""
    return f"?{urllib.parse.urlencode(pairs)}" if pairs else ""


def remark_of(shown, total, host):
    """What a list of so many of all traces says of that, if anything."""
    if not total:
        return (
            f"No trace is here yet. Post traces to http://{host}/v1/traces. An SDK does, set so:"
            f"OTEL_EXPORTER_OTLP_ENDPOINT=http://{host}\nOTEL_EXPORTER_OTLP_PROTOCOL=http/protobuf"
            "\nOTEL_METRICS_EXPORTER=none\nOTEL_LOGS_EXPORTER=none"
        )
    if not shown:
        return f"Nothing matches. Traces that are kept: {total:,}. Show all"
    return f"Showing {shown:,} of {total:,}" if shown < total else ""


def text_of(markup):
    """The text of a piece of a page."""
    return html.unescape(re.sub("<[^>]*>", "", markup))


ROW = re.compile(
    "<tr><td><a href='/trace/([0-9a-f]{32})([^']*)'>(.*?)</a><td>(.*?)<td>(.*?)<td>(.*?)<td>(.*?)"
    "<td>(.*?)(?=<tr>|</table>)", re.S
)
SPAN = re.compile(
    "<li data-row='([0-9]+)' class='row c[0-7]( bad)?' id='s-([0-9a-f]{16})' aria-level='([0-9]+)'"
    ".*?<b(?: class='blank')?>(.*?)</b> <small>(.*?)</small>.*?<span class='took'>(.*?)</span>",
    re.S
)


def list_in(page):
    """What the page of a list says: its rows, the queries of their links, its remark, and what the
    fields of its form have."""
    found = ROW.findall(page)
    rows = [(it[0], *map(text_of, it[2:])) for it in found]
    queries = {html.unescape(it[1]) for it in found}
    remark = re.search("</form>(.*?)</header>", page, re.S)
    form = {name: html.unescape(value) for name, value in re.findall(
        "<input name='(.*?)' value='(.*?)'", page
    )}
    form["errors"] = "name='errors' value='1' checked" in page
    return rows, queries, text_of(remark[1]), form


def form_of(pairs):
    """What the fields of the form have for a query of these pairs."""
    asked = dict(pairs)
    return {
        "q": asked.get("q", ""), "service": asked.get("service", ""), "name": asked.get("name", ""),
        "least": str(int(asked.get("least") or 0)), "errors": bool(asked.get("errors")),
    }


def spans_in(page):
    """The rows of the page of a trace: each with its place among the spans, whether it is marked as
    an error, its identifier, its level, its name, its service, and how long it took."""
    return [
        (int(at), bool(bad), int(it, 16), int(level), *map(text_of, rest))
        for at, bad, it, level, *rest in SPAN.findall(page)
    ]


def rows_of(posted, trace):
    """The same, as it is to be."""
    places = {it.at: at for at, it in enumerate(posted.spans[trace])}
    return [
        (places[it.at], it.code == ERROR, it.at, depth + 1, it.name or "(no name)", it.service,
         duration(it.end() - it.start))
        for it, depth in posted.tree(trace)
    ]


def label_of(name, depth):
    """A name in the columns of a text."""
    indent = 2 * min(depth, DEEPEST)
    room = COLUMNS - indent
    return " " * indent + (name.ljust(room) if len(name) <= room else name[: room - 1] + "~")


def labels_in(text):
    """The lines of a text: each with its name in its columns, and whether it is an error."""
    return [(line[:COLUMNS], "  error" in line[COLUMNS:]) for line in text.splitlines()]


def labels_of(posted, trace):
    """The same, as it is to be."""
    return [(label_of(it.name, depth), it.code == ERROR) for it, depth in posted.tree(trace)]


def objects_in(answer):
    """The spans of a trace in OTLP's JSON: each with its service, its scope and its fields."""
    return [
        (group["resource"]["attributes"], scope["scope"]["name"], it["traceId"], it["spanId"],
         it["parentSpanId"], it["name"], it["startTimeUnixNano"], it["endTimeUnixNano"],
         it["status"]["code"])
        for group in json.loads(answer)["resourceSpans"]
        for scope in group["scopeSpans"] for it in scope["spans"]
    ]


def objects_of(posted, trace):
    """The same, as it is to be: in the order in which they came."""
    return [
        ([{"key": "service.name", "value": {"stringValue": it.service}}], SCOPE,
         f"{it.trace:032x}", f"{it.at:016x}", f"{it.parent:016x}" if it.parent else "", it.name,
         str(it.start), str(it.start + it.took), it.code)
        for it in posted.spans[trace]
    ]


def answered(status):
    """The name of the sample of the answers with a status."""
    return f'trace_view_answers_total{{status="{status}"}}'


FORMS = [  # a path of a trace, what is read of the answer, and how it is to be
    ("/trace/{}", lambda text: spans_in(text.decode()), rows_of),
    ("/trace/{}.txt", lambda text: labels_in(text.decode()), labels_of),
    ("/api/trace/{}", objects_in, objects_of),
]


def samples_in(text):
    """The numbers of /metrics, each by its name and its labels. Each name has one line that says
    what it is and one of its type, before its numbers: a counter's name ends in `_total`."""
    found, kind, names = {}, None, set()
    for line in text.splitlines():
        words = line.split(" ")
        if words[0] == "#" and words[1] == "TYPE":
            kind = words[2:]
            if words[2] in names or (words[3] == "counter") != words[2].endswith("_total"):
                raise Wrong(f"/metrics has {line!r}")
            names.add(words[2])
        elif words[0] != "#":
            if kind is None or words[0].partition("{")[0] != kind[0] or words[0] in found:
                raise Wrong(f"/metrics has {line!r}")
            found[words[0]] = int(words[1])
    return found
