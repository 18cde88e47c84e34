"""What collectors reply to the posts of a batch, and how the batch ends."""
import email.utils
import time
import typing

from lib.http import CLOSE, HOST, KEEP, SILENCE, reply

# Seconds within which a program goes on: far more than it takes, since the machine may be slow, and
# far less than some replies ask for in vain.
MOST = 120
IN_VAIN = "Retry-After: 250\r\n"
# Milliseconds of an attempt: of one that is answered, so that a slow machine answers it in time; of
# one to a silent server, as the standard has it (Trace SDK, "Batching processor"); and of one whose
# reply drips, more than the default of ten seconds.
TIMEOUT, SILENT_TIME, TIME = 120_000, 30_000, 16_000
SPANS = 3

OTLP = "OTEL_EXPORTER_OTLP_"
CODED = "Content-Encoding: gzip\r\n"

# --- Replies, and bodies (ExportTraceServiceResponse)

BODY = bytes.fromhex("0a05 0802 120178")  # two spans were rejected, and why: `x`
HEAD = b"HTTP/1.1 200 OK\r\nContent-Length: 7\r\n\r\n"
REPLY = HEAD + BODY
GOOD = b"HTTP/1.1 200 OK\r\nContent-Length: 0\r\n\r\n"
INTERIM = b"HTTP/1.1 100 Continue\r\n\r\n"


def busy(fields):
    """A reply that asks to be tried again."""
    return reply("503 Busy", fields)


def coded(chunks, start="200 OK"):
    """A reply with its body in chunks."""
    return reply(start, "Transfer-Encoding: chunked\r\n", chunks)


def in_seconds(seconds):
    """A reply that asks to be tried again at the first whole second after so many, as it is
    sent."""
    return lambda: busy(
        f"Retry-After: {email.utils.formatdate(int(time.time()) + 1 + seconds, usegmt=True)}\r\n"
    )


# --- Runs


class Case(typing.NamedTuple):
    """What the attempts of a batch are answered, and how the batch ends. Waits go from the least to
    the most seconds, each from a request to the next connection, or to the next request of a kept
    one; but the first one goes from the beginning of the run where it is the time of an attempt,
    which begins before its request has come."""

    name: str
    replies: list
    end: str
    waits: list = []
    way: str = "whole"
    host: str = HOST
    # What is printed of the last attempt that failed, if another than `failure_of` says.
    failure: str | None = None
    # The variable of the environment that names the server.
    variable: str = "OTEL_EXPORTER_OTLP_TRACES_ENDPOINT"
    coding: str = "none"  # how bodies are compressed
    # The milliseconds of an attempt, and whether the first one takes them all.
    timeout: int = TIMEOUT
    is_timed: bool = False
    # The connections over which the attempts come, where it isn't one for each.
    connections: int | None = None

    def words(self, program, port):
        """What runs the program against the server at this port."""
        timeout = f"{self.variable.replace('ENDPOINT', 'TIMEOUT')}={self.timeout}"
        compression = f"{OTLP}COMPRESSION={self.coding}"
        return ["env", "-i", f"{self.variable}={self.url(port)}", timeout, compression, program]

    def url(self, port):
        """The server's address as the variable has it: the general one is completed by the path
        (OTLP Specification, "Endpoint URLs for OTLP/HTTP")."""
        path = "/v1/traces" if "TRACES" in self.variable else ""
        return f"http://{self.host}:{port}{path}"


UNREAD = "no reply came in time, or it could not be read"
ENDED = "the connection ended before a reply"
REJECTED_TWO = "the collector rejected 2 of the spans"
NO_HEAD, LARGE_HEAD = "the reply has no head that can be read", "the head of the reply is too large"


# --- The rows

# From a batch's first attempt to its second go half of 200 ms to all of it, twice as much to the
# third and so on, up to 1000 ms; what a slow machine adds is allowed for.
FIRST, SECOND, ANY = (0.1, MOST), (0.2, MOST), (0, MOST)
ALL_WAITS = [FIRST, SECOND, (0.4, MOST), (0.5, MOST)]  # of a batch that is sent five times


def once(name, text, end, failure=None):
    """A reply after which nothing is sent again."""
    return Case(name, [text], end, failure=failure)


def in_vain(name, replies):
    """Replies after each of which the same bytes are sent again, until the batch is given up."""
    return Case(name, replies, "given up", ALL_WAITS)


def again(name, text, wait=FIRST, failure=None):
    """A reply after which the same bytes are sent again."""
    return Case(name, [text, GOOD], "delivered", [wait], failure=failure)


SEVEN = "the collector answered 400:       x"  # (what that body is as a text)
STATUSES = [
    ("delivered", (200, 201, 202, 204, 205, 299)),
    (
        "refused",
        (
            300, 301, 304, 400, 401, 403, 404, 405, 408, 413, 415, 428, 430, 431, 500, 501, 505,
            999, 99,
        ),
    ),
]
LATER = (429, 502, 503, 504)
REJECTED = b"4;a\r\n\x0a\x05\x08\x02\r\n3\r\n\x12\x01\x78\r\n0\r\n\r\n"  # that body in two chunks
NO_CHUNKS = b"4\r\n\x0a\x05\x08\x02\x12\x01\x78\r\n0\r\n\r\n"  # without a CR LF after the first
DRESSED = b'3;a="b"\r\n\x0a\x05\x08\r\n0004 \t\r\n\x02\x12\x01\x78\r\n000;z\r\nA: b\nC:\r\n\r\n'
# Fields in front of that body, which they let be read.
FRAMINGS = [
    "",
    "Content-Length: 7\r\n",
    "Content-Length: 0007\r\n",
    "CONTENT-length:\t7 \r\n",
    "Content-Length: 7\r\ncontent-length: 7 \r\n",
    "Content-Length: 7\r\nRetry-After: 9\r\n",
    "A: b\r\n" * 64,
]
# Others, with which it can't be had, so that all counts as taken.
NO_FRAMINGS = [
    "Content-Length: 5, 5\r\n",
    "Content-Length: 7, 7\r\n",
    "Content-Length: \r\n",
    "Content-Length: +7\r\n",
    "Content-Length: 0x7\r\n",
    "Content-Length: 7 7\r\n",
    "Content-Length: 7\r\nContent-Length: 07\r\n",
    "Content-Length: 7\r\nContent-Length: 8\r\n",
    "Content-Length: 8\r\n",
    "Content-Length: 65537\r\n",
    "Content-Length: 18446744073709551615\r\n",
    "Content-Length: 18446744073709551616\r\n",
    "Transfer-Encoding: gzip\r\n",
    "Transfer-Encoding: gzip, chunked\r\n",
    "Transfer-Encoding: identity\r\nContent-Length: 7\r\n",
    "Transfer-Encoding: chunked\r\nTransfer-Encoding: chunked\r\n",
    "Transfer-Encoding: \r\n",
]
# What can't begin a head.
NO_HEADS = [
    ("HTTP/x", b"HTTP/x"),
    ("a word", b"hello\r\n"),
    ("a later version", b"HTTP/2.0 200 OK\r\n\r\n"),
    ("a status of two digits", b"HTTP/1.1 20 OK\r\n\r\n"),
    ("a line that is folded", reply("200 OK", " folded\r\n")),
    ("a name with a space", reply("200 OK", "A b: c\r\n")),
    ("a CR without a line feed", b"\r" + GOOD),
    ("seventeen interim heads", INTERIM * 17 + GOOD),
]
# What is too large for one.
LARGE_HEADS = [
    ("65 fields", reply("200 OK", "A: b\r\n" * 65)),
    ("a head of 16,385 bytes", reply("200 OK", "A: " + "b" * 16_361 + "\r\n")),
    ("a head without an end", b"HTTP/1.1 200 OK\r\nA: " + b"b" * 20_000),
    ("many empty lines", b"\n" * 16_384 + GOOD),
    ("an empty line too many", b"\n" * (16_385 - len(GOOD)) + GOOD),
]
# Bodies by which a batch is refused, and what is printed of them: a text, messages of a Status
# (google/rpc/status.proto: field 2), what is neither, and what a terminal would take for a command.
SAID = [
    ("", b"bad request", ": bad request"),
    ("Content-Length: 3\r\n", b"bad request", ": bad"),
    ("Transfer-Encoding: chunked\r\n", b"3\r\nbad\r\n0\r\n\r\n", ": bad"),
    ("", bytes.fromhex("0803 1203 626164"), ": bad"),
    ("", bytes.fromhex("1201 61 1201 62"), ": b"),
    ("", bytes.fromhex("1202 c3a9"), ": \u00e9"),
    ("", bytes.fromhex("1201 ff"), ""),
    ("", b"bad \xff", ""),
    ("Content-Length: 9\r\n", b"", ""),
    ("Content-Length: 9\r\n", b"bad", ""),
    ("", b"a\x1b[2Jb\r\nc\x7f\xc2\x9bd\n", ": a [2Jb  c  d "),
    ("", b"x" * 300, ": " + "x" * 256),
    ("", b"x" + "\u00e9".encode() * 200, ": x" + "\u00e9" * 127),
]


def outcome_runs():
    """Replies after which nothing is sent again."""
    yield Case("a host by its name", [GOOD], "delivered", host="localhost")
    yield Case("a server by the general variable", [GOOD], "delivered", variable=f"{OTLP}ENDPOINT")
    yield Case("a body in gzip", [GOOD], "delivered", coding="gzip")
    yield in_vain("a body in gzip, in vain", [reply("503 Any")] * 5)._replace(coding="gzip")
    for end, statuses in STATUSES:
        yield from (
            once(f"status {status:03}", reply(f"{status:03} Any"), end) for status in statuses
        )
    yield once("rejected spans", REPLY, "taken in part")
    yield Case("rejected spans, byte by byte", [REPLY], "taken in part", way="byte by byte")
    yield once(
        "rejected spans by another status", reply("299 Any", "Content-Length: 7\r\n", BODY),
        "taken in part",
    )
    yield once(
        "less than no span", reply("200 OK", "", bytes.fromhex("0a0b 08ffffffffffffffffff01")),
        "delivered",
    )
    yield once(
        "a message that isn't UTF-8", reply("200 OK", "", BODY[:-1] + b"\xff"), "delivered",
        REJECTED_TWO,
    )
    yield once(
        "rejected spans without a message", reply("200 OK", "", BODY[:1] + b"\2" + BODY[2:4]),
        "taken in part", REJECTED_TWO,
    )


def body_runs():
    """Replies whose bodies say why a batch is refused, are no messages, or have no length."""
    for fields, body, said in SAID:
        yield once(
            f"a refusal that says {body[:40]!r}", reply("400 Bad", fields, body), "refused",
            f"the collector answered 400{said}",
        )
        yield again(
            f"a busy collector that says {body[:40]!r}", busy(fields) + body,
            failure=f"the collector answered 503{said}",
        )
    yield once("a body that is no message", reply("200 OK", "", b"\xff" * 3), "delivered")
    yield once("a body that isn't whole", reply("200 OK", "", BODY[:-1]), "delivered")
    yield once(
        "a status without a body", reply("204 None", "Content-Length: 7\r\n", BODY), "delivered"
    )
    yield once(
        "a status that refuses, with a body", reply("400 Bad", "Content-Length: 7\r\n", BODY),
        "refused", SEVEN,
    )
    yield from (
        once(f"{fields[:80]!r}", reply("200 OK", fields, BODY), "taken in part")
        for fields in FRAMINGS
    )
    yield from (
        once(f"{fields!r}", reply("200 OK", fields, BODY), "delivered") for fields in NO_FRAMINGS
    )
    yield once("bytes after a body", REPLY + b"HTTP", "taken in part")


def head_runs():
    """Replies with heads of each form: those that are read, and those that aren't."""
    yield once(
        "lines that end by a line feed", b"\r\n\nHTTP/1.0 200\nContent-Length:7\n\n" + BODY,
        "taken in part",
    )
    yield once(
        "a head of 16,384 bytes", reply("200 OK", "A: " + "b" * 16_360 + "\r\n", BODY),
        "taken in part",
    )
    for line in (b"\n", b"\r\n"):
        yield once(
            f"as many empty lines {line!r} as go",
            line * ((16_384 - len(HEAD)) // len(line)) + REPLY, "taken in part",
        )
    yield once(
        "64 long fields", reply("200 OK", ("X-Name: " + "v" * 224 + "\r\n") * 64, BODY),
        "taken in part",
    )
    for count in (1, 16):
        yield once(f"{count} interim heads", INTERIM * count + REPLY, "taken in part")
    yield once(
        "16 interim heads, byte by byte", INTERIM * 16 + REPLY, "taken in part"
    )._replace(way="byte by byte")
    yield from (once(name, text, "with a bad reply") for name, text in NO_HEADS)
    yield from (once(name, text, "with a bad reply", LARGE_HEAD) for name, text in LARGE_HEADS)


def limited_chunks():
    """Chunks with a line, and with trailers, of so many bytes, and with so many trailers: those
    that are taken, and more."""
    for size, end in ((16_384, "taken in part"), (16_385, "delivered")):
        line = b"4;" + b"a" * (size - 4) + b"\r\n"
        yield once(f"a line of {size:,} bytes", coded(REJECTED.replace(b"4;a\r\n", line)), end)
        yield once(
            f"trailers of {size:,} bytes",
            coded(REJECTED[:-2] + b"A:" + b"b" * (size - 6) + b"\r\n\r\n"), end,
        )
    for count, end in ((64, "taken in part"), (65, "delivered")):
        yield once(f"{count} trailers", coded(REJECTED[:-2] + b"A: b\r\n" * count + b"\r\n"), end)


def chunk_runs():
    """Bodies in chunks."""
    for name, chunks in (("two chunks", REJECTED), ("chunks with all that is dropped", DRESSED)):
        for way in ("whole", "byte by byte"):
            yield Case(f"{name}, {way}", [coded(chunks)], "taken in part", way=way)
    for size in range(len(REJECTED)):
        yield once(f"the first {size} bytes of two chunks", coded(REJECTED[:size]), "delivered")
    yield once("no CR LF after a chunk", coded(NO_CHUNKS), "delivered")
    yield from limited_chunks()
    yield once("no chunk", coded(b"x\r\n"), "delivered")
    yield once(
        "a chunk above the limit", coded(b"10001\r\n" + b"b" * 65_537 + b"\r\n0\r\n\r\n"),
        "delivered",
    )
    yield once("no chunk, by a status that refuses", coded(NO_CHUNKS, "400 Bad"), "refused")
    for name, chunks in (
        ("two chunks", REJECTED), ("no CR LF after a chunk", NO_CHUNKS), ("no chunks", b"")
    ):
        said = SEVEN.replace("400", "503") if chunks == REJECTED else None
        yield again(f"{name}, by a busy collector", coded(chunks, "503 Busy"), failure=said)


def dripping_runs():
    """Servers from which a byte comes now and then, again and again, or none: an attempt ends after
    its time all the same, and the next one is answered."""
    ended = [(TIME / 1000, TIME / 1000 + MOST)]
    drips = [
        ("a server that is silent, for a short time", SILENCE, UNREAD),
        ("a head that drips", (b"", b"HTTP/1.1 200 " + b"O" * 10_000), UNREAD),
        ("fields that drip", (HEAD[:17], b"Any: any\r\n"), UNREAD),
        ("interim heads that drip", (INTERIM, INTERIM), UNREAD),
        (
            "a body that drips", (busy("Content-Length: 9999\r\n"), b"b"),
            "the collector answered 503",
        ),
        (
            "chunks that drip", (coded(b"", "503 Busy"), b"1\r\nb\r\n"),
            "the collector answered 503",
        ),
        (
            "a body without a length that drips", (busy(""), b"b"),
            "the collector answered 503",
        ),
    ]
    for name, text, failure in drips:
        yield Case(
            name, [text, GOOD], "delivered", ended, failure=failure,
            variable="OTEL_EXPORTER_OTLP_ENDPOINT", timeout=TIME, is_timed=True,
        )
    yield Case(
        "a server that is silent, for a short time of spans", [SILENCE, GOOD], "delivered", ended,
        failure=UNREAD, variable="OTEL_EXPORTER_OTLP_TRACES_ENDPOINT", timeout=TIME, is_timed=True,
    )
    yield Case(
        "a body of a delivery that drips",
        [(reply("200 OK", "Content-Length: 9999\r\n"), b"b")], "delivered",
        variable="OTEL_EXPORTER_OTLP_ENDPOINT", timeout=TIME,
    )


def later_runs():
    """Replies after which the same bytes are sent again, the longest waits first."""
    ended = [(SILENT_TIME / 1000, SILENT_TIME / 1000 + MOST)]
    yield Case(
        "a server that is silent", [SILENCE, GOOD], "delivered", ended, timeout=SILENT_TIME,
        is_timed=True,
    )
    yield Case(
        "a server that is silent in the midst of a head", [HEAD[:20], GOOD], "delivered", ended,
        "staying", failure=UNREAD, timeout=SILENT_TIME, is_timed=True,
    )
    yield again("a wait of seven seconds", busy("Retry-After: 7\r\n" + IN_VAIN), (7, MOST))
    for size in range(len(HEAD)):
        yield again(f"the first {size} bytes of a head", HEAD[:size])
    for size in range(len(BODY)):
        yield once(f"the first {size} bytes of a body", HEAD + BODY[:size], "delivered")
    yield again("a connection that breaks off", None)
    yield again("interim heads alone", INTERIM * 3)
    yield again("empty lines alone", b"\n" * 16_383)
    for status in LATER:
        yield again(f"status {status}", reply(f"{status} Any"))
        yield in_vain(f"status {status} five times", [reply(f"{status} Any")] * 5)


def mixed_runs():
    """Attempts without a whole reply, and replies of several kinds one after the other."""
    yield in_vain("no reply five times", [b"", None, INTERIM, HEAD[:20], b"HTTP/1.1 200"])
    yield in_vain("half a head five times", [HEAD[: len(HEAD) // 2]] * 5)
    for start, end in (("200 OK", "delivered"), ("400 Bad", "refused")):
        yield Case(
            f"a reply {start} that breaks off after its head",
            [reply(start, "Content-Length: 7\r\n")], end, way="breaking off",
        )
    yield in_vain(
        "a reply that breaks off after its head, five times", [busy("Content-Length: 7\r\n")] * 5
    )._replace(way="breaking off")
    yield Case(
        "half a head, and then a refusal", [HEAD[: len(HEAD) // 2], reply("413 Large")], "refused",
        [FIRST],
    )
    yield Case(
        "status 503, and then no head", [busy(""), b"hello\r\n"], "with a bad reply", [FIRST]
    )
    yield Case("status 503, and then 400", [busy(""), reply("400 Bad")], "refused", [FIRST])
    yield Case(
        "status 429 twice, and then rejected spans", [reply("429 Any")] * 2 + [REPLY],
        "taken in part", [FIRST, SECOND],
    )


def connection_runs():
    """Collectors that keep a connection, and collectors that close it: an attempt goes over the
    connection of the one before it where the reply was whole, and lets it (RFC 9112, section
    9.3)."""
    empty = "Content-Length: 0\r\n"
    kept = Case("a busy collector that keeps its connection", [], "delivered", [FIRST], "kept")
    for name, text, count in (
        ("", busy(empty), 1),
        (" after chunks", coded(REJECTED, "503 Busy"), 1),
        (" and says that it closes it", busy(empty + CLOSE), 2),
        (" by HTTP/1.0", busy(empty).replace(b"1.1", b"1.0"), 2),
        (" and says by HTTP/1.0 that it does", busy(empty + KEEP).replace(b"1.1", b"1.0"), 1),
        (" and sends more than its reply", busy(empty) + b"HTTP", 2),
    ):
        said = SEVEN.replace("400", "503") if "chunks" in name else "the collector answered 503"
        yield kept._replace(
            name=kept.name + name, replies=[text, GOOD], connections=count, failure=said
        )
    yield kept._replace(
        name="four busy replies over one connection", replies=[*[busy(empty)] * 4, GOOD],
        waits=ALL_WAITS, connections=1, failure="the collector answered 503",
    )
    yield again("a busy collector that closes its connection after a whole reply", busy(empty))


def wait_runs():
    """Replies that ask for a wait before the same bytes are sent again."""
    yield again("a wait of two seconds", busy("Retry-After: 2\r\n" + IN_VAIN), (2, MOST))
    yield again(
        "a wait of two seconds, spelled otherwise", reply("429 Any", "retry-AFTER:\t 002 \t\r\n"),
        (2, MOST),
    )
    yield again("a wait for a moment", in_seconds(2), (2, MOST))
    yield again(
        "a moment that has passed",
        busy("Retry-After: Sun, 06 Nov 1994 08:49:37 GMT\r\n" + IN_VAIN), ANY,
    )
    yield again("a wait of no second", busy("Retry-After: 0\r\n" + IN_VAIN), ANY)
    for value in ("soon", "", "-1", "+9", "1.5", "1, 2", "Sun, 06 Nov 1994"):
        yield again(
            f"a wait that is none, {value!r}", busy(f"Retry-After: {value}\r\n{IN_VAIN}")
        )
    yield again(
        "a wait in an interim head", INTERIM[:-2] + IN_VAIN.encode() + b"\r\n" + busy("")
    )
