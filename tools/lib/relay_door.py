"""What a relay takes at its door: who may ask, what is refused and how that is said, and its stop."""
import contextlib
import json
import os
import pathlib
import socket
import tempfile
import time

from lib.harness import Wrong
from lib.http import HOST, TYPE
from lib.relay import Far, Relay, post_of
from lib.view import Link, body_of, span
from lib.wire import parts_of, piece

JSON = "Content-Type: application/json\r\n"
LOOKS = 20  # looks at a program that has to go on, each after a tenth of a second


def compare(name, found, wanted):
    """A row."""
    text = "" if found == wanted else f"{found!r}"[:400] + " instead of " + f"{wanted!r}"[:400]
    return name, [text] if text else []


def texts_of(messages, field):
    """What the fields with this number hold, where it is bytes: others are unknown, and skipped."""
    return [it for it in parts_of(messages, field) if isinstance(it, bytes)]


def has_ids(body):
    """Whether each span of a request has a trace id of 16 bytes and a span id of 8. Of a field that
    comes again the last one counts."""
    spans = texts_of(texts_of(texts_of([body], 1), 2), 2)
    ids = [[(texts_of([it], field) or [b""])[-1] for field in (1, 2)] for it in spans]
    return all((len(trace), len(own)) == (16, 8) for trace, own in ids)


def raw_of(port, data):
    """What bytes are answered, up to the end."""
    with socket.create_connection((HOST, port), timeout=60) as link:
        link.sendall(data)
        parts = []
        with contextlib.suppress(ConnectionError):
            while part := link.recv(65536):
                parts.append(part)
        return b"".join(parts)


def status_of(answer):
    """The status of an answer, as bytes."""
    return answer.split(b" ", 2)[1:2]


def ids_of(trace, at):
    """A request of two spans, of which the second has identifiers of these lengths."""
    return body_of([span(1, 1), piece(1, b"t" * trace) + piece(2, b"s" * at)])


def text_of(trace, at):
    """The same in OTLP's JSON."""
    second = {"traceId": "ab" * trace, "spanId": "cd" * at}
    spans = [{"traceId": "ab" * 16, "spanId": "cd" * 8}, second]
    return json.dumps({"resourceSpans": [{"scopeSpans": [{"spans": spans}]}]}).encode()


def health_rows(program):
    """Whoever asks is answered whether it is well, and nothing else."""
    with Far() as far, Relay(program, far.port) as relay:
        other = Link(relay.port, host="10.1.2.3:4318")
        yield compare("health under another host", other.ask("GET", "/healthz")[0], 200)
        yield compare("a page under another host", other.ask("GET", "/metrics")[0], 403)
        plain = raw_of(relay.port, b"GET /healthz HTTP/1.0\r\n\r\n")
        yield compare("health without a host", (status_of(plain), plain[-3:]), ([b"200"], b"ok\n"))
        plain = raw_of(relay.port, b"GET /metrics HTTP/1.0\r\n\r\n")
        yield compare("a page without a host", status_of(plain), [b"403"])


def signal_rows(program):
    """What isn't taken is answered with what to set, and said once for each path."""
    with Far() as far, Relay(program, far.port) as relay:
        link = Link(relay.port)
        for signal in ("METRICS", "LOGS"):
            path, setting = f"/v1/{signal.lower()}", f"OTEL_{signal}_EXPORTER=none"
            message = f"only traces are taken here: set {setting}"
            in_wire = piece(2, message.encode())
            for kind, wanted in ((TYPE, in_wire), (JSON, json.dumps(
                    {"message": message}, separators=(",", ":")).encode())):
                status, fields, body = link.ask("POST", path, kind, b"")
                found = (status, fields["content-type"] in kind, body)
                yield compare(f"{path}: {kind[14:].strip()}", found, (404, True, wanted))
            relay.wait_for_report(f"refused a post to {path} ({message})".encode())
            yield compare(f"{path}: once", relay.reported.count(f"to {path} ".encode()), 1)
        found = raw_of(relay.port, b"PRI * HTTP/2.0\r\n\r\nSM\r\n\r\n")
        setting = b"gRPC isn't taken: set OTEL_EXPORTER_OTLP_PROTOCOL=http/protobuf"
        yield compare("an HTTP/2 preface", (status_of(found), setting in found), ([b"505"], True))
        relay.wait_for_report(b"answered 505 (" + setting)


def id_rows(program):
    """A body with an identifier of another length is refused at once, and nothing of it is kept."""
    with Far() as far, Relay(program, far.port) as relay:
        link = Link(relay.port)
        for trace, at in ((15, 8), (17, 8), (0, 8), (16, 7), (16, 9), (16, 0), (32, 16)):
            for kind, body in ((TYPE, ids_of(trace, at)), (JSON, text_of(trace, at))):
                status, _, said = link.ask("POST", "/v1/traces", kind, body)
                name = f"identifiers of {trace} and {at} bytes, {kind[14:].strip()}"
                yield compare(name, (status, b"trace id hasn't 16 bytes" in said), (400, True))
        for kind, body in ((TYPE, ids_of(16, 8)), (JSON, text_of(16, 8))):
            status = link.ask("POST", "/v1/traces", kind, body)[0]
            yield compare(f"identifiers of 16 and 8 bytes, {kind[14:].strip()}", status, 200)
        relay.wait_for_empty()
        yield compare("only these came", relay.stats()["spans"]["received"], 4)


def alone_rows(program):
    """A post that could not be read even alone is 413, whatever is pending; a smaller one is 200."""
    with Far() as far, Relay(program, far.port, "--pending-mb", 1) as relay:
        many, few = post_of(1, 1_500), post_of(2, 500)
        for turn in range(3):
            yield compare(f"too many spans, {turn}", relay.post(many), 413)
        yield compare("a length above all that may be pending", relay.post(bytes(600_000)), 413)
        yield compare("fewer spans", relay.post(few), 200)
        relay.wait_for_empty()
        yield compare("what came", b"".join(far.taken()), few)


def stopped_through(program, port, pipe):
    """Starts it with a pipe that stays, has it go on for a while, and stops it by a byte: whether it
    went on, and its status."""
    with open(pipe, "r+b", buffering=0) as shared:
        with Relay(program, port, stdin=shared) as relay:
            goes_on = True
            for _ in range(LOOKS):
                time.sleep(0.1)
                goes_on = goes_on and relay.process.poll() is None
            status = relay.post(post_of(1)) if goes_on else None
            shared.write(b"\n")
            return goes_on, status, relay.process.wait(60)


def pipe_rows(program):
    """A program that is started again with the pipe by which it was stopped goes on, until it is
    stopped by a further byte."""
    with Far() as far, tempfile.TemporaryDirectory() as folder:
        pipe = pathlib.Path(folder) / "stop"
        os.mkfifo(pipe)
        with open(pipe, "r+b", buffering=0):
            for turn in range(3):
                found = stopped_through(program, far.port, pipe)
                yield compare(f"start {turn} with one pipe", found, (True, 200, 0))


def door_rows(program):
    """All of these."""
    for part in (health_rows, signal_rows, id_rows, alone_rows, pipe_rows):
        try:
            yield from part(program)
        except (OSError, Wrong, ValueError, LookupError) as error:
            yield part.__name__, [f"{type(error).__name__}: {error}"]
