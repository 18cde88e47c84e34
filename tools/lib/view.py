"""Runs of trace-view, links to it, and bodies with spans."""
import json
import os
import resource
import socket
import subprocess
import threading

from lib.harness import Wrong, limited
from lib.http import HOST, TYPE
from lib.processes import first_line, memory_of, stat_of
from lib.wire import fixed64, number, piece

PATIENCE = 300  # seconds after which a link gives up: the machine may be slow
# What connections have where no row asks for less, so that none ends since the machine is slow.
LONG = {"--idle-seconds": "3600", "--request-seconds": "3600"}
LISTENING = rb"listening on http://127\.0\.0\.1:(\d+)\n"
TRACE = 0x0AF7651916CD43DD8448EB211C80319C
PATH = f"/trace/{TRACE:032x}"


class View:
    """A run of the program, at a port that was free. Connections have an hour, unless the words say
    otherwise."""

    def __init__(self, program, *words, limit=None):
        words = [*words, *(it for pair in LONG.items() if pair[0] not in words for it in pair)]
        words = limited([program, "--port", "0", *words], limit)
        pipes = {"stdout": subprocess.PIPE, "stderr": subprocess.PIPE}
        self.process = subprocess.Popen(words, **pipes)
        self.reported = b""
        self.port = int(first_line(self.process, LISTENING)[1])
        self.listener = threading.Thread(target=self.listen, daemon=True)
        self.listener.start()

    def __enter__(self):
        return self

    def __exit__(self, *_):
        self.process.kill()
        self.listener.join()
        self.process.communicate()

    def listen(self):
        """Keeps what it says on standard error."""
        for part in iter(lambda: self.process.stderr.read1(4096), b""):
            self.reported += part

    def peak(self):
        """The most kB of memory that it had so far (Linux)."""
        return memory_of(self.process.pid, "VmHWM")

    def seconds(self):
        """The processor seconds that it took so far (Linux)."""
        return stat_of(self.process.pid).seconds

    def resident(self):
        """The kB of memory that it has (Linux)."""
        return memory_of(self.process.pid, "VmRSS")

    def leave(self, room=None):
        """Leaves it so many bytes of memory above what it has, or as many as it wants (Linux)."""
        _, limit = resource.prlimit(self.process.pid, resource.RLIMIT_AS)
        hard = limit
        if room is not None:
            limit = memory_of(self.process.pid, "VmSize") * 1024 + room
        resource.prlimit(self.process.pid, resource.RLIMIT_AS, (limit, hard))

    def descriptors(self):
        """How many descriptors it has (Linux)."""
        return len(os.listdir(f"/proc/{self.process.pid}/fd"))

    def stats(self):
        """What it counts."""
        return json.loads(Link(self.port).ask("GET", "/api/stats")[2])


class Link:
    """A connection that is used again and again, to a host that may be called otherwise."""

    def __init__(self, port, host=None):
        self.link = socket.create_connection((HOST, port), timeout=PATIENCE)
        self.link.setsockopt(socket.IPPROTO_TCP, socket.TCP_NODELAY, 1)
        self.rest, self.host = b"", f"{HOST}:{port}" if host is None else host

    def send(self, method, path, fields="", body=b""):
        """Sends a request."""
        size = f"Content-Length: {len(body)}\r\n" if body or method == "POST" else ""
        head = f"{method} {path} HTTP/1.1\r\nHost: {self.host}\r\n{fields}{size}\r\n"
        self.link.sendall(head.encode() + body)

    def reply(self, method="GET"):
        """The status of a reply, its fields and its body."""
        while b"\r\n\r\n" not in self.rest:
            self.more()
        head, _, self.rest = self.rest.partition(b"\r\n\r\n")
        start, *lines = head.decode("latin-1").split("\r\n")
        fields = {k.lower(): v.strip() for k, v in (line.split(":", 1) for line in lines)}
        if method == "HEAD":
            body = b""
        elif fields.get("transfer-encoding") == "chunked":
            body = b"".join(self.chunks())
        else:
            body = self.take(int(fields.get("content-length", 0)))
        return int(start.split(" ")[1]), fields, body

    def take(self, size):
        """The next bytes, so many."""
        while len(self.rest) < size:
            self.more()
        found, self.rest = self.rest[:size], self.rest[size:]
        return found

    def line(self):
        """The next line, without its end."""
        while b"\r\n" not in self.rest:
            self.more()
        found, _, self.rest = self.rest.partition(b"\r\n")
        return found

    def chunks(self):
        """The chunks of a body, up to the last one."""
        while True:
            size = int(self.line(), 16)
            yield self.take(size)
            if self.line():
                raise Wrong("a chunk has no end")
            if not size:
                return

    def more(self):
        """Reads some bytes."""
        part = self.link.recv(65536)
        if not part:
            raise OSError("the connection ended in a reply")
        self.rest += part

    def ask(self, method, path, fields="", body=b""):
        """What a request is answered."""
        self.send(method, path, fields, body)
        return self.reply(method)

    def post(self, body):
        """The status that a post of spans is answered."""
        return self.ask("POST", "/v1/traces", TYPE, body)[0]


def span(trace, at, parent=0, name="work", start=1_790_000_000_000_000_000):
    """The fields of a span (opentelemetry-proto)."""
    fields = piece(1, trace.to_bytes(16, "big")) + piece(2, at.to_bytes(8, "big"))
    fields += piece(4, parent.to_bytes(8, "big")) if parent else b""
    fields += piece(5, name.encode()) + number(6, 2)
    return fields + fixed64(7, start + at * 1000) + fixed64(8, start + at * 1000 + 500_000)


def body_of(spans, service="shop"):
    """A request with these spans, of a service whose name may be of many bytes."""
    value = piece(2, piece(1, service.encode()))
    about = piece(1, piece(1, b"service.name") + value)
    scope = piece(2, piece(1, piece(1, b"view-runs")) + b"".join(piece(2, it) for it in spans))
    return piece(1, piece(1, about) + scope)


def tree_body(trace, size, names=("work",)):
    """A request with a trace of so many spans: each has a parent before it, but the first."""
    return body_of([
        span(trace, at, parent=at // 2, name=names[at % len(names)]) for at in range(1, size + 1)
    ])


def is_accounted(stats):
    """Whether each span that was received is kept or was evicted."""
    return stats["received"] == stats["kept"] + stats["evicted"]
