"""Runs of otlp-relay, its clients, and a collector far from it that keeps what it is sent."""
import collections
import contextlib
import itertools
import json
import re
import signal
import socket
import subprocess
import threading
import time

from lib.harness import Wrong, limited
from lib.http import HOST, SILENCE, TYPE, break_off, reply, request_from, to_the_end
from lib.processes import first_line, memory_of
from lib.view import LISTENING, Link, body_of, span
from lib.wire import parts_of

PATIENCE = 120  # seconds in which something comes that has to come: the machine may be slow
SOON = 40  # the same of what comes at once, but for a machine that is slow
LOOK = 0.01  # seconds between two looks
CLIENTS = 8  # clients that post at once
BALANCE = re.compile(
    r"bodies received (\d+), delivered (\d+), lost (\d+), left (\d+); "
    r"spans received (\d+), delivered (\d+), rejected \d+, lost (\d+), left (\d+)\n"
)
OTLP = "Content-Type: application/x-protobuf\r\n"

# A request that a collector was sent: its head and its body, when it had come, the connection that
# it came over, and how it was answered: a status, or None.
Sent = collections.namedtuple("Sent", "head body moment connection status")


def answer(status=200, fields="", body=b"", kind=OTLP):
    """A reply with this status, on a connection that is kept."""
    return reply(f"{status} Any", f"{kind}Content-Length: {len(body)}\r\n{fields}", body)


def wait_until(is_so, what, patience=PATIENCE):
    """Waits until this is so."""
    until = time.monotonic() + patience
    while not is_so():
        if time.monotonic() > until:
            raise Wrong(f"in {patience} s it isn't so that {what}")
        time.sleep(LOOK)


class Far:
    """A collector. A function makes the reply to a request of its number, from 0 on, and its body:
    bytes, `SILENCE`, or None, where the connection breaks off. By default each one is 200. While
    its gate is closed it says nothing; who doesn't wait until it is opened gets no answer."""

    def __init__(self, reply_to=None, port=0):
        self.reply_to = reply_to or (lambda turn, body: answer())
        self.listener = socket.create_server((HOST, port), backlog=64)
        self.port = self.listener.getsockname()[1]
        self.sent, self.connections, self.turns = [], 0, 0
        self.lock, self.gate = threading.Lock(), threading.Event()
        self.gate.set()
        self.links = set()
        self.thread = threading.Thread(target=self.serve, daemon=True)
        self.thread.start()

    def __enter__(self):
        return self

    def __exit__(self, *_):
        self.close()

    def close(self):
        """Ends it with its connections: then nothing listens at its port."""
        self.gate.set()
        with contextlib.suppress(OSError):
            self.listener.shutdown(socket.SHUT_RDWR)
        self.listener.close()
        self.thread.join(PATIENCE)
        with self.lock:
            links = [*self.links]
        for link in links:
            with contextlib.suppress(OSError):
                link.shutdown(socket.SHUT_RDWR)

    def serve(self):
        """Takes connections until the listener is closed."""
        while True:
            try:
                link, _ = self.listener.accept()
            except OSError:
                return
            with self.lock:
                self.connections += 1
                number = self.connections
                self.links.add(link)
            threading.Thread(target=self.take_all, args=[link, number], daemon=True).start()

    def take_all(self, link, number):
        """Answers the requests of a connection."""
        with link, contextlib.suppress(OSError):
            link.setsockopt(socket.IPPROTO_TCP, socket.TCP_NODELAY, 1)
            while self.take(link, number):
                pass
        with self.lock:
            self.links.discard(link)

    def take(self, link, number):
        """Answers a request. Whether another one may follow."""
        head, _, body = request_from(link).partition(b"\r\n\r\n")
        if not head:
            return False
        moment = time.monotonic()
        with self.lock:
            turn, self.turns = self.turns, self.turns + 1
        self.gate.wait()
        if has_gone(link):
            return False
        text = self.reply_to(turn, body)
        found = re.match(rb"HTTP/1.1 (\d+) ", text) if isinstance(text, bytes) else None
        # (it is noted before it is sent, so that who has the answer finds it)
        with self.lock:
            status = int(found[1]) if found else None
            self.sent.append(Sent(head, body, moment, number, status))
        if text is None:
            break_off(link)
            return False
        if text is SILENCE:
            to_the_end(link)
            return False
        link.sendall(text)
        return found is not None and b"\r\n\r\n" in text and b"onnection: close" not in text

    def all_sent(self):
        """What it was sent so far, in the order of the answers."""
        with self.lock:
            return [*self.sent]

    def taken(self):
        """The bodies that it answered 200."""
        return [it.body for it in self.all_sent() if it.status == 200]

    def names(self):
        """The spans of these, by their names."""
        return [name for body in self.taken() for name in names_in(body)]


def has_gone(link):
    """Whether the other end of a connection has closed it, and so has no use for an answer."""
    with contextlib.suppress(BlockingIOError):
        return not link.recv(1, socket.MSG_PEEK | socket.MSG_DONTWAIT)
    return False


def names_in(body):
    """The spans of a request, each by its trace id and its own, in order (opentelemetry-proto)."""
    spans = parts_of(parts_of(parts_of([body], 1), 2), 2)
    return [(parts_of([it], 1)[0].hex(), parts_of([it], 2)[0].hex()) for it in spans]


def post_of(number, spans=3, service="shop"):
    """A body with so many spans, of a trace with this number."""
    return body_of([span(number, at, parent=at // 2) for at in range(1, spans + 1)], service)


class Relay:
    """A run of the program with these words, which hands on to a port, and listens at one that was
    free. It is stopped through its standard input. Its standard error is read from the start, unless
    something else is said, and else from `read` or its end on."""

    def __init__(self, program, to, *words, limit=None, stdin=subprocess.PIPE, path="", is_read=True):
        words = [program, "--port", "0", "--to", f"http://{HOST}:{to}{path}", *map(str, words)]
        pipes = {"stdin": stdin, "stdout": subprocess.PIPE, "stderr": subprocess.PIPE}
        self.process = subprocess.Popen(limited(words, limit), **pipes)
        self.reported = b""
        self.listener = threading.Thread(target=self.listen, daemon=True)
        self.is_read = False
        if is_read:
            self.read()
        self.port = int(first_line(self.process, LISTENING)[1])

    def __enter__(self):
        return self

    def __exit__(self, *_):
        self.kill()
        self.process.stdout.close()
        self.process.stderr.close()
        if self.process.stdin:
            with contextlib.suppress(OSError):
                self.process.stdin.close()

    def read(self):
        """Begins to read its standard error, unless that has begun."""
        if not self.is_read:
            self.is_read = True
            self.listener.start()

    def listen(self):
        """Keeps what it says on standard error."""
        with contextlib.suppress(ValueError):
            for part in iter(lambda: self.process.stderr.read1(4096), b""):
                self.reported += part

    def kill(self):
        """Ends it at once (kill -9)."""
        self.process.send_signal(signal.SIGKILL)
        self.process.wait()
        self.read()
        self.listener.join(PATIENCE)

    def begin_stop(self, text=b""):
        """Has it stop: by the end of its standard input, or by some bytes."""
        if text:
            self.process.stdin.write(text)
            self.process.stdin.flush()
        else:
            self.process.stdin.close()

    def end(self):
        """Its status once it has ended, and its balance: the bodies that were received, delivered,
        lost and left, and the spans."""
        status = self.process.wait(PATIENCE)
        self.read()
        self.listener.join(PATIENCE)
        printed = self.process.stdout.read().decode()
        found = BALANCE.fullmatch(printed)
        if not found:
            raise Wrong(f"{printed!r} is no balance, status {status}, {self.reported[-300:]!r}")
        return status, tuple(map(int, found.groups()))

    def stop(self, text=b""):
        """Stops it."""
        self.begin_stop(text)
        return self.end()

    def resident(self):
        """The kB of memory that it has (Linux)."""
        return memory_of(self.process.pid, "VmRSS")

    def ask(self, method, path, fields="", body=b""):
        """What a request is answered, over a connection of its own."""
        return Link(self.port).ask(method, path, fields, body)

    def post(self, body):
        """The status that a post is answered, over a connection of its own."""
        return Link(self.port).post(body)

    def stats(self):
        """What it counts."""
        return json.loads(self.ask("GET", "/api/stats")[2])

    def lost(self):
        """The spans that it names as lost, the last one first."""
        return json.loads(self.ask("GET", "/api/lost")[2])["lost"]

    def wait_for_empty(self):
        """Waits until nothing is kept any more."""
        wait_until(lambda: self.stats()["bodies"]["kept"] == 0, "nothing is kept")

    def wait_for_report(self, text):
        """Waits until it reports a text."""
        wait_until(lambda: text in self.reported, f"{text!r} is reported")


class Clients:
    """Clients that post bodies of their own until they are stopped, to the port that is there."""

    def __init__(self):
        self.port, self.is_over = None, False
        self.posted, self.taken, self.faults = [], [], []
        self.numbers = itertools.count(1)
        self.lock = threading.Lock()
        self.threads = [threading.Thread(target=self.post_all) for _ in range(CLIENTS)]
        for it in self.threads:
            it.start()

    def post_all(self):
        """Posts one body after another. A connection that ends is made anew."""
        link = port = None
        while not self.is_over:
            if self.port is None:
                time.sleep(0.002)
                continue
            body = self.next_body()
            try:
                if link is None or port != self.port:
                    port = self.port
                    link = Link(port)
                status = link.post(body)
            except (OSError, ValueError, LookupError, TypeError):
                link = None
                time.sleep(0.002)
                continue
            with self.lock:
                if status == 200:
                    self.taken.append(body)
                elif status != 503:
                    self.faults.append(f"a post is answered {status}")

    def next_body(self):
        """A body that was never posted."""
        with self.lock:
            at = next(self.numbers)
            body = post_of(at, 1 + at % 4)
            self.posted.append(body)
        return body

    def stop(self):
        """Ends them."""
        self.is_over = True
        for it in self.threads:
            it.join()


def post_until(link, made, most=10_000):
    """Posts bodies of a function by their numbers until one isn't taken: those that are, that one,
    and how it is answered."""
    taken = []
    for at in range(1, most):
        body = made(at)
        status, fields, _ = link.ask("POST", "/v1/traces", TYPE, body)
        if status != 200:
            return taken, body, (status, fields.get("retry-after"))
        taken.append(body)
    raise Wrong(f"{most} posts are taken")


def can_connect(port):
    """Whether something listens at a port."""
    with socket.socket() as link:
        return link.connect_ex((HOST, port)) == 0


def spans_of(bodies):
    """The spans of bodies, by their names."""
    return {name for body in bodies for name in names_in(body)}


def is_soon(is_so, patience=SOON):
    """Whether something is so in time."""
    until = time.monotonic() + patience
    while time.monotonic() < until:
        if is_so():
            return True
        time.sleep(0.02)
    return is_so()


def missing_of(far, bodies, patience=SOON):
    """How many spans of these bodies don't come to a collector in time."""
    wanted = spans_of(bodies)
    is_soon(lambda: wanted <= set(far.names()), patience)
    return len(wanted - set(far.names()))


def status_in(link, body, patience=SOON):
    """The status of a post that is tried again for some seconds while it is answered 503."""
    until = time.monotonic() + patience
    while (status := link.post(body)) == 503 and time.monotonic() < until:
        time.sleep(0.05)
    return status


def statuses_of(link, bodies, patience=SOON):
    """The statuses of posts, up to the first one that isn't 200."""
    found = []
    for body in bodies:
        found.append(status_in(link, body, patience))
        if found[-1] != 200:
            break
    return found
