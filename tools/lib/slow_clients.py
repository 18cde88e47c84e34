"""Clients of trace-view that read, send or end otherwise than others, and when they are ended."""
import itertools
import select
import socket
import time

from lib.http import TYPE
from lib.view import PATH, TRACE, Link, tree_body

SLOW_SPANS, SLOW_LIMIT, SLOW_SECONDS, SLOW_RATE = 12_000, 8, 20, 250_000
IDLE_SECONDS, REQUEST_SECONDS = 6, 9
# Seconds around the moment at which a client is ended: less than the default of 30, where the words
# above say nothing, and more than a slow machine adds.
EARLY, LATE, LATEST = 0.02, 16, 26
SOME_TIME = 120  # seconds after which what is waited for doesn't come


def read_slowly(view):
    """What goes wrong where a reader goes on reading, for longer than one that stops has. (It reads
    what is due by then, so that a slow machine doesn't make it slower.)"""
    link, count = Link(view.port), 0
    link.link.setsockopt(socket.SOL_SOCKET, socket.SO_RCVBUF, 65536)
    link.send("GET", PATH)
    begun = time.monotonic()
    while time.monotonic() - begun < SLOW_SECONDS:
        due = int((time.monotonic() - begun) * SLOW_RATE) - count
        if due <= 0:
            time.sleep(0.05)
            continue
        part = link.link.recv(due)
        if not part:
            yield f"it ends after {count} bytes, in {time.monotonic() - begun:.1f} s"
            return
        count += len(part)


def spread(link, text, seconds):
    """Sends a text in so many seconds: of it what is due by then, so that a slow machine doesn't
    make it slower."""
    begun, sent = time.monotonic(), 0
    while sent < len(text):
        due = int((time.monotonic() - begun) / seconds * len(text)) + 1
        link.link.sendall(text[sent:due])
        sent = min(due, len(text))
        time.sleep(0.01)


def post_to(host):
    """The bytes of a post."""
    body = tree_body(TRACE, 3)
    head = f"POST /v1/traces HTTP/1.1\r\nHost: {host}\r\n{TYPE}"
    return f"{head}Content-Length: {len(body)}\r\n\r\n".encode() + body


def seconds_until(is_so, most):
    """The seconds until something is so, or None after the most of them."""
    begun = time.monotonic()
    while time.monotonic() - begun < most:
        if is_so():
            return time.monotonic() - begun
        time.sleep(0.01)
    return None


def end_of(link, begun, most):
    """The seconds from a moment until a connection is ended, or None where it isn't in time."""
    try:
        while time.monotonic() - begun < most:
            link.link.settimeout(max(begun + most - time.monotonic(), 0.01))
            if not link.link.recv(65536):
                break
    except TimeoutError:
        return None
    except OSError:
        pass  # (it was broken off)
    return time.monotonic() - begun


def settle(view):
    """Waits until the program works no more, but not for ever."""
    before, until = None, time.monotonic() + SOME_TIME
    while before != (before := view.seconds()) and time.monotonic() < until:
        time.sleep(1)


def dripped(link, begun, text, wait, most):
    """Sends a text again and again, a byte at a time. The seconds from a moment until that can't be
    done any more, or None."""
    link.link.settimeout(wait)
    for byte in itertools.cycle(text):
        if time.monotonic() - begun > most:
            return None
        try:
            link.link.sendall(bytes([byte]))
            if not link.link.recv(65536):
                break
        except TimeoutError:
            pass
        except OSError:
            break
    return time.monotonic() - begun


def silent(port):
    """When a client is ended that says nothing."""
    begun = time.monotonic()
    return end_of(Link(port), begun, LATEST)


def stopped(port):
    """When one is ended that stops within a request, which it began after a while."""
    link = Link(port)
    time.sleep(IDLE_SECONDS / 2)
    begun = time.monotonic()
    link.link.sendall(b"GET / HT")
    return end_of(link, begun, LATEST)


def dripping(port):
    """When one is ended whose request goes on and on."""
    link, begun = Link(port), time.monotonic()
    link.link.sendall(b"GET / HTTP/1.1\r\nX: ")
    return dripped(link, begun, b"x", 0.1, LATEST)


def answered_again(port):
    """When one is ended that asked several times, each time before its time was over: from when it
    asked last."""
    link = Link(port)
    for _ in range(3):
        time.sleep(IDLE_SECONDS * 0.7)
        begun = time.monotonic()
        link.ask("GET", "/healthz")
    return end_of(link, begun, LATEST)


def dripped_twice(port):
    """How one is answered whose requests drip one after another, each in its time, but not both
    together."""
    link, found = Link(port), []
    for _ in range(2):
        text = f"GET /healthz HTTP/1.1\r\nHost: {link.host}\r\n\r\n".encode()
        spread(link, text, REQUEST_SECONDS * 0.6)
        found.append(link.reply()[0])
    return found


def pipelined(port):
    """How one is answered whose requests come slowly, the head of the second one together with the
    end of the first one: each in its time, but not both together."""
    link = Link(port)
    post = post_to(link.host)
    head = post.index(b"\r\n\r\n") + 4
    spread(link, post[:-1], REQUEST_SECONDS * 0.6)
    link.link.sendall(post[-1:] + post[:head])
    found = [link.reply()[0]]
    spread(link, post[head:], REQUEST_SECONDS * 0.6)
    return [*found, link.reply()[0]]


def refused(port):
    """When writing to one is shut down that was refused, and doesn't send the rest."""
    link, begun = Link(port), time.monotonic()
    link.send("POST", "/v1/traces", TYPE + f"Content-Length: {1 << 30}\r\nX: ", b"x")
    return end_of(link, begun, LATEST)


def ended_of(links):
    """Which of these connections were ended."""
    found = []
    for at, it in enumerate(links):
        try:
            it.link.setblocking(False)
            if not it.link.recv(1, socket.MSG_PEEK):
                found.append(at)
        except BlockingIOError:
            pass
        except OSError:
            found.append(at)
    return found


def is_answered(port):
    """Whether a new client is answered before its patience ends."""
    link = Link(port)
    link.link.settimeout(SOME_TIME)
    try:
        return link.ask("GET", "/healthz")[0] == 200
    except OSError:
        return False


def answered_in(links):
    """How many of these connections have an answer."""
    return sum(bool(select.select([it.link], [], [], 0)[0]) for it in links)
