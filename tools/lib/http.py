"""HTTP/1.1 as bytes (RFC 9112, sections 3 to 7): requests, replies, and the ends of connections
that bring them."""
import contextlib
import itertools
import re
import socket
import struct
import threading
import time

HOST = "127.0.0.1"
PATIENCE = 300  # seconds after which an end of a connection gives up: the machine may be slow
DRIP = 0.05  # seconds from one byte that drips to the next
POST = "POST /v1/traces"
TYPE = "Content-Type: application/x-protobuf\r\n"
CLOSE = "Connection: close\r\n"
KEEP = "Connection: keep-alive\r\n"
ANSWERS = {
    200: ("200 OK", ""),
    400: ("400 Bad Request", ""),
    404: ("404 Not Found", ""),
    405: ("405 Method Not Allowed", "Allow: POST\r\n"),
    413: ("413 Content Too Large", ""),
    415: ("415 Unsupported Media Type", ""),
    431: ("431 Request Header Fields Too Large", ""),
}
SILENCE = object()  # no reply, on a connection that stays open until the other end closes it


def framed(fields, body, start=POST, more=TYPE):
    """A request with these fields alone, and what follows its head."""
    return f"{start} HTTP/1.1\r\n{more}{fields}\r\n".encode() + body


def request(body, start=POST, fields=TYPE):
    """A request with these fields, and a body with its length."""
    return framed(f"Content-Length: {len(body)}\r\n", body, start, fields)


def reply(start, fields="", body=b""):
    """A reply with this status and reason, these fields, and what follows them."""
    return f"HTTP/1.1 {start}\r\n{fields}\r\n".encode() + body


def answer_of(status):
    """The whole reply of otlp-collector with this status, or none (docs/FORMATS.md)."""
    if status is None:
        return b""
    start, more = ANSWERS[status]
    return reply(start, f"{TYPE}Content-Length: 0\r\n{CLOSE}{more}")


def connection_to(port):
    """A connection, each write to which goes out at once."""
    link = socket.create_connection((HOST, port), timeout=PATIENCE)
    link.setsockopt(socket.IPPROTO_TCP, socket.TCP_NODELAY, 1)
    return link


def to_the_end(link):
    """What comes until the connection ends."""
    return b"".join(iter(lambda: link.recv(65536), b""))


def whole(link, text):
    """Sends a text in one piece, and answers what comes until the connection ends."""
    link.sendall(text)
    return to_the_end(link)


def break_off(link):
    """Has a connection end by a reset once it is closed (SO_LINGER of no seconds)."""
    link.setsockopt(socket.SOL_SOCKET, socket.SO_LINGER, struct.pack("ii", 1, 0))


def drip(link, text):
    """Sends a byte each DRIP seconds, again and again from the first one, until the other end
    closes."""
    with contextlib.suppress(OSError):
        for byte in itertools.cycle(text):
            link.sendall(bytes([byte]))
            time.sleep(DRIP)


def request_from(link):
    """The bytes of a request, up to the length that its head gives."""
    text, size = b"", None
    while size is None or len(text) < size:
        part = link.recv(65536)
        if not part:
            break
        text += part
        if size is None and b"\r\n\r\n" in text:
            head = text.partition(b"\r\n\r\n")[0]
            found = re.search(rb"(?i)\r\ncontent-length: *(\d+)", head)
            size = len(head) + 4 + int(found[1] if found else 0)
    return text


class Server:
    """Takes connections one after another, and answers each request by the next of the replies, and
    later ones by none. A connection has one request, unless it is "kept".

    A reply is bytes, a pair of bytes, a function that makes them, `SILENCE`, or None: the
    connection breaks off. The second bytes of a pair drip after the first ones, until the other end
    closes the connection. By the way, other replies go out "whole", "byte by byte", and then either
    the connection ends, or it is "breaking off", or "staying" until the other end closes it, or
    "kept" for further requests until then.
    """

    def __init__(self, replies, way, host=HOST):
        family = socket.AF_INET6 if ":" in host else socket.AF_INET
        self.listener = socket.create_server((host, 0), family=family)
        self.port = self.listener.getsockname()[1]
        self.replies, self.way = replies, way
        self.requests, self.moments, self.connections = [], [], 0
        self.thread = threading.Thread(target=self.serve, daemon=True)
        self.thread.start()

    def serve(self):
        """Takes connections until the listener is closed."""
        while True:
            try:
                link, _ = self.listener.accept()
            except OSError:
                return
            came = time.monotonic()
            self.connections += 1
            with link:
                link.settimeout(PATIENCE)
                link.setsockopt(socket.IPPROTO_TCP, socket.TCP_NODELAY, 1)
                while self.take(link, came):
                    came = time.monotonic()

    def take(self, link, came):
        """Reads a request and answers it. Whether another one follows on the connection."""
        try:
            self.requests.append(request_from(link))
        except OSError as error:
            self.requests.append(repr(error).encode())
        self.moments.append((came, time.monotonic()))
        # (What the other end doesn't read of a reply breaks the connection off.)
        with contextlib.suppress(OSError):
            self.answer(link, len(self.requests))
            return self.way == "kept" and bool(link.recv(1, socket.MSG_PEEK))
        return False

    def answer(self, link, turn):
        """Sends the reply with this number, and waits until the other end closes."""
        text = self.replies[turn - 1] if turn <= len(self.replies) else b""
        text = text() if callable(text) else text
        if text is None:
            break_off(link)
            return
        if text is SILENCE:
            link.recv(65536)
            return
        if isinstance(text, tuple):
            front, text = text
            link.sendall(front)
            drip(link, text)
            return
        for part in [bytes([byte]) for byte in text] if self.way == "byte by byte" else [text]:
            link.sendall(part)
        if self.way == "breaking off":
            break_off(link)
            return
        if self.way == "kept":
            return
        if self.way != "staying":
            link.shutdown(socket.SHUT_WR)
        to_the_end(link)

    def close(self):
        """Ends it, even while it waits for another connection."""
        self.listener.shutdown(socket.SHUT_RDWR)
        self.listener.close()
        self.thread.join(PATIENCE)

    def waits(self):
        """The seconds from each request to the next connection, or to the next request of a kept
        one."""
        return [after[0] - before[1] for before, after in zip(self.moments, self.moments[1:])]
