"""Requests to trace-view from pages of other origins, by hand and in a browser."""
import contextlib
import http.server
import json
import threading

from lib.harness import run
from lib.http import HOST, TYPE
from lib.json_texts import TEXT
from lib.view import TRACE, Link, View, tree_body

SHOP, LOCAL = "https://shop.example", "http://localhost:8080"
ALLOWED = ["--allow-origin", SHOP, "--allow-origin", LOCAL]
NAMES = "content-type,x-key"
ASKED = f"Access-Control-Request-Method: POST\r\nAccess-Control-Request-Headers: {NAMES}\r\n"
CORS = "access-control-"
# What every answer to a page that may post has, and what it has besides where the page asks first.
MAY_READ = {f"{CORS}allow-credentials": "true", "vary": "origin"}
MAY_POST = {
    f"{CORS}allow-methods": "POST", f"{CORS}max-age": "600",
    f"{CORS}allow-headers": NAMES,
}
BAD_ORIGINS = (
    "*", "null", "shop.example", "https://", "https://shop.example/", "https://shop.example/path",
    "ftp://shop.example", "https://a@shop.example", "https://shop example",
)
# A page that posts a text of JSON, and says what came of it.
PAGE = """<p id="said">waiting</p><script>
fetch("http://{host}:{port}/v1/traces", {{method: "POST",
  headers: {{"content-type": "application/json"}}, body: {body}}})
.then(it => {{ document.getElementById("said").textContent = "status " + it.status }},
  () => {{ document.getElementById("said").textContent = "refused" }});
</script>"""


def cors_of(fields):
    """The fields of an answer that are for pages of other origins."""
    return {name: text for name, text in fields.items() if name.startswith(CORS) or name == "vary"}


def origin(text):
    """The field of a request from a page of this origin."""
    return f"Origin: {text}\r\n"


def answers():
    """Requests, each with the status and the fields for pages of other origins that it is answered
    where two origins are allowed."""
    body = tree_body(TRACE, 3)
    for text in (SHOP, LOCAL):
        allowed = {f"{CORS}allow-origin": text, **MAY_READ}
        yield f"a post from {text}", ("POST", "/v1/traces", TYPE + origin(text), body), 200, allowed
        asks = ("OPTIONS", "/v1/traces", origin(text) + ASKED, b"")
        yield f"{text} asks first", asks, 204, {**allowed, **MAY_POST}
    allowed = {f"{CORS}allow-origin": SHOP, **MAY_READ}
    bad = ("POST", "/v1/traces", TYPE + origin(SHOP), b"\x0a")
    yield "a bad body from an allowed origin", bad, 400, allowed
    for text in ("https://other.example", "http://shop.example", f"{SHOP}:8443", "null"):
        fields = origin(text)
        yield f"a post from {text}", ("POST", "/v1/traces", TYPE + fields, body), 200, {}
        yield f"{text} asks first", ("OPTIONS", "/v1/traces", fields + ASKED, b""), 204, {}
    twice = ("POST", "/v1/traces", TYPE + origin(SHOP) + origin(SHOP), body)
    yield "two origins in one request", twice, 200, {}
    yield "no origin", ("POST", "/v1/traces", TYPE, body), 200, {}
    for path in ("/", "/api/traces", f"/api/trace/{TRACE:032x}", "/metrics", "/healthz"):
        yield f"{path} from an allowed origin", ("GET", path, origin(SHOP), b""), 200, {}
    other = ("OPTIONS", "/", origin(SHOP) + ASKED, b"")
    yield "a page is asked for its methods", other, 405, {}


def origin_rows(program):
    """What pages of allowed origins are answered, and of others; none where no origin is allowed;
    and what is no origin."""
    with View(program, *ALLOWED) as view:
        for name, asked, status, wanted in answers():
            found, fields, _ = Link(view.port).ask(*asked)
            is_right = (found, cors_of(fields)) == (status, wanted)
            yield name, [] if is_right else [f"{found}, {fields}"]
    with View(program) as view:
        asked = ("POST", "/v1/traces", TYPE + origin(SHOP), tree_body(TRACE, 3))
        found, fields, _ = Link(view.port).ask(*asked)
        is_right = (found, cors_of(fields)) == (200, {})
        yield "no origin is allowed", [] if is_right else [f"{found}, {fields}"]
    for text in BAD_ORIGINS:
        status, printed, reported = run([program, "--allow-origin", text])
        is_right = (status, printed) == (2, b"")
        is_right = is_right and f"'{text}' isn't an origin".encode() in reported
        yield f"--allow-origin {text}", [] if is_right else [f"{status}, {reported!r}"]


@contextlib.contextmanager
def page_at(text):
    """The port at which a page is, on an origin of its own."""

    class Page(http.server.BaseHTTPRequestHandler):
        """Answers each request by the page."""

        def do_GET(self):
            """Answers the page."""
            data = text().encode()
            self.send_response(200)
            self.send_header("Content-Type", "text/html")
            self.send_header("Content-Length", str(len(data)))
            self.end_headers()
            self.wfile.write(data)

        def log_message(self, *_):
            """Says nothing."""

    with http.server.ThreadingHTTPServer((HOST, 0), Page) as server:
        threading.Thread(target=server.serve_forever, daemon=True).start()
        try:
            yield server.server_port
        finally:
            server.shutdown()


def browser_origin_rows(program, dom_of):
    """A page in a browser posts from another origin, which is allowed or not."""
    body, ports = json.dumps(TEXT.decode()), []
    with page_at(lambda: PAGE.format(host=HOST, port=ports[0], body=body)) as own:
        for name, words, wanted, traces in (
            ("a page of an allowed origin posts", ["--allow-origin", f"http://{HOST}:{own}"],
             "status 200", 1),
            ("a page of another origin can't", [], "refused", 0),
        ):
            with View(program, *words) as view:
                ports[:] = [view.port]
                page, _ = dom_of(f"http://{HOST}:{own}/")
                found = view.stats()["traces"]
                is_right = f">{wanted}<" in page and found == traces
                yield name, [] if is_right else [f"{page!r}, {found} traces"]
