"""The page of a trace in a browser that is driven: what its script finds and how fast, what it
folds and opens, what keys do, what its heading says, and how it looks."""
import json

from lib.devtools import Browser
from lib.harness import compared, tried
from lib.http import HOST
from lib.json_rows import JSON
from lib.view import Link, View

BEGAN = 1_790_000_000_000_000_000
# Spans of a trace, and the seconds within which a search in them ends, or else the time within
# which the same browser opens their page: so a slow machine isn't a fault.
SEARCHED = ((2_000, 1), (10_000, 5))
SHOWN = """
[...document.querySelectorAll('ol.rows > li')].filter((row) => row.getClientRects().length)
  .map((row) => [parseInt(row.id.slice(2), 16), row.classList.contains('above')])
"""
SEARCH = """
(async () => {
  const began = performance.now();
  const field = document.querySelector('input[type=search]');
  field.value = %s;
  field.dispatchEvent(new Event('input'));
  document.body.getClientRects();
  await new Promise((done) => requestAnimationFrame(() => setTimeout(done)));
  return (performance.now() - began) / 1000;
})()
"""
# A trace of spans with short and long names, one under the other, and which of them failed.
CHAIN, FAILED = 30, range(3, 31, 3)
NAMES = ["GET /cart", ", ".join(["a long name"] * 20), "GET"]
SERVICES = ["shop", "a service with a long name"]
SIZES = [(width, scheme) for width in (360, 800, 1_400) for scheme in ("light", "dark")]
DESCRIBED = """
[document.title, ...['h1', 'h1 small', 'header time', '.errors', '.legend'].map(
  (it) => document.querySelector(it).textContent), document.querySelector('time').title]
"""
LINKS = "[...document.querySelectorAll('header p a')].map((it) => it.getAttribute('href'))"
COLOURS = "[...document.querySelectorAll('.legend span')].map((it) => it.className)"
# What is cut of the label of an open row, and what its title says.
WHOLE = """
(() => {
  const label = document.querySelector('details[open] .label');
  const box = label.getBoundingClientRect();
  const cut = [...label.querySelectorAll('b, small')].filter((it) => {
    const part = it.getBoundingClientRect();
    return it.scrollWidth > it.clientWidth + 1 || part.right > box.right + 1
      || part.bottom > box.bottom + 1;
  });
  return [cut.map((it) => it.textContent), label.title];
})()
"""
# The rows of which less is seen of the name, the service or a remark than so many pixels; and by
# how much the page is wider than the window.
NARROW = """
[[...document.querySelectorAll('ol.rows > li')].flatMap((row) => {
  const end = row.querySelector('.label').getBoundingClientRect().right;
  const seen = (part) => Math.min(part.right, end) - part.left;
  return Object.entries({ b: 60, small: 30, em: 35 }).flatMap(([name, least]) => {
    const part = row.querySelector(`.label ${name}`)?.getBoundingClientRect();
    return part && seen(part) < least ? [`${name} of ${row.id}: ${seen(part)}`] : [];
  });
}), document.documentElement.scrollWidth - document.documentElement.clientWidth]
"""
# Texts that are seen with a contrast below 4.5 (Web Content Accessibility Guidelines 2.2, 1.4.3).
FAINT = """
(() => {
  const numbers = (colour) => colour.match(/[0-9.]+/g).map(Number);
  const bright = (colour) => numbers(colour).slice(0, 3).map((it) => it / 255)
    .map((it) => (it <= 0.04045 ? it / 12.92 : ((it + 0.055) / 1.055) ** 2.4))
    .reduce((sum, it, at) => sum + it * [0.2126, 0.7152, 0.0722][at], 0);
  const backOf = (element) => {
    const back = getComputedStyle(element).backgroundColor;
    return numbers(back)[3] === 0 ? backOf(element.parentElement) : back;
  };
  const contrast = (element, colour) => {
    const [more, less] = [bright(colour), bright(backOf(element))].sort((a, b) => b - a);
    return (more + 0.05) / (less + 0.05);
  };
  const texts = [...document.querySelectorAll('body *')].filter((it) => it.matches('button')
    || [...it.childNodes].some((part) => part.nodeType === 3 && part.data.trim()));
  const field = document.querySelector('input');
  return [...texts.map((it) => [it, getComputedStyle(it).color]),
    [field, getComputedStyle(field, '::placeholder').color]]
    .map(([it, colour]) => [`${it.tagName} ${it.className}`, contrast(it, colour)])
    .filter(([, found]) => found < 4.5);
})()
"""
FOCUS = "parseInt(document.activeElement.closest('li.row')?.id.slice(2) ?? '0', 16)"
COPY = "document.querySelector('%s .copy').click(), getSelection().toString()"
OPENED = "performance.getEntriesByType('navigation')[0].duration / 1000"


def span_of(trace, at, parent, name="work", code=0):
    """A span of a trace."""
    start = BEGAN + at * 1_000_000
    return {
        "traceId": f"{trace:032x}", "spanId": f"{at:016x}", "kind": 2, "name": name,
        "parentSpanId": f"{parent:016x}" if parent else "", "status": {"code": code},
        "startTimeUnixNano": str(start), "endTimeUnixNano": str(start + 5_000_000),
        "attributes": [{"key": "cart.id", "value": {"intValue": str(at)}}] + [
            {"key": f"key.{it}", "value": {"stringValue": f"value {it}"}} for it in range(7)
        ],
    }


def post_spans(view, service, spans):
    """Posts spans of a service. Answers the address of the page of their trace."""
    about = {"attributes": [{"key": "service.name", "value": {"stringValue": service}}]}
    group = {"resource": about, "scopeSpans": [{"spans": spans}]}
    Link(view.port).ask("POST", "/v1/traces", JSON, json.dumps({"resourceSpans": [group]}).encode())
    return f"http://{HOST}:{view.port}/trace/{spans[0]['traceId']}"


def post_trace(view, size):
    """Posts a trace of so many spans, each of which is under the one with half of its number."""
    return post_spans(view, "shop", [span_of(size, at, at // 2) for at in range(1, size + 1)])


def post_chain(view):
    """Posts a trace of spans that are one under the other, of two services by turns."""
    for part, service in ((1, SERVICES[0]), (0, SERVICES[1])):
        address = post_spans(view, service, [
            span_of(CHAIN, at, at - 1, NAMES[at % len(NAMES)], 2 if at in FAILED else 0)
            for at in range(1, CHAIN + 1) if at % 2 == part
        ])
    return address


def above(at):
    """The spans above this one."""
    return [*above(at // 2), at // 2] if at > 1 else []


def shown_in(page):
    """The spans whose rows are shown, and those of them that are shown for what is under them."""
    rows = page.value(SHOWN)
    return [at for at, is_above in rows if not is_above], [at for at, is_above in rows if is_above]


def found_rows(page, address):
    """What a search finds, and the rows above that."""
    page.open(address)
    for text, found in (
        ("cart.id=1711", [1711]), ("cart.id: 1711", [1711]), ("cart.id 1711", [1711]),
        (" Cart.ID = 1711 ", [1711]), ("cart.id=1711 key.0", [1711]), ("cart.id=2001", []),
        ("cart.id1711", []),
    ):
        page.value(SEARCH % json.dumps(text))
        wanted = found, above(found[0]) if found else []
        yield f"a search for {text!r}", shown_in(page), wanted
        count = page.value("document.querySelector('output').textContent")
        yield f"the count of {text!r}", count, f"{len(found)} of 2000 spans"


def press(page, name):
    """Presses a button of the page."""
    page.value(f"[...document.querySelectorAll('button')].find((it) => it.textContent === '{name}')"
               ".click()")


def open_in(page):
    """How many rows are open."""
    return page.value("document.querySelectorAll('details[open]').length")


def fold_rows(page, address):
    """What is shown of a long trace when it comes, and after each button; and identifiers that are
    copied."""
    page.open(address)
    yield "a long trace comes folded", shown_in(page), ([1, 2, 4, 5, 3, 6, 7], [])
    press(page, "Open all")
    yield "open all", open_in(page), 7
    wanted = address[-32:], f"{1:016x}"
    copied = page.value(COPY % "header"), page.value(COPY % ".panel")
    yield "identifiers that are copied", copied, wanted
    press(page, "Show all")
    yield "show all", len(shown_in(page)[0]), 2_000
    press(page, "Close all")
    yield "close all", open_in(page), 0
    press(page, "Fold all")
    yield "fold all", shown_in(page), ([1], [])
    page.open(f"{address}#s-{1711:016x}")
    wanted = set(above(1711)) | {1711}
    yield "a row that the address names", wanted - set(shown_in(page)[0]), set()


def key_rows(page, address):
    """What each key does."""
    page.open(address)
    found = []
    for key in "jjjkk":
        page.press(key)
        found.append(page.value(FOCUS))
    yield "the keys j and k", found, [1, 2, 4, 2, 1]
    page.press("Enter", "\r")
    yield "the key enter", open_in(page), 1
    line = "[...document.querySelectorAll('header p')].at(-1).getClientRects().length > 0"
    found = [page.value(line)]
    page.press("?")
    yield "the key ?", [*found, page.value(line)], [False, True]
    for key in ("/", *"cart.id=1711"):
        page.press(key)
    yield "the key / and what is typed then", shown_in(page), ([1711], above(1711))
    page.press("Enter", "\r")
    yield "enter in the search", page.value(FOCUS), 1


def heading_rows(page, address):
    """What is said above the rows of a trace, and of a row that is open."""
    page.open(address)
    found = page.value(DESCRIBED)
    wanted = [NAMES[1], f"{NAMES[1]} {SERVICES[0]}", SERVICES[0], "".join(SERVICES)]
    yield "the title and the heading", [found[0], found[1], found[2], found[5]], wanted
    yield "when it began", (found[6], "2026" in found[3]), ("2026-09-21T14:13:20.001000000Z", True)
    names = " ".join(NAMES[it % len(NAMES)] for it in FAILED[:8])
    yield "the errors", found[4], f"{len(FAILED)} errors: {names} Show these alone"
    links = [f"/trace/{CHAIN:032x}.txt", f"/api/trace/{CHAIN:032x}"]
    yield "links", page.value(LINKS), [*links, *(f"#s-{it:016x}" for it in FAILED[:8])]
    yield "the colours of services", page.value(COLOURS), ["c0", "c1"]
    press(page, "Show these alone")
    yield "errors alone", shown_in(page)[0], [*FAILED]
    page.value("document.querySelectorAll('summary')[3].click()")
    yield "the open row", page.value(WHOLE), [[], f"{NAMES[1]}, {SERVICES[1]}"]


def list_rows(page, address):
    """Which numbers of errors the list of traces marks, and on which side of a cell they are."""
    page.open(address.partition("/trace/")[0])
    marked = "[...document.querySelectorAll('td.errors')].map((it) => it.textContent)"
    yield "errors in the list", page.value(marked), [str(len(FAILED))]
    side = "getComputedStyle(document.querySelector('td.errors')).textAlign"
    yield "where numbers are", page.value(side), "right"


def look_rows(page, address):
    """What can't be read, at each width and in both themes."""
    for width, scheme in SIZES:
        page.resize(width, scheme=scheme)
        page.open(address)
        yield f"what is narrow at {width}, {scheme}", page.value(NARROW), [[], 0]
        page.value("document.querySelector('summary').click()")
        page.value(SEARCH % "'status=error'")
        yield f"what is faint at {width}, {scheme}", page.value(FAINT), []


def time_row(page, address, size, seconds):
    """How long the first search takes, in which the texts of all spans are read."""

    def faults():
        page.open(address)
        most = max(seconds, page.value(OPENED))
        found = page.value(SEARCH % "'cart.id=1711'")
        return [] if found <= most else [f"{found:.1f} s, more than {most:.1f}"]

    return tried(f"a search in {size} spans", faults)


def page_rows(program, browser):
    """All rows of the page of a trace."""
    with View(program) as view, Browser(browser) as page:
        addresses = {size: post_trace(view, size) for size, _ in SEARCHED}
        page.resize(1_400)
        for some in (found_rows, fold_rows, key_rows):
            yield from compared(some(page, addresses[2_000]))
        chain = post_chain(view)
        for some in (heading_rows, list_rows, look_rows):
            yield from compared(some(page, chain))
        yield "what the console says", [str(it) for it in page.told()]
        for size, seconds in SEARCHED:
            yield time_row(page, addresses[size], size, seconds)
