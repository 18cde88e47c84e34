"""The pages of trace-view in a browser, where one is there."""
import re
import shutil
import subprocess
import tempfile

from lib.harness import TOOL
from lib.http import HOST
from lib.origins import browser_origin_rows
from lib.trace_page import page_rows
from lib.view import PATH, TRACE, Link, View, tree_body

BROWSING = 300  # seconds after which a browser is given up
BROWSERS = ("chromium", "chromium-browser", "google-chrome")
NAMES = ["GET /cart", "<script>alert(1)</script>", "\"'&<>", "\u202eabc\u202c", "x" * 65_536]


def browser():
    """The path of a browser, if one is there."""
    return next((path for path in map(shutil.which, BROWSERS) if path), None)


def dom_of(path, address):
    """What a browser makes of a page, as text, and what it reports. A page without anything in it
    is text too: the text is empty where the browser itself doesn't run."""
    with tempfile.TemporaryDirectory() as folder:
        words = [path, "--headless", "--no-sandbox", "--disable-gpu", "--enable-logging=stderr",
                 "--dump-dom", f"--user-data-dir={folder}", "--virtual-time-budget=5000", address]
        try:
            done = subprocess.run(words, capture_output=True, timeout=BROWSING, check=False)
        except subprocess.TimeoutExpired:
            return "", ""
    return done.stdout.decode("utf-8", "replace"), done.stderr.decode("utf-8", "replace")


def browser_rows(program):
    """The list and a waterfall in a browser: each span has a row, and no name is markup."""
    path = browser()
    if not (path and dom_of(path, "data:text/html,page")[0]):
        print(f"{TOOL}: no browser is there that runs, so no page is opened in one")
        return
    if "CONSOLE" not in dom_of(path, "data:text/html,<script>fault()</script>")[1]:
        print(f"{TOOL}: the browser doesn't say what its console says, so that isn't compared")
    size = 50
    with View(program) as view:
        Link(view.port).post(tree_body(TRACE, size, NAMES))
        page, told = dom_of(path, f"http://{HOST}:{view.port}{PATH}")
        rows = len(set(re.findall(r'\bid="s-([0-9a-f]{16})"', page)))
        faults = [] if rows == size else [f"{rows} rows for {size} spans"]
        # (the value of an attribute is no markup)
        faults += ["a name is markup"] if re.search('(?<!")<script>alert', page) else []
        faults += [f"the console says {told!r}"] if "CONSOLE" in told else []
        folds = page.count('aria-expanded="true"')
        faults += [] if folds == size // 2 else [f"{folds} marks fold the spans under a span"]
        faults += [] if 'type="search"' in page else ["no field searches the spans"]
        yield "a waterfall in a browser", faults
        page, told = dom_of(path, f"http://{HOST}:{view.port}/")
        faults = [] if f"{TRACE:032x}" in page else ["the trace isn't listed"]
        faults += [f"the console says {told!r}"] if "CONSOLE" in told else []
        yield "the list in a browser", faults
    yield from browser_origin_rows(program, lambda address: dom_of(path, address))
    yield from page_rows(program, path)
