"""A browser that is driven over a pipe (Chrome DevTools Protocol, "remote-debugging-pipe")."""
import base64
import json
import os
import select
import subprocess
import sys
import tempfile

from lib.harness import Wrong

PATIENCE = 300  # seconds after which an answer is given up: the machine may be slow
# Has the ends of two pipes as the descriptors 3 and 4, and then becomes the browser.
START = (
    "import fcntl, os, sys; "
    "ends = [fcntl.fcntl(int(it), fcntl.F_DUPFD, 10) for it in sys.argv[1:3]]; "
    "[os.dup2(end, at) for at, end in enumerate(ends, 3)]; "
    "os.execv(sys.argv[3], sys.argv[3:])"
)
KEY_CODES = {"Enter": 13}  # of keys whose name isn't what they write
WORDS = ["--headless", "--no-sandbox", "--disable-gpu", "--remote-debugging-pipe"]


class Browser:
    """A run of a browser with one page. What the page's console says is kept."""

    def __init__(self, path):
        self.folder = tempfile.TemporaryDirectory(ignore_cleanup_errors=True)
        commands, self.commands = os.pipe()
        self.answers, answers = os.pipe()
        words = [sys.executable, "-c", START, str(commands), str(answers), path, *WORDS]
        self.process = subprocess.Popen(
            [*words, f"--user-data-dir={self.folder.name}"], pass_fds=(commands, answers),
            stdin=subprocess.DEVNULL, stdout=subprocess.DEVNULL, stderr=subprocess.DEVNULL,
        )
        os.close(commands)
        os.close(answers)
        self.asked, self.rest, self.session, self.events = 0, b"", {}, []

    def __enter__(self):
        try:
            self.attach()
        except BaseException:
            self.__exit__()
            raise
        return self

    def attach(self):
        """Makes the page, and has it say what it does."""
        page = self.ask("Target.createTarget", url="about:blank")["targetId"]
        found = self.ask("Target.attachToTarget", targetId=page, flatten=True)
        self.session = {"sessionId": found["sessionId"]}
        for domain in ("Page", "Runtime", "Log"):
            self.ask(f"{domain}.enable")

    def __exit__(self, *_):
        self.process.kill()
        self.process.wait()
        os.close(self.commands)
        os.close(self.answers)
        self.folder.cleanup()

    def message(self):
        """The next message of the browser."""
        while b"\0" not in self.rest:
            if not select.select([self.answers], [], [], PATIENCE)[0]:
                raise Wrong("the browser doesn't answer")
            part = os.read(self.answers, 1 << 20)
            if not part:
                raise Wrong("the browser ended")
            self.rest += part
        text, _, self.rest = self.rest.partition(b"\0")
        return json.loads(text)

    def ask(self, method, **params):
        """What a command is answered."""
        self.asked += 1
        command = {"id": self.asked, "method": method, "params": params, **self.session}
        os.write(self.commands, json.dumps(command).encode() + b"\0")
        while True:
            found = self.message()
            if found.get("id") == self.asked:
                if "error" in found:
                    raise Wrong(f"{method}: {found['error']}")
                return found["result"]
            self.events.append(found)

    def open(self, address):
        """Opens a page, after an empty one, so that it is read anew, and waits until it is read."""
        for it in ("about:blank", address):
            self.events = []
            self.ask("Page.navigate", url=it)
            while not any(event["method"] == "Page.loadEventFired" for event in self.events):
                self.events.append(self.message())

    def value(self, script):
        """The value of an expression in the page, or what it comes to where that is a promise."""
        found = self.ask(
            "Runtime.evaluate", expression=script, returnByValue=True, awaitPromise=True
        )
        if "exceptionDetails" in found:
            raise Wrong(f"{script[:100]}: {found['exceptionDetails']}"[:600])
        return found["result"].get("value")

    def told(self):
        """What the console said since the page was opened."""
        names = ("Runtime.consoleAPICalled", "Runtime.exceptionThrown", "Log.entryAdded")
        return [it["params"] for it in self.events if it["method"] in names]

    def resize(self, width, height=900, scheme="light"):
        """Gives the page this size, and the light or the dark theme."""
        self.ask(
            "Emulation.setDeviceMetricsOverride", width=width, height=height, deviceScaleFactor=1,
            mobile=False,
        )
        features = [{"name": "prefers-color-scheme", "value": scheme}]
        self.ask("Emulation.setEmulatedMedia", features=features)

    def press(self, key, text=""):
        """Presses a key, which may write a text, and lets it go."""
        names = {"key": key, "windowsVirtualKeyCode": KEY_CODES.get(key, 0)}
        self.ask("Input.dispatchKeyEvent", type="keyDown", text=text or key, **names)
        self.ask("Input.dispatchKeyEvent", type="keyUp", **names)

    def picture(self):
        """The page as a picture, as the bytes of a PNG file."""
        return base64.b64decode(self.ask("Page.captureScreenshot", format="png")["data"])
