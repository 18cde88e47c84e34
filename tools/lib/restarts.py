"""A run of otlp-relay over a spool that is shown: the collector is stopped while services post, the
relay is killed and started again, and the collector comes back."""
import contextlib
import json
import os
import pathlib
import shutil
import signal
import socket
import subprocess
import tempfile
import time

from lib.harness import FAULTS, said_of
from lib.http import HOST
from lib.processes import descendants, listener_of
from lib.relay import CLIENTS, Clients, Far, spans_of, wait_until
from lib.tries import Background
from lib.view import Link

BUILDING = 900  # seconds after which a build is given up
WHILE = 1  # seconds for which services post between two steps


def free_port():
    """A port that was free."""
    with socket.create_server((HOST, 0)) as taken:
        return taken.getsockname()[1]


def stats_of(port):
    """What the relay at a port counts, or nothing where none answers."""
    with contextlib.suppress(OSError, ValueError):
        return json.loads(Link(port).ask("GET", "/api/stats")[2])
    return None


class Restarts:
    """The relay, as the toolchain builds it without its proofs, with its folder. It is started
    before it is shown, so that it is built meanwhile."""

    def __init__(self):
        self.folder = tempfile.TemporaryDirectory()
        self.port, self.far_port = free_port(), free_port()
        to = f"http://{HOST}:{self.far_port}"
        self.words = ["--port", str(self.port), "--to", to, "--spool", f"{self.folder.name}/spool"]
        self.built = Background("otlp_relay", self.words, ["--seconds", "3600"])
        self.command, self.again = [], None

    def __enter__(self):
        return self

    def __exit__(self, *error):
        if self.again:
            self.again.kill()
            self.again.communicate()
        self.built.__exit__(*error)
        self.folder.cleanup()

    def wait_until_built(self):
        """Waits until it listens. Answers whether it does."""
        until = time.monotonic() + BUILDING
        while time.monotonic() < until and self.built.process.poll() is None:
            if stats_of(self.port):
                return True
            time.sleep(0.2)
        return False

    def kill(self):
        """Ends it at once, after its program is copied: the toolchain removes its own."""
        pid = listener_of(self.port)
        if pid not in descendants(self.built.process.pid):
            raise OSError("another program answers at its port")
        words = pathlib.Path(f"/proc/{pid}/cmdline").read_text(encoding="utf-8").split("\0")
        *loader, program = words[: -len(self.words) - 1]
        copy = shutil.copy(program, f"{self.folder.name}/otlp-relay")
        self.command = [*loader, copy, *self.words]
        os.kill(pid, signal.SIGKILL)
        wait_until(lambda: listener_of(self.port) is None, "it has ended")

    def start_again(self):
        """Starts the copy with the same words."""
        pipes = {"stdin": subprocess.DEVNULL, "stdout": subprocess.DEVNULL}
        self.again = subprocess.Popen(self.command, **pipes)
        wait_until(lambda: stats_of(self.port), "it listens again")


def steps(relay, clients):
    """Prints what is done and what is seen, step by step. Answers whether all spans came."""
    with Far(port=relay.far_port) as far:
        clients.port = relay.port
        time.sleep(WHILE)
        print(f"{CLIENTS} services post; the collector has {len(far.names())} spans", flush=True)
    came = set(far.names())
    time.sleep(WHILE)
    kept = (stats_of(relay.port) or {}).get("spans", {}).get("kept")
    print(f"the collector is stopped; the relay keeps {kept} spans", flush=True)
    relay.kill()
    # (nobody connects meanwhile: who connects to a free port from that very port takes it)
    clients.port = None
    print("the relay is killed", flush=True)
    relay.start_again()
    clients.port = relay.port
    time.sleep(WHILE)
    clients.stop()
    print("the relay is started again, and the services post on until they end", flush=True)
    with Far(port=relay.far_port) as far:
        wait_until(lambda: stats_of(relay.port)["bodies"]["kept"] == 0, "nothing is kept")
        came |= set(far.names())
    wanted = spans_of(clients.taken)
    print(
        f"the collector is back: of {len(wanted)} spans whose posts were answered 200 it has "
        f"{len(wanted & came)}", flush=True,
    )
    return wanted <= came and not clients.faults and came <= spans_of(clients.posted)


def show(relay):
    """Shows it. Answers whether all went well."""
    if not relay.wait_until_built():
        relay.built.show()
        return False
    clients = Clients()
    try:
        return steps(relay, clients)
    except FAULTS as error:
        print(said_of(error), flush=True)
        return False
    finally:
        clients.stop()
