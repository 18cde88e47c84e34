"""A run of otlp-collector."""
import os
import re
import stat
import subprocess
import tempfile
import time

from lib.harness import Wrong, limited
from lib.http import PATIENCE


class Collector:
    """A run of the program with these words, under a limit if one is given. Unless outputs are
    given, what it prints goes to a file, and what it reports to a pipe."""

    def __init__(self, words, limit=None, output=None, faults=None):
        self.output = open(output, "wb") if output else tempfile.TemporaryFile()
        with open(faults or os.devnull, "wb") as device:
            how = {"stdin": subprocess.DEVNULL, "stdout": self.output}
            how["stderr"] = device if faults else subprocess.PIPE
            self.process = subprocess.Popen(limited(words, limit), **how)

    def __enter__(self):
        return self

    def __exit__(self, *_):
        self.process.kill()
        self.process.communicate()
        self.output.close()

    def printed(self):
        """What it has printed so far; nothing of a device. (It writes at a place that both have,
        which a read here may not move.)"""
        found = os.fstat(self.output.fileno())
        is_file = stat.S_ISREG(found.st_mode)
        return os.pread(self.output.fileno(), found.st_size, 0) if is_file else b""

    def wait_for(self, pattern):
        """What a pattern finds in what is printed."""
        until, has_ended, found = time.monotonic() + PATIENCE, False, None
        while not (found or has_ended or time.monotonic() > until):
            has_ended = self.process.poll() is not None
            found = re.search(pattern, self.printed())
            time.sleep(0.002)
        if not found:
            raise Wrong(f"no {pattern!r} in {self.printed()[:200]!r}, status {self.process.poll()}")
        return found

    def port(self):
        """The port that its first line gives."""
        return int(self.wait_for(rb"\Alistening ([1-9]\d*)\n")[1])

    def end(self):
        """Its status once it has ended, and what it printed and reported."""
        try:
            _, reported = self.process.communicate(timeout=PATIENCE)
        except subprocess.TimeoutExpired:
            raise Wrong("no end") from None
        return self.process.returncode, self.printed(), reported or b""


def blocks_of(printed):
    """The first line that a collector prints, and the lines of each connection."""
    first, *blocks = re.split(rb"(?m)^(?=connection )", printed)
    return first, blocks
