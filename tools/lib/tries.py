"""Programs and tests that run before their proofs (`rt try`)."""
import os
import re
import shutil
import signal
import subprocess
import sys
import tempfile

from lib.harness import TOOL, TOP

# What the toolchain says of a run that goes well.
OWN = re.compile(
    r"checked: ended status=0$|races: not looked for|(case=.* )?run=ended status=0 "
    r"|cases=.* fault=0 differs=0 no-answer=0 "
)


PATIENCE = 60  # seconds in which a run ends that is asked to: the machine may be slow


def is_ours(line):
    """Whether a line of a run is not what the toolchain says of one that goes well."""
    return not OWN.match(line)


class Try:
    """A run of a crate's program with these words, or of what the toolchain's options ask for. What
    it prints and what it reports come together."""

    def __init__(self, crate, words=(), options=(), output=subprocess.PIPE):
        command = ["rt", "try", *options, *(["--", *words] if words else [])]
        how = {"stdin": subprocess.DEVNULL, "stdout": output, "stderr": subprocess.STDOUT}
        folder = TOP / "crates" / crate
        if not shutil.which("rt"):
            sys.exit(f"{TOOL}: no rt is on the path; put the folder of Rattle's rt into PATH")
        if not folder.is_dir():
            sys.exit(f"{TOOL}: there is no crates/{crate}")
        self.process = subprocess.Popen(
            command, cwd=folder, text=True, start_new_session=True, **how
        )

    def __enter__(self):
        return self

    def __exit__(self, *_):
        if self.process.poll() is None:
            # The toolchain ends the program, which has a group of its own, if it is asked to end.
            os.killpg(self.process.pid, signal.SIGTERM)
            try:
                self.process.communicate(timeout=PATIENCE)
            except subprocess.TimeoutExpired:
                os.killpg(self.process.pid, signal.SIGKILL)
        self.process.communicate()

    def lines(self):
        """Its lines, as they come."""
        return filter(is_ours, self.process.stdout)

    def ends_well(self):
        """Whether it ends without a fault."""
        return self.process.wait() == 0


def show(crate, words=(), options=()):
    """Runs a program, and prints its lines as they come. Answers whether it ends well."""
    with Try(crate, words, options) as ran:
        for line in ran.lines():
            print(line, end="", flush=True)
        return ran.ends_well()


def faults_of(crate, words=(), options=(), status=0):
    """The end of what a run prints, if the program doesn't end with this status. The toolchain ends
    with a status at faults of its own too, so it has to say that this one is the program's."""
    with Try(crate, words, options) as ran:
        text = "".join(ran.lines())
        has_ended = ran.process.wait() == status
        is_programs = not status or f"\nrun=ended status={status} " in f"\n{text}"
        return [] if has_ended and is_programs else [text[-2000:]]


class Background(Try):
    """A run beside others, whose lines are printed when that is asked for."""

    def __init__(self, crate, words=(), options=()):
        self.printed = tempfile.TemporaryFile("w+")
        super().__init__(crate, words, options, self.printed)

    def __exit__(self, *error):
        super().__exit__(*error)
        self.printed.close()

    def show(self):
        """Prints its lines so far."""
        self.printed.seek(0)
        print(*filter(is_ours, self.printed), sep="", end="", flush=True)
