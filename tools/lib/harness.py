"""The frame of a tool: the program that it runs, the rows that it compares, and its last line."""
import concurrent.futures
import os
import pathlib
import subprocess
import sys

from lib.crates import is_new, uses_of

TOP = pathlib.Path(__file__).resolve().parents[2]
TOOL = pathlib.Path(sys.argv[0]).name
PATIENCE = 1_200  # seconds after which a run is given up: the machine may be slow
TRIES = 5  # how often at most a row is tried that a slow moment of the machine can spoil
MOST_SHOWN = 40  # rows whose faults are printed
LANES = 24  # runs side by side, most of which wait
FULL = "/dev/full"
# Sets a limit of its own, and then becomes the program that the next words name. To write past a
# limit is an error there, no signal.
LIMITED = (
    "import os, resource, signal, sys; "
    "signal.signal(signal.SIGXFSZ, signal.SIG_IGN); "
    "limit = getattr(resource, sys.argv[1]); "
    "resource.setrlimit(limit, (int(sys.argv[2]), resource.getrlimit(limit)[1])); "
    "os.execv(sys.argv[3], sys.argv[3:])"
)


class Wrong(Exception):
    """What is not as it should be, where no two values show it."""


# What may come out of a row where the program does something else than it should: a connection that
# ends, a reply that can't be read.
FAULTS = (Wrong, OSError, ValueError, LookupError, subprocess.SubprocessError)


def said_of(error):
    """What is said of one of these."""
    return f"{type(error).__name__}: {error}"


def program_of(words, crate, arguments=""):
    """The path of a built program: the first word, or the crate's own. If it is not there, the tool
    ends, and says how to build it. It says so, too, if the crate's own is older than its
    sources."""
    own = TOP / "crates" / crate / "out" / crate
    path = os.path.abspath(words[0] if words else own)
    if not os.access(path, os.X_OK):
        command = f"cd crates/{crate} && rt run{arguments and ' -- '}{arguments}"
        sys.exit(f"{TOOL}: {path} is not built; build it (rt run proves it first) by: {command}")
    if not words and not is_new(TOP, own, crate, uses_of(TOP)):
        print(f"{TOOL}: {path} is older than its sources", file=sys.stderr, flush=True)
    return path


def built(crate):
    """The path of another program that the gate leaves built, if it is there."""
    path = TOP / "crates" / crate / "out" / crate
    return str(path) if os.access(path, os.X_OK) else None


def limited(words, limit):
    """The words that start a program under a limit, such as ("RLIMIT_FSIZE", 9), if one is
    given."""
    return [sys.executable, "-c", LIMITED, *map(str, limit), *words] if limit else words


def run(words, stdin=subprocess.DEVNULL, limit=None, **outputs):
    """The status of a run, or that it has no end, and what it prints and reports, unless an output
    is given. The input is bytes or a file."""
    pipes = {"stdout": subprocess.PIPE, "stderr": subprocess.PIPE, **outputs}
    pipes["input" if isinstance(stdin, bytes) else "stdin"] = stdin
    try:
        done = subprocess.run(limited(words, limit), **pipes, timeout=PATIENCE, check=False)
    except subprocess.TimeoutExpired as error:
        return "no end", error.stdout, error.stderr
    return done.returncode, done.stdout, done.stderr


def side_by_side(work, jobs):
    """What the work makes of each job, in their order, many at a time."""
    with concurrent.futures.ThreadPoolExecutor(max_workers=LANES) as pool:
        yield from pool.map(work, jobs)


def difference(found, wanted):
    """What is found instead of what is wanted, from shortly before the first difference."""
    if isinstance(found, tuple) and isinstance(wanted, tuple):
        pairs = [pair for pair in zip(found, wanted) if pair[0] != pair[1]]
        return ", and ".join(difference(*pair) for pair in pairs)
    if isinstance(found, bytes) and isinstance(wanted, bytes):
        start = max(len(os.path.commonprefix([found, wanted])) - 20, 0)
        found, wanted = found[start : start + 200], wanted[start : start + 200]
    return f"{found!r} instead of {wanted!r}"


def compared(rows):
    """Makes of rows of a name, what is found and what is wanted such of a name and its faults."""
    for name, found, wanted in rows:
        yield name, [] if found == wanted else [difference(found, wanted)]


def guarded(name, rows):
    """Rows of a name and its faults, and one more by this name where a fault comes out of them: the
    rows of others go on after it."""
    try:
        yield from rows
    except FAULTS as error:
        yield name, [said_of(error), "so it has no more rows"]


def tried(name, faults_of):
    """A row of this name, for what a slow moment of the machine can spoil: a client that has to be
    quick, say. It is tried some times, until a try has no faults, and those of the last one are
    given. So a fault of the program's own is found in each. What is tried again is printed."""
    for left in reversed(range(TRIES)):
        try:
            faults = [*faults_of()]
        except FAULTS as error:
            faults = [said_of(error)]
        if not (faults and left):
            return name, faults
        print(f"{TOOL}: {name} is tried again: {'; '.join(faults)[:300]}", flush=True)
    raise ValueError("nothing is tried")


def report(rows, good="passed", bad="failed"):
    """Prints the faults of rows of a name and its faults, and the last line. Answers the tool's
    status."""
    passed = failed = 0
    try:
        for name, faults in rows:
            passed, failed = passed + (not faults), failed + bool(faults)
            if faults and failed <= MOST_SHOWN:
                print(f"{TOOL}: {name}: {'; '.join(faults)}")
    except FAULTS as error:
        failed += 1
        print(f"{TOOL}: {said_of(error)}, and so no more rows")
    print(f"{TOOL}: {passed} {good}, {failed} {bad}")
    return 0 if passed and not failed else 1
