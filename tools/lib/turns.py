"""Which wrong bodies a run of the gate tries."""
import hashlib
import re
import subprocess

# Those for which the promises are named; each run tries them.
ALWAYS = frozenset((
    "negative-in-five-bytes", "evicts-oldest-attribute", "error-after-ok", "call-after-end",
    "take-keeps-spans", "overwrites-oldest", "shutdown-clears", "retry-encodes-again",
    "groups-by-scope-name", "first-scalar-counts", "refuses-field-order", "changes-span-under-lock",
    "new-desk-each-hold", "full-while-room", "failed-encode-forgets", "write-nothing",
    "late-before-shutdown", "flush-at-once", "sampled-answered-not-sampled", "retry-too-early",
    "gives-up-at-first-later",
))
# Of the others a commit tries one in so many.
TURNS = 8


def git(top, *words):
    """What git prints, or nothing where it can't say."""
    how = {"stdout": subprocess.PIPE, "stderr": subprocess.DEVNULL, "text": True}
    try:
        ran = subprocess.run(["git", "-C", top, *words], check=False, **how)
    except OSError:
        return ""
    return "" if ran.returncode else ran.stdout


def commit_of(top):
    """The commit that is checked out in this folder, or nothing where git knows none."""
    prefix = git(top, "rev-parse", "--show-prefix").strip()
    return "" if prefix else git(top, "rev-parse", "HEAD").strip()


def changed_crates(top):
    """The crates that differ from the commit before, or None where git knows no commit before, as
    in a clone that has one alone."""
    if not git(top, "rev-parse", "--quiet", "--verify", "HEAD^"):
        return None
    names = git(top, "diff", "--name-only", "HEAD^")
    return set(re.findall(r"(?m)^crates/(\w+)/", names))


def turn_of(name):
    """In which of the turns an edit is tried, by its name."""
    return int(hashlib.sha256(name.encode()).hexdigest(), 16) % TURNS


def is_chosen(name, commit, changed):
    """Whether a commit tries an edit, whose name is CRATE/NAME, where these crates changed."""
    crate, _, own = name.partition("/")
    return crate in changed or own in ALWAYS or turn_of(name) == int(commit, 16) % TURNS
