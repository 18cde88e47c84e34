"""The crates of a repository, their sources, and the edits that make wrong ones of these."""
import re


def uses_of(top):
    """The crates of crates.txt, each with the names of what it uses."""
    uses = {}
    for line in (top / "crates.txt").read_text(encoding="utf-8").splitlines():
        head, colon, names = line.partition("#")[0].partition(":")
        if colon:
            uses[head.split()[0]] = names.split()
    return uses


def groups_of(top):
    """The crates of crates.txt, each with the heading above it."""
    group, groups = "", {}
    for line in (top / "crates.txt").read_text(encoding="utf-8").splitlines():
        if line.startswith("# "):
            group = re.match(r"# ([^:,.]*)", line)[1]
        elif line.partition("#")[0].strip():
            groups[re.match(r"\w+", line)[0]] = group
    return groups


def below(uses, crate):
    """The repository's crates that this one uses, lowest first."""
    found = []
    for name in uses[crate]:
        if name in uses:
            found += [it for it in [*below(uses, name), name] if it not in found]
    return found


def sources_in(folder):
    """The files from which a crate is proved and built."""
    parts = [folder / it for it in ("src", "specs", "proofs")]
    return [it for part in parts for it in part.rglob("*") if it.is_file()]


def newest(files):
    """The moment at which the last of these files changed, in nanoseconds since 1970."""
    return max(it.stat().st_mtime_ns for it in files)


def is_new(top, program, crate, uses):
    """Whether a crate's program is there, and newer than the sources of the crate and of those that
    it uses."""
    folders = [top / "crates" / name for name in [*below(uses, crate), crate]]
    files = [it for folder in folders for it in sources_in(folder)]
    return program.is_file() and newest([program]) > newest([top / "crates.txt", *files])


def lines_of(edit):
    """The lines of an edit: the word in front of the colon, and the text after it. Blank lines
    count for nothing."""
    for line in edit.read_text(encoding="utf-8").split("\n"):
        word, _, text = line.partition(":")
        if line.strip():
            yield word, text.removeprefix(" ")
