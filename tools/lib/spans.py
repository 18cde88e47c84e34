"""The lines that otlp-collector prints of spans (docs/FORMATS.md)."""

# The lines of a span without fields, and the order of all lines.
EMPTY = ("span % % % % 0 0 0 %", "resource 0 %", "scope % % % 0", "dropped 0 0 0", "status 0 %")
ORDER = ["span", "flags", "resource", "rattr", "scope", "sattr", "attr"]
ORDER += ["event eattr", "link lflags lattr", "dropped", "status"]
RANKS = {word: rank for rank, words in enumerate(ORDER) for word in words.split()}


def printed_of(*spans):
    """What is printed of these spans. Each is given by the lines that a span without fields has
    not, joined by '; '."""
    lines = []
    for given in spans:
        own = given.split("; ") if given else []
        heads = {it.split()[0] for it in own}
        own += [it for it in EMPTY if it.split()[0] not in heads]
        lines += sorted(own, key=lambda it: RANKS[it.split()[0]])
    return "".join(f"{it}\n" for it in lines)
