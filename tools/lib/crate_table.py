"""The table of crates in docs/ARCHITECTURE.md, as crates.txt and the crates' root files give it."""
import re

from lib.crates import below, groups_of, uses_of

MAP = "docs/ARCHITECTURE.md"
HEAD = "| Group | Crate | What it is for | Depends on |\n|---|---|---|---|\n"
CHAIN = "The longest chain has "


def summary_of(top, crate):
    """The first sentence of a crate's root file, without the brackets of links."""
    files = (top / "crates" / crate / "src" / it for it in ("lib.rt", "main.rt"))
    source = next(it for it in files if it.exists()).read_text(encoding="utf-8")
    lines = [it[3:].strip() for it in re.match(r"(?://!.*\n)*", source)[0].splitlines()]
    text = re.split(r"\n\n", "\n".join(lines))[0].replace("\n", " ")
    sentence = re.match(r".*?[.](?= |$)|.*", text)[0].rstrip(".:")
    return re.sub(r"\[(`[^`]*`)\]", r"\1", sentence).replace("|", "\\|")


def next_below(uses, crate):
    """What a crate uses, without what comes along with another one of these: the repository's
    crates, and the toolchain's."""
    own = [it for it in uses[crate] if it in uses]
    along = {it for name in own for it in below(uses, name)}
    return [it for it in own if it not in along], [it for it in uses[crate] if it not in uses]


def chain_of(uses):
    """The longest chain of crates, the lowest first; the first by name where there are several."""
    chains = {}

    def longest(crate):
        if crate not in chains:
            under = [longest(it) for it in sorted(uses[crate]) if it in uses]
            chains[crate] = [*max(under, key=len, default=[]), crate]
        return chains[crate]

    return max((longest(it) for it in sorted(uses)), key=len)


def rows_of(top, uses):
    """The rows of the table: the group stands in the first row of its crates alone."""
    before = ""
    for crate, group in groups_of(top).items():
        own, kit = next_below(uses, crate)
        cell = ", ".join([*(f"`{it}`" for it in own), *kit]) or "nothing"
        front = group if group != before else ""
        yield f"| {front} | `{crate}` | {summary_of(top, crate)} | {cell} |\n"
        before = group


def described(top, text):
    """The document with the table and the chain as they are now."""
    uses = uses_of(top)
    front, head, rest = text.partition(HEAD)
    rest = re.sub(r"\A(?:\|.*\n)*", "", rest)
    if not head or f"\n{CHAIN}" not in rest:
        raise ValueError(f"{MAP} has no place for the table")
    chain = chain_of(uses)
    words = f"{CHAIN}{len(chain)} crates: " + ", ".join(f"`{it}`" for it in chain) + "."
    rest = re.sub(rf"(?m)^{CHAIN}.*$", lambda _: words, rest, count=1)
    return "".join([front, head, *rows_of(top, uses), rest])
