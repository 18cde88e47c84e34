"""The promises of the crates, and the page of them.

A crate's promises.txt has headings, each after `# `, and below them a line for each clause: the
calls that carry it, a colon, and what holds, with the clauses' names in brackets at its end.
"""
import re

from lib.crates import below

PAGE, TABLE = "out/PROMISES.md", "docs/PROMISES.md"
FRONT = r"`[\w:]+`(?:, `[\w:]+`)*"
HEAD = f"""# All promises

{TABLE} says how to read this. `tools/promises` writes it from the crates' promises.txt.
"""


def headings_of(top):
    """The promises in the table of the document, each with what is said of it in short."""
    text = (top / TABLE).read_text(encoding="utf-8")
    text = text.partition("\n## All promises\n")[2].partition("\n## ")[0]
    rows = re.findall(r"(?m)^\| (.*?) \| (.*) \|$", text)
    return dict(rows[1:])


def lines_of(top, crate):
    """The lines of a crate's promises: the heading, the calls and what holds."""
    file, heading = top / "crates" / crate / "promises.txt", None
    text = file.read_text(encoding="utf-8") if file.exists() else ""
    for line in text.splitlines():
        found = re.match(rf"({FRONT}): (.*)", line)
        if line.startswith("# "):
            heading = line[2:]
        elif found:
            yield heading, found[1], found[2]
        elif line:
            yield heading, None, line


# What a crate may do whose sources have one of these words.
REACHES = {
    "open sockets": "Net|TcpListener|TcpStream|TcpDial|HttpExporter",
    "start threads": "Threads",
}


def has_word(folder, words):
    """Whether a source below the folder has one of the words, comments and contracts left out."""
    texts = (it.read_text(encoding="utf-8") for it in folder.rglob("*.rt"))
    return any(re.search(rf"\b({words})\b", re.sub(r"//.*|\bghost use .*", "", it)) for it in texts)


def trusted_of(top, uses):
    """The ported crates that are used, and the crates that may open sockets or start threads: those
    whose sources say so, and the programs over them."""
    ported = sorted({it for names in uses.values() for it in names} - {*uses})
    found = [f"- Ported crates: {', '.join(f'`{it}`' for it in ported)}."]
    for does, words in REACHES.items():
        some = {it for it in uses if has_word(top / "crates" / it / "src", words)}
        programs = {it for it in uses if (top / "crates" / it / "src" / "main.rt").exists()}
        some |= {it for it in programs if some.intersection(below(uses, it))}
        names = ", ".join(f"`{it}`" for it in uses if it in some)
        found.append(f"- Crates that may {does}: {names}.")
    return found


def page_of(top, uses):
    """The page: each promise with its clauses, in the order of the table, and what is trusted."""
    headings, rows = headings_of(top), {}
    for crate in uses:
        for heading, front, words in lines_of(top, crate):
            rows.setdefault(heading, []).append(f"- {front}: {words}")
    parts = [HEAD.rstrip()]
    for heading, short in headings.items():
        parts.append("\n".join([f"## {heading}", "", short, "", *rows.get(heading, [])]))
    parts.append("\n".join(["## Trusted", "", *trusted_of(top, uses)]))
    return "\n\n".join(parts) + "\n"
