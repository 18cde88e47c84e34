"""The index of errors: each message that a type of errors prints, with when it comes."""
import collections
import re

from lib.crates import uses_of

PAGE = "out/ERRORS.md"
FRONT = """# Errors

Each message of a type of errors, in the order of its letters, with when it comes, as its source says, and the type with its crate.
`{}` is a value that the message shows. Many say what to do after a colon or a semicolon. What a collector or a client is answered
over HTTP is in docs/FORMATS.md. `tools/errors` writes this page.

| Message | When it comes | Type | Crate |
|---|---|---|---|
"""
# A message, when it comes, the type that prints it, with its variant, and the crate.
Message = collections.namedtuple("Message", "text when name crate")
ERROR = re.compile(r'#\[error\(\s*"((?:[^"\\]|\\.|\\\n)*)"', re.DOTALL)


def joined(text):
    """The lines of a source, where an attribute of several lines is one."""
    lines, open_ = [], ""
    for line in text.split("\n"):
        open_ = f"{open_}\n{line}" if open_ else line
        if open_.lstrip().startswith("#[error(") and not open_.rstrip().endswith(")]"):
            continue
        lines.append(open_)
        open_ = ""
    return lines


def text_in(literal):
    """The text of a literal, in which each value is `{}`."""
    text = re.sub(r"\\\n\s*", "", literal).replace('\\"', '"')
    return re.sub(r"\{[^{}]*\}", "{}", text)


def messages_in(text, crate):
    """The messages in a source, with the comments before them."""
    comment, message, kind = [], None, ""
    for line in map(str.strip, joined(text)):
        found = ERROR.match(line)
        item = re.match(r"pub(?:\([a-z]+\))? (enum|struct) (\w+)", line)
        variant = re.match(r"(\w+)", line)
        if line.startswith("///"):
            comment.append(line[3:].strip())
        elif found:
            message = text_in(found[1])
        elif line.startswith("#["):
            continue
        else:
            name = item[2] if item else f"{kind}.{variant[1]}" if variant else kind
            if message is not None and (item or variant):
                yield Message(message, " ".join(comment), name, crate)
            if item and item[1] == "enum":
                kind = item[2]
            comment, message = [], None


def messages(top):
    """All messages of a repository, in the order of their letters."""
    found = []
    for crate in uses_of(top):
        if not crate.startswith("test_"):
            for it in sorted((top / "crates" / crate / "src").rglob("*.rt")):
                found += messages_in(it.read_text(encoding="utf-8"), crate)
    return sorted(found, key=lambda it: (it.text.lower(), it))


def cell(text):
    """A text as a cell of a table, without the brackets of links."""
    return re.sub(r"\[(`[^`]*`)\](?:\([^)]*\))?", r"\1", text).replace("|", "\\|")


def page_of(top):
    """The page."""
    rows = (
        f"| `{cell(it.text)}` | {cell(it.when)} | `{it.name}` | `{it.crate}` |\n"
        for it in messages(top)
    )
    return FRONT + "".join(rows)
