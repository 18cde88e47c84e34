"""The options of programs, by the tables in their sources from which `--help` is printed."""
import collections
import re

from lib.harness import TOP

# An option that takes a value: its name, the value's name, the least and the most where that is a
# number (else nothing), its line of help, and whether it may come again.
Option = collections.namedtuple("Option", "name value least most help is_repeated")
# What each program prints beside them.
COMMON = (
    Option("help", "", None, None, "Print help", False),
    Option("version", "", None, None, "Print version", False),
)


def text_in(literal):
    """The text of a literal, whose lines may go on after a backslash."""
    joined = re.sub(r"\\\n\s*", "", literal)
    return joined.replace('\\"', '"').replace("\\\\", "\\")


def field_of(entry, name):
    """A field of an entry that has a text or a number, or nothing."""
    found = re.search(rf'\b{name}:\s*(?:"((?:[^"\\]|\\.|\\\n)*)"|([0-9_]+))', entry)
    if not found:
        return None
    return text_in(found[1]) if found[1] is not None else int(found[2].replace("_", ""))


def options_of(crate):
    """The options of a crate's program, in the order of help."""
    text = (TOP / "crates" / crate / "src" / "args.rt").read_text(encoding="utf-8")
    found = []
    for kind in ("NumberOption", "TextOption"):
        for entry in re.findall(rf"(?ms)^    {kind} \{{\n(.*?)^    \}},$", text):
            fields = [field_of(entry, it) for it in Option._fields[:-1]]
            found.append(Option(*fields, "is_repeatable: true" in entry))
    return [*found, *COMMON]


def about_of(crate):
    """What a crate's program does, as help begins."""
    text = (TOP / "crates" / crate / "src" / "args.rt").read_text(encoding="utf-8")
    return text_in(re.search(r'const ABOUT: &str =\s*"((?:[^"\\]|\\.|\\\n)*)"', text)[1])
