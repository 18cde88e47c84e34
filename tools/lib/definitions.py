"""The definitions in the crates' specs/, and the page of them."""
import dataclasses
import re
import textwrap

from lib.clauses import cited_names
from lib.crates import groups_of, uses_of

PAGE, FRAME = "out/DEFINITIONS.md", "docs/definitions.in.md"
WIDTH = 120
DEFINITION = re.compile(
    r" *(?:(?:pattern )?(?:abbrev|unfoldable) )?pub (?:(record|data) )?([\w']+)(?=[ :])"
)


GIVEN = r"^- `([\w']+)`: ((?:.|\n  )*)"  # what is said by hand of a definition
SOURCE = r"\((?=[^()]*[A-Za-z])(?:[^()]|\([^()]*\))*\)"  # at the end of a comment


@dataclasses.dataclass
class Definition:
    """A definition: its name, what the comment above it says, the names in it, and, of a type,
    which kind it is and its fields or constructors, each with what the comment above it says."""

    name: str
    words: str
    kind: str
    parts: list
    uses: set


def comment_in(line):
    """The words of a line that is a comment, or else nothing."""
    found = re.match(r" *--(?: (.*))?$", line)
    return (found[1] or "") if found else None


def parts_of(lines, kind):
    """The fields of a record, or the constructors of another type, that these lines begin with:
    the names in a line with what the comment above it says."""
    pattern = r" +pub ([\w']+) :" if kind == "record" else r" +([\w' ]+?) :"
    words, parts = [], []
    for line in lines:
        said, found = comment_in(line), re.match(pattern, line)
        if said is not None:
            words.append(said)
        elif found and found[1].strip():
            parts.append((found[1].split(), " ".join(words)))
            words = []
        elif not line.startswith("   "):
            break
    return parts


def definitions_in(text):
    """What a file of definitions says at its head, and its definitions in their order."""
    lines, words, head, found, is_mutual = text.split("\n"), [], "", [], False
    for at, line in enumerate(lines):
        said, here = comment_in(line), DEFINITION.match(line)
        if said is not None:
            words = [] if said.startswith("---- ") else [*words, said]
            continue
        if line.startswith("use ") and not found:
            head = head or " ".join(words)
        is_mutual = line.endswith("mutual") or is_mutual and line[:1] in ("", " ")
        if here and (is_mutual or here[1] or not line.startswith("  pub ")):
            parts = parts_of(lines[at + 1 :], here[1]) if here[1] else []
            found.append(Definition(here[2], " ".join(words), here[1] or "", parts, set()))
        if found and not line.startswith(("use ", "pub use ")):
            found[-1].uses.update(re.findall(r"[\w']+", line))
        if not line.endswith("mutual"):
            words = []
    return head, found


def files_of(top, crate):
    """A crate's files of definitions, in the order in which its Lib.antt names them."""
    lib = top / "crates" / crate / "specs" / "Lib.antt"
    text = lib.read_text(encoding="utf-8") if lib.exists() else ""
    return [lib.parent / f"{it}.antt" for it in re.findall(r"(?m)^pub mod (\w+)", text)]


def citations(top, uses):
    """The definitions that public clauses cite, and in a program those of all of its crate, but not
    in worked examples, which state nothing else: each crate and name with a file that cites it.
    What a type's value is in the model, its view, is left out."""
    found = {}
    for crate in (it for it in uses if not it.startswith("worked_")):
        folder = top / "crates" / crate
        scopes = ("pub ", "pub(crate) ") if (folder / "src/main.rt").exists() else ("pub ",)
        for file in sorted([*folder.glob("src/**/*.rt"), *folder.glob("specs/*.antt")]):
            for cited in cited_names(file.read_text(encoding="utf-8"), list(uses), scopes):
                if not cited[1].endswith("_view"):
                    found.setdefault(cited, file.relative_to(top))
    return found


def reached(files, uses, cited):
    """The definitions that are cited, by their names or those of their constructors, and those that
    they are made of: by crate and name."""
    places = {}
    for crate, definitions in ((crate, found) for crate, _, _, found in files):
        for it in definitions:
            names = [it.name, *(name for part, _ in it.parts if it.kind == "data" for name in part)]
            for name in names:
                places.setdefault(name, []).append((crate, it))
    found = {}
    waiting = [(crate, name, {crate}) for crate, name in cited]
    while waiting:
        _, name, crates = waiting.pop()
        for crate, it in places.get(name, ()):
            is_view = it.name.endswith("_view")
            if crate in crates and (crate, it.name) not in found and not is_view:
                found[crate, it.name] = it
                waiting += [(crate, other, {crate, *uses[crate]}) for other in it.uses]
    return found


def filled(text, mark=""):
    """A paragraph, or an item of a list, in lines of the page's width. Code isn't broken, nor is a
    difference, whose sign would begin an item."""
    text = mark + " ".join(text.split())
    whole = re.sub(r"`[^`]*`| - (?=\d)", lambda at: at[0].replace(" ", "\0"), text)
    lines = textwrap.wrap(whole, WIDTH, subsequent_indent=" " * len(mark), break_on_hyphens=False)
    return "\n".join(lines).replace("\0", " ")


def part_of(names, words):
    """The names of a type's parts, and in brackets what their comment says, with its source after a
    semicolon in place of brackets."""
    said = re.sub(r" ?\(([^()]*)\)", r"; \1", words).removeprefix("; ").rstrip(" .,:")
    front = ", ".join(f"`{name}`" for name in names[:-1])
    return f"{front}{front and ' and '}`{names[-1]}`" + (f" ({said})" if said else "")


def item_of(it, words):
    """The line of a definition: what is said of it, its parts, and its source."""
    said, source = re.fullmatch(rf"(.*?)({SOURCE})?\.?", " ".join(words.split())).groups()
    said = re.sub(r"(?<=[\w`)\]'])$", ".", said[:1].upper() + said[1:].rstrip())
    parts = ", ".join(part_of(*part) for part in it.parts)
    if it.kind == "data" and sum(len(names) for names, _ in it.parts) > 1:
        said = f"{said} One of {parts}.".strip()
    elif parts and not said:
        said = f"With {parts}."
    return filled(" ".join([f"`{it.name}`:" if said else f"`{it.name}`", said, source or ""]), "- ")


def frame_of(text):
    """The parts of the page that are written by hand: its head, and each section with its name."""
    head, *sections = re.split(r"(?m)^## ", text)
    return head, dict(it.split("\n", 1) for it in sections)


def laws_in(top, crate):
    """The laws of a crate, which are the public functions of a crate of laws, or of the file
    laws.rt of another one: the name of each, what its comment says, and the names of the
    definitions in its clauses."""
    law = r"((?:///.*\n)+)pub fn (\w+)\(\)\n((?: .*\n)*)"
    folder = top / "crates" / crate / "src"
    for file in sorted(folder.glob("*.rt" if crate.startswith("law_") else "laws.rt")):
        for words, name, clauses in re.findall(law, file.read_text(encoding="utf-8")):
            said = " ".join(it.removeprefix("///").strip() for it in words.split("\n"))
            yield name, " ".join(said.split()), re.findall(r"\b[A-Z]\w*", clauses)


def law_items(top, crate, found):
    """The lines of the laws of a crate."""
    for name, words, named in laws_in(top, crate):
        cited = [f"`{it}`" for it in dict.fromkeys(named) if (crate, it) in found]
        clauses = f" Clauses: {', '.join(cited)}." if cited else ""
        yield filled(f"`{name}`: {words}{clauses}", "- ")


def about(top, crate):
    """What a crate says of itself first."""
    file = top / "crates" / crate / "src" / "lib.rt"
    file = file if file.exists() else file.with_name("main.rt")
    lines = re.match(r"(?://! .*\n)*", file.read_text(encoding="utf-8"))[0]
    text = " ".join(it.removeprefix("//! ") for it in lines.split("\n"))
    return re.sub(r"\[(`[^`]*`)\]", r"\1", text)


def has_words(it):
    """Whether the comment above a definition says more than its source."""
    return bool(it.words) and not re.fullmatch(SOURCE, it.words)


def words_of(it, given):
    """What the comment above a definition says, and in front of its source what is given by hand
    where it says nothing else."""
    return it.words if has_words(it) else f"{given.get(it.name, '')} {it.words}".strip()


def section_of(files, found, given):
    """The files of a crate, with what is said of the definitions in them that were found."""
    for crate, file, head, definitions in files:
        wanted = [it for it in definitions if found.get((crate, it.name)) is it]
        lines = [
            item_of(it, words)
            for it, words in ((it, words_of(it, given)) for it in wanted)
            if words or it.kind == "data"
        ]
        if lines:
            yield filled(f"`{file.name}`: {head}")
            yield "\n".join(lines)


def all_files(top, crates):
    """The files of definitions: each with its crate, what it says at its head, and these."""
    for crate in crates:
        for file in files_of(top, crate):
            yield crate, file, *definitions_in(file.read_text(encoding="utf-8"))


def page_of(top):
    """The page, the definitions that are cited, each with a file that does, and those of which
    something is said by hand without need."""
    first, by_hand = frame_of((top / FRAME).read_text(encoding="utf-8"))
    uses, groups, blocks, unused, last = uses_of(top), groups_of(top), [first.strip()], [], ""
    crates = [it for it in uses if not it.startswith("worked_")]
    files = [*all_files(top, crates)]
    cited = citations(top, uses)
    found = reached(files, uses, cited)
    for crate in crates:
        text = by_hand.pop(crate, "")
        intro = re.sub(rf"(?m){GIVEN}\n", "", text).strip()
        given = dict(re.findall(rf"(?m){GIVEN}", text))
        bare = [it.name for key, it in found.items() if key[0] == crate and not has_words(it)]
        unused += [f"`{name}` of {crate}" for name in given if name not in bare]
        section = [*section_of([it for it in files if it[0] == crate], found, given)]
        laws = [*law_items(top, crate, found)]
        section = [*(["The laws:", "\n".join(laws)] if laws else []), *section]
        if section and groups[crate] != last:
            last = groups[crate]
            blocks.append(f"## {last}")
        if section:
            head = [f"### `{crate}`", filled(about(top, crate)), *filter(None, [intro])]
            blocks += [*head, *section]
    blocks += [f"## {name}\n{text.rstrip()}" for name, text in by_hand.items()]
    return "\n\n".join(blocks) + "\n", cited, unused
