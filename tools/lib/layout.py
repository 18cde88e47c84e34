"""Lines of definitions and proofs, and where a long one breaks.

A line breaks at its outermost brackets, where what is joined least tightly meets: after a comma, a
semicolon, `in` or `=`, before an arrow, before an operator, before an argument. How far the parts
are indented, and whether a tuple takes a line for each component, is left to `rattle fmt`; so a
line breaks once, is laid out, and then its parts break where they are still too long.
"""
import dataclasses
import re

WIDTH = 100
NAME = r"[^\s(){}.;,@\"]+"
TEXT = r'"(?:[^"\\]|\\.)*"'
WORDS = re.compile(rf'(?:{TEXT}|[^\s"]|")+')
TOKENS = re.compile(rf"{TEXT}|{NAME}|\S")
USE = re.compile(r"( *(?:pub )?use [^\s{]+\.)\{(.*)\}$")
OPENERS = {"(": ")", "{": "}", "[": "]"}
CLOSERS = {*OPENERS.values()}

# How loosely the two sides of a place hang together: the lower, the sooner a line breaks there.
SEPARATED, VALUE, BODY, ARGUMENT, WORD, SIGNATURE = -9, -8, -7, 200, 201, 202
LEVELS = {
    "∵": -6, "$": -5, "→": -4, ">>=": -3, ">>": -3, "↔": 0, "≃": 0, "⊎": 1, "∨₁": 1, "×": 2,
    "≡": 4, "≢": 4, "then": 5, "else": 5, "▹": 20, "▸": 20, "◂": 20, "⦂": 21, "⊢": 26, "⊑": 26,
    "∙": 30, "||": 30, "&&": 35, "∗": 35, "==": 40, "<": 50, "≤": 50, "∈": 50, "++": 60, "∷": 61,
    "+": 65, "-": 65, "*": 70, "/": 70, "%": 70, "⊛": 70, "^": 75,
}
OTHER_OPERATOR = 45
TRAILING = {"∵", "$"}  # operators that end a line in place of beginning the next
VALUES = {"=", "←", "↦"}  # what a value comes after
# Words that the next word follows on the same line, and that follow the last one.
HOLDING = {
    "let", "|", "pub", "abbrev", "unfoldable", "unfolding", "pattern", "data", "axiom", "module",
    "open", "use", "record", "elim", "if", "then", "else", "as", "¬", "‵", "do",
}
HELD = {"=", ":", "where", "in", "↦", "←", "[", *TRAILING}


@dataclasses.dataclass
class Place:
    """A space at which a line may break: after which word, how many brackets deep, in which of the
    brackets, how loosely, and whether a function is before it and its first argument after it."""

    at: int
    depth: int
    frame: int
    level: int
    is_first: bool


def words_of(line):
    """The words of a line. A quoted text is part of one, with its spaces."""
    return WORDS.findall(line)


def tokens_of(word):
    return TOKENS.findall(word)


def indent_of(line):
    return len(line) - len(line.lstrip(" "))


def operators_in(text):
    """The parts of the operators that a file names, and those that are known, with their levels."""
    names = re.findall(r"◌[^\s,{}()]+◌", text)
    parts = {part for name in names for part in name.split("◌") if part}
    return {**dict.fromkeys(parts - {"then"}, OTHER_OPERATOR), **LEVELS}


class Reader:
    """Goes over the words of a line, and counts what is open: brackets, the body of a `λ`, which
    ends where the brackets around it end, and a `let` up to its `in`."""

    def __init__(self, operators):
        self.operators, self.places = operators, []
        # What is open: its kind, its number, and the parts of the application that is being read.
        self.open, self.base, self.count = [["line", 0, 0]], 0, 0
        self.binding = None  # how many brackets are open in the binders of a `λ`

    def push(self, kind):
        self.count += 1
        self.open.append([kind, self.count, 0])

    def leave(self, kinds):
        """Closes what is open up to one of these kinds. If there is none, the line goes on further
        out than it began."""
        while self.open and self.open[-1][0] not in kinds:
            self.open.pop()
        if self.open:
            self.open.pop()
        if not self.open:
            self.base, self.count = self.base - 1, self.count + 1
            self.open = [["line", self.count, 0]]
        self.open[-1][2] += 1

    def begin(self, is_next=False):
        """Begins another operand, or the next component, field or case, where bodies end."""
        while is_next and self.open[-1][0] in ("λ", "let"):
            self.open.pop()
        self.open[-1][2] = 0

    def binder(self, token):
        """Reads a token of the binders of a `λ`."""
        self.binding += (token in OPENERS) - (token in CLOSERS)
        if token == "." and self.binding == 0:
            self.binding = None
            self.push("λ")

    def token(self, token, begins):
        """Reads a token, which begins a part of an application or not."""
        if self.binding is not None:
            self.binder(token)
        elif token == "λ":
            self.binding = 0
        elif token in OPENERS or token == "let":
            self.push(token)
        elif token in CLOSERS:
            self.leave([it for it, closer in OPENERS.items() if closer == token])
        elif token == "in":
            self.leave(["let"])
            self.begin()
        elif token in (",", ";", "|"):
            self.begin(is_next=True)
        elif token in self.operators or token in VALUES or token == ":":
            self.begin()
        else:
            self.open[-1][2] += begins

    def level(self, words, following):
        """How loosely the last of these words and the next one hang together, or that they can't be
        parted."""
        word, last = words[-1], tokens_of(words[-1])[-1]
        is_record = "record" in [tokens_of(it)[-1] for it in words[-3:-1]]
        if last in (",", ";") or following == "|" or last == "[" or last == "{" and is_record:
            return SEPARATED
        if self.binding is not None or last in HOLDING or words[-2:] == ["module", "_"]:
            return None
        if word == "in":
            return BODY
        if word in VALUES or last == "." and self.open[-1][0] == "λ":
            return VALUE
        if word in TRAILING:
            return self.operators[word]
        if following in HELD or following[0] in ")}],;." or last in OPENERS:
            return None
        if word == ":":
            return SIGNATURE
        if following[0] == "{" and (is_record or last == "record") or word in self.operators:
            return None
        if following in self.operators:
            return self.operators[following]
        is_argument = following[0] in "({λ" or following in ("record", "elim", "let")
        return ARGUMENT if is_argument else WORD

    def word(self, words, following, is_end):
        """Reads the last of these words, and notes the place after it if the line may break
        there. It doesn't before a bracket that ends the line, which layout would join again, nor
        before an operator that does."""
        last = ""
        for token in tokens_of(words[-1]):
            self.token(token, last in ("", ",", *OPENERS))
            last = token
        level = self.level(words, following) if following else None
        if level is not None and not is_end:
            _, number, parts = self.open[-1]
            is_first = level in (ARGUMENT, WORD) and parts == 1
            depth = self.base + len(self.open)
            self.places.append(Place(len(words) - 1, depth, number, level, is_first))


def places_in(words, operators):
    """The places at which a line of these words may break."""
    reader = Reader(operators)
    for at, following in enumerate([*words[1:], ""]):
        is_end = at == len(words) - 2 and (following == "(" or following in operators)
        reader.word(words[: at + 1], following, is_end)
    return reader.places


def is_listed(words):
    """Whether words are one tuple, record or list of cases, maybe after `record` or `λ x.`, which
    takes a line for each component."""
    text = re.sub(r"^λ [^.]*\. ", "", " ".join(words).rstrip(",;"))
    text = re.sub(r"^(record (?:[^\s(){}]+ )?(?=\{)|elim [^\[\]]* (?=\[ ))", "", text)
    depth, has_parts = 0, False
    tokens = TOKENS.findall(text)
    for at, token in enumerate(tokens):
        depth += (token in OPENERS) - (token in CLOSERS)
        if depth == 0:
            return at == len(tokens) - 1 and has_parts
        has_parts = has_parts or depth == 1 and token in (",", ";", "|", "↦")
    return False


def filled(words, places, first, rest):
    """Words in lines of at most these widths, the first one's and the others', which break at some
    of these places. A list that takes several lines begins on the line of what is before it, and
    what is after it follows on the line of its end. A function is on the line of its first
    argument unless that fits on a line only without it."""
    cuts = [0, *(it.at + 1 for it in places), len(words)]
    pieces = [words[a:b] for a, b in zip(cuts, cuts[1:])]
    lines, end = [" ".join(pieces[0])], ""  # `end` is the last line of such a list
    for place, piece in zip(places, pieces[1:]):
        text, width = " ".join(piece), rest if lines[1:] else first
        is_list = len(text) > rest and place.level == ARGUMENT and is_listed(piece)
        is_held = is_list or place.is_first and len(text) > rest
        if is_held or len(end or lines[-1]) + 1 + len(text) <= width:
            lines[-1] += f" {text}"
            end = ")" if is_list else end and f"{end} {text}"
        else:
            lines.append(text)
            end = ""
    return lines


def split(words, places, first, rest):
    """Words in two lines or more, which break at these places of one level, or nothing if they
    don't."""
    level, at = places[0].level, places[0].at + 1
    before, after = " ".join(words[:at]), " ".join(words[at:])
    if level == SEPARATED:
        return [before, after]
    if level == BODY:
        cuts = [0, *(it.at + 1 for it in places), len(words)]
        return [" ".join(words[a:b]) for a, b in zip(cuts, cuts[1:])]
    if level in (VALUE, SIGNATURE):
        is_definition = words[at - 1] in VALUES
        return [before, after] if is_definition or len(after) <= rest else None
    lines = filled(words, places, first, rest)
    return lines if len(lines) > 1 else None


def begins_above(words, at, width):
    """Whether the value that begins at a word is a list, too long for a line of its own, that can
    begin on the line of what it is the value of."""
    head = re.match(r"elim [^\[\]]*\[|[^({\[]*[({\[]?", " ".join(words[at:]))[0]
    fits = len(" ".join([*words[:at], head])) <= width
    return fits and len(" ".join(words[at:])) > width - 4 and is_listed(words[at:])


def choices(words, places, width):
    """The places of a line in the order in which it tries them: those of one level and between the
    same brackets, the outermost first, and of several brackets the longest first."""
    groups = {}
    for it in places:
        groups.setdefault((it.depth, it.frame), []).append(it)

    def rank(item):
        (depth, _), found = item
        return depth, -len(" ".join(words[found[0].at : found[-1].at + 2]))

    for _, found in sorted(groups.items(), key=rank):
        if any(it.level == VALUE and begins_above(words, it.at + 1, width) for it in found):
            continue
        for level in sorted({it.level for it in found}):
            levels = (ARGUMENT, WORD) if level == WORD else (level,)
            some = [it for it in found if it.level in levels]
            yield some[:1] if level in (SEPARATED, VALUE, SIGNATURE) else some


def broken(line, operators, goes_on=False):
    """The lines of a line that is too long, one step of the way: itself if it can't break. A line
    that goes on with the one above it isn't indented further where it breaks."""
    indent, words = indent_of(line), words_of(line)
    more = indent if goes_on else indent + 4
    if any(it.startswith(("--", "{-")) or it.endswith("-}") for it in words):
        return [line]
    for places in choices(words, places_in(words, operators), WIDTH - indent):
        lines = split(words, places, WIDTH - indent, WIDTH - more)
        if lines:
            return [" " * indent + lines[0], *(" " * more + it for it in lines[1:])]
    return [line]


def broken_use(line):
    """The lines of a long list of imports: several lists."""
    head, names = USE.match(line).groups()
    lines = []
    for name in (it.strip() for it in re.split(r", *(?![^{]*\})", names.strip(" ,"))):
        end = " }" if name.endswith("!") else "}"  # `!}` would be read as one word
        more = f"{lines[-1].rstrip('} ')}, {name}{end}" if lines else ""
        if lines and len(more) <= WIDTH:
            lines[-1] = more
        else:
            lines.append(f"{head}{{{name}{end}")
    return lines if lines[1:] else [f"{head}{{", f"  {names},", "}"]


def broken_comment(line):
    """The lines of a long comment."""
    mark = re.match(r" *--", line)[0]
    lines = [mark]
    for word in line[len(mark) :].split():
        if len(lines[-1]) + 1 + len(word) > WIDTH and lines[-1] != mark:
            lines.append(mark)
        lines[-1] += f" {word}"
    return lines


def goes_on(line, last, last_does, operators):
    """Whether a line surely continues the one above it, and isn't the first of a definition, a
    component or a statement."""
    words, ends = line.split(), last.split()
    if not words or not ends or ends[0] == "--" or indent_of(line) < indent_of(last):
        return False
    if words[0] in operators or words[0] in ("→", "="):
        return True
    return ends[-1] in ("=", "in", *TRAILING) or last_does and indent_of(line) == indent_of(last)


def wrapped_once(text):
    """A file's text in which each line that is too long is broken once."""
    operators, lines, last, does, in_block = operators_in(text), [], "", False, False
    for line in text.split("\n"):
        does = goes_on(line, last, does, operators)
        in_block = (in_block or "{-" in line) and "-}" not in line
        last = line
        if len(line) <= WIDTH or in_block:
            lines.append(line)
        elif USE.match(line):
            lines += broken_use(line)
        elif re.match(r" *--( |$)", line):
            lines += broken_comment(line)
        else:
            lines += broken(line, operators, does)
    return "\n".join(lines)


def meaning_of(tokens):
    """The tokens of a file without the separator or bar that a list has at its end or head, which
    layout adds, and with imports of one module that follow one another as one list."""
    kept, head = [], None
    for token in tokens:
        if token in CLOSERS and kept[-1] in (",", ";"):
            kept.pop()
        if not (token == "|" and kept[-1] == "["):
            kept.append(token)
        if token == "{" and kept[-2:-1] == ["."] and kept[-4:-3] == ["use"]:
            size = 5 if kept[-5:-4] == ["pub"] else 4
            if kept[-size:] == head and kept[-size - 1 : -size] == ["}"]:
                kept[-size - 1 :] = [","]
            head = kept[-size:] if kept[-1] == "{" else head
    return kept


def long_lines(text):
    """The lines that are too long: each with its number and its columns. One that imports a module
    can't be shorter."""
    for at, line in enumerate(text.split("\n"), 1):
        if len(line) > WIDTH and not re.fullmatch(r"use \S+", line):
            yield at, f"{len(line)} columns"


def bare_lemmas(text):
    """The public lemmas without a comment above them: each with its line's number and its name. A
    field of a record isn't one."""
    lines, record = text.split("\n"), None
    for at, line in enumerate(lines):
        indent = indent_of(line)
        if line.strip() and record is not None and indent <= record and line.strip() != "where":
            record = None
        if re.match(r" *((pattern|unfoldable|abbrev) )*(pub )?record [^\s{]+", line):
            record = indent
        found = re.match(r" *pub ([^\s{]+)(?: \{[^}]*\})?(?: :|$)", line)
        above = lines[at - 1].strip() if at else ""
        if found and record is None and (not above.startswith("--") or above.startswith("-- ----")):
            yield at + 1, found[1]


def imports_in(text):
    """The names that a file imports in lists, each with its line's number, as it calls them."""
    for found in re.finditer(r"(?m)^use [^\s{]+\.\{([^}]*)\}", text):
        start = found.start(1)
        for name in re.finditer(r"[^,]+", found[1]):
            words = name[0].split()
            if words:
                place = start + name.start() + len(name[0]) - len(name[0].lstrip())
                yield text.count("\n", 0, place) + 1, words[-1]


def unused_imports(text):
    """The imports that nothing uses: each with its line's number and its name."""
    rest = re.sub(r"(?m)^(pub )?use [^\s{]+(\.\{[^}]*\})?.*$", "", text)
    # A text may have `--` in it, and a comment a quotation mark: whichever begins first is taken out.
    rest = re.sub(rf"(?m){TEXT}|(^|(?<=[\s(){{}};,]))--.*$", '""', rest)
    names = set(re.findall(NAME, rest))
    names |= {part for name in names if "◌" in name for part in name.split("◌")}
    names |= {">>="} if "do" in names else set()
    for at, name in imports_in(text):
        if not {part for part in name.split("◌") if part} <= names:
            yield at, name
