"""The functions of a source text, by their paths and places."""
import collections
import pathlib
import re

TEXT = r"\"(?:[^\"\\]|\\.)*\""
LITERAL = re.compile(
    rf"//[^\n]*|/\*.*?\*/|\bb?{TEXT}|{TEXT}|b?'(?:[^'\\\n]|\\[^\n]+?)'", re.S
)
CLAUSE = re.compile(r"(\b(requires|ensures)\s*\*?\s*\w*|\bghost\s+\w+\s*:)\s*$")


def blanked(text):
    """The text with blanks in place of comments and literals, each as long as it was."""
    return LITERAL.sub(lambda it: re.sub(r"[^\n]", " ", it[0]), text)


def without_brackets(text):
    """A type or a trait without what is in angle brackets."""
    before = ""
    while text != before:
        before, text = text, re.sub(r"<[^<>]*>", "", text)
    return text


def first_brackets(text):
    """What is in the first angle brackets of a text."""
    depth, start = 0, text.find("<")
    for at in range(max(start, 0), len(text)):
        depth += {"<": 1, ">": -1}.get(text[at], 0)
        if start >= 0 and not depth:
            return text[start + 1 : at]
    return ""


def last_name(path):
    return re.sub(r"\W+$", "", without_brackets(path).strip()).rpartition("::")[2].strip("&' ")


def name_of_impl(head):
    """The name under which a check reports the functions of an impl: its type, the types that this
    is given, the trait's name, and the types that the trait is given; and whether it is an impl of
    a trait."""
    head = re.split(r"\bwhere\b", head.partition("impl")[2])[0].replace("->", "").strip()
    generics = first_brackets(head) if head.startswith("<") else ""
    rest = head[len(generics) + 2 if generics else 0 :]
    trait, has_trait, type_ = rest.partition(" for ")
    if not has_trait:
        return last_name(trait), False
    own = re.findall(r"\w+", without_brackets(generics))

    def named(path):
        given = [it for it in re.findall(r"\b[A-Za-z]\w*", first_brackets(path)) if it not in own]
        return "".join(it[:1].upper() + it[1:] for it in [last_name(path), *given])

    return named(type_) + ("" if last_name(trait) == "Drop" else named(trait)), True


def block_of(head):
    """What a brace after this text opens: its kind, its name, and whether it is of a trait."""
    found = re.search(r"\bfn\s+(\w+)|\bmod\s+(\w+)\s*$|\btrait\s+(\w+)", head)
    if found and found[1]:
        return "fn", found[1], False
    if re.search(r"(^|\s)impl\b", head):
        return "impl", *name_of_impl(head)
    return ("scope", found[2] or found[3], bool(found[3])) if found else ("block", "", False)


class Function(collections.namedtuple("Function", "path start body end has_twins")):
    """A function in a text: its path, where its head begins, its body, where that ends, and whether
    a twin can be beside it."""

    def lines(self, text):
        """Its first and last line."""
        return text.count("\n", 0, self.start) + 1, text.count("\n", 0, self.end) + 1


def homes_of(blank):
    """The types that a text has from other modules of its crate, each with that module."""
    uses = re.findall(r"\buse crate::([\w:]+?)::(?:\{([^{}]*)\}|(\w+));", blank)
    lists = [(path.split("::"), re.findall(r"\w+", some or one)) for path, some, one in uses]
    return {name: path for path, names in lists for name in names}


def functions(text, module):
    """The functions of a source text, each with its path below the crate. Those of a type that is
    from another module of the crate have the path of that module."""
    blank, found, stack, depth, start = blanked(text), [], [], 0, 0
    homes = homes_of(blank)
    for mark in re.finditer(r"[{}()\[\];]", blank):
        is_clause = stack and stack[-1][0] == "clause"
        if mark[0] in "([":
            depth += not is_clause
        elif mark[0] in ")]":
            depth -= not is_clause
        elif mark[0] == "{":
            head = blank[start : mark.start()]
            kind = ("clause", "", False) if is_clause or CLAUSE.search(head) else block_of(head)
            stack.append((*kind, start, mark.end(), depth))
            start, depth = (start, depth) if kind[0] == "clause" else (mark.end(), 0)
        elif mark[0] == "}" and stack:
            kind, name, _, begins, body, depth = stack.pop()
            if kind == "fn":
                outer = [it[1] for it in stack if it[0] in ("fn", "impl", "scope")]
                begins += len(blank[begins:]) - len(blank[begins:].lstrip())
                has_twins = not any(it[2] for it in stack)
                own = [it[1] for it in stack if it[0] == "impl" and not it[2]]
                home = homes.get(own[0], module) if own else module
                path = "::".join([*home, *outer, name])
                found.append(Function(path, begins, body, mark.start(), has_twins))
            start = begins if kind == "clause" else mark.end()
        elif mark[0] == ";" and not depth and not is_clause:
            start = mark.end()
    return found


def module_of(path):
    """The module that a source file is, as its path below the crate."""
    parts = list(pathlib.PurePosixPath(path).with_suffix("").parts[1:])
    return [] if parts in (["lib"], ["main"]) else parts
