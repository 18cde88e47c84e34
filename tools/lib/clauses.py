"""The public clauses of sources, and the definitions that they cite."""
import re

# What decides whether a clause is public, and clauses and ghost members up to their first brace.
PARTS = re.compile(
    r"(?m)^(?P<trait>pub trait\b|impl\b[^{;]* for )|^(?P<block>impl|trait)\b"
    r"|^(?P<indent> *)(?P<scope>pub(?:\(\w+\))? )?(?:const |unsafe )*(?P<fn>fn) "
    r"|^ *(?:requires|ensures)\b[^{\n]*(?P<clause>\{)"
    r"|^ *ghost (?!use|view|invariant)\w+\s*[:=]\s*(?P<ghost>\{)"
)


def braced(text, start):
    """The text between a brace and the one that closes it."""
    depth = 0
    for at in range(start, len(text)):
        depth += {"{": 1, "}": -1}.get(text[at], 0)
        if depth == 0:
            return text[start:at]
    return text[start:]


def public_clauses(text, scopes=("pub ",)):
    """The clauses of public functions, which have such a word in front, and of traits' methods, and
    the ghost members that callers see."""
    in_trait = is_public = False
    for at in PARTS.finditer(text):
        if at["trait"] or at["block"]:
            in_trait = bool(at["trait"])
        elif at["fn"]:
            is_member = not at["scope"] and bool(at["indent"]) and in_trait
            is_public = at["scope"] in scopes or is_member
        elif at["ghost"] or is_public:
            yield braced(text, at.start("ghost" if at["ghost"] else "clause"))


def cited_names(text, crates, scopes=("pub ",)):
    """The definitions of these crates that the public clauses of a source cite, by themselves or
    after a module's name: each with its crate."""
    text = re.sub(r"//.*", "", text)
    clauses = "\n".join(public_clauses(text, scopes))
    words = set(re.findall(r"(?<![\w.])[\w']+", clauses))
    used = rf"ghost use Rattle\.({'|'.join(crates)})\.specs\.(?!declared)([\w.]+)"
    parts = rf"{used}(?:\.\{{([^}}]*)\}})?(?: as (\w+))?;"
    for crate, path, names, alias in re.findall(parts, text):
        for name, other in re.findall(r"([\w'-]+)(?: as ([\w']+))?", names):
            if (other or name) in words:
                yield crate, name
        if not names:
            module = alias or path.split(".")[-1]
            found = re.findall(rf"(?<![\w.]){module}\.(\w+)", clauses)
            yield from ((crate, name) for name in found)
