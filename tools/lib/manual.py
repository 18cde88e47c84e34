"""Manual pages and completions of programs, made from the tables from which `--help` is printed."""
import re
import textwrap

from lib.options import about_of, options_of

# What completions offer for a value: the files or the folders that are there.
FILES, FOLDERS = {"FILE"}, {"DIR"}
ENDS = {
    "trace-view": "It runs until it is ended by a signal.",
    "otlp-relay": "It runs until something comes on its standard input, or that ends: then it hands"
    " on what it can, and prints a balance. Where standard input is a file or /dev/null, only a"
    " signal ends it.",
}
STATUSES = (
    ("0", "after help and the version, and after a stop"),
    ("1", "where it can't listen, wait, write or open its files"),
    ("2", "after a mistake in its words, which it reports"),
    ("3", "where memory was refused"),
)


def escaped(text):
    """A text as a manual page has it."""
    return re.sub(r"^([.'])", r"\\&\1", text.replace("\\", "\\e").replace("-", "\\-"))


def plain(text):
    """A text of prose as a manual page has it, where each sentence begins a line."""
    sentences = re.split(r"(?<=[.:]) (?=[A-Z])", text.replace("\\", "\\e"))
    return "\n".join(textwrap.fill(it, 78, break_on_hyphens=False) for it in sentences)


def sentence(option):
    """What an option is, with its range."""
    text = option.help
    if option.least is not None:
        text += f"; {option.least:,} to {option.most:,}"
    return plain(text + ".")


def manual_of(name, crate, date):
    """The manual page of a program (mdoc(7))."""
    options = options_of(crate)
    about = about_of(crate)
    front = (f".Dd {date}", f".Dt {name.upper()} 1", ".Os", ".Sh NAME", f".Nm {name}")
    lines = [*front, f".Nd {about[0].lower()}{about[1:].rstrip('.')}", ".Sh SYNOPSIS", ".Nm"]
    for it in options:
        argument = f" Ar {it.value}" if it.value else ""
        words = f"Fl \\-{escaped(it.name)}{argument}"
        is_needed = name == "otlp-relay" and it.name == "to"
        lines.append(f".{words}" if is_needed else f".Op {words}{' ...' if it.is_repeated else ''}")
    lines += [".Sh DESCRIPTION", plain(about), plain(ENDS[name]), "The options are:"]
    lines.append(".Bl -tag -width Ds")
    for it in options:
        argument = f" Ar {it.value}" if it.value else ""
        lines += [f".It Fl \\-{escaped(it.name)}{argument}", sentence(it)]
    lines += [".El", ".Sh EXIT STATUS", ".Bl -tag -width Ds"]
    for status, when in STATUSES:
        lines += [f".It {status}", f"{when[0].upper()}{when[1:]}."]
    lines += [".El", ".Sh SEE ALSO"]
    other = next(it for it in ENDS if it != name)
    lines += [f".Xr {other} 1", ".Pp", ".Pa /usr/share/doc/dulhafrin", "has the guide."]
    return "\n".join(lines) + "\n"


def bash_of(name, crate):
    """The completion of a program for bash."""
    options = options_of(crate)
    words = " ".join(f"--{it.name}" for it in options)
    files = "|".join(f"--{it.name}" for it in options if it.value in FILES)
    folders = "|".join(f"--{it.name}" for it in options if it.value in FOLDERS)
    rest = [it for it in options if it.value and it.value not in FILES | FOLDERS]
    others = "|".join(f"--{it.name}" for it in rest)
    function = f"_{name.replace('-', '_')}"
    cases = [f"    {others}) return ;;"]
    if files:
        cases.insert(0, f"    {files}) COMPREPLY=($(compgen -f -- \"$word\")); return ;;")
    if folders:
        cases.insert(0, f"    {folders}) COMPREPLY=($(compgen -d -- \"$word\")); return ;;")
    return "\n".join([
        f"# bash completion for {name}",
        f"{function}() {{",
        '    local word="${COMP_WORDS[COMP_CWORD]}"',
        "    COMPREPLY=()",
        '    case "${COMP_WORDS[COMP_CWORD - 1]}" in',
        *cases,
        "    esac",
        f'    COMPREPLY=($(compgen -W "{words}" -- "$word"))',
        "}",
        f"complete -F {function} {name}",
        "",
    ])


def zsh_of(name, crate):
    """The completion of a program for zsh."""
    lines = [f"#compdef {name}", "_arguments \\"]
    rows = []
    for it in options_of(crate):
        said = re.sub(r"([][:])", r"\\\1", it.help.replace("'", "'\\''"))
        many = "*" if it.is_repeated else ""
        action = "_files" if it.value in FILES else "_files -/" if it.value in FOLDERS else " "
        value = it.value.replace(":", "\\:")
        takes = f":{value}:{action}" if it.value else ""
        rows.append(f"    '{many}--{it.name}[{said}]{takes}'")
    return "\n".join([*lines, " \\\n".join(rows), ""])


def fish_of(name, crate):
    """The completion of a program for fish."""
    lines = [f"# fish completion for {name}", f"complete -c {name} -f"]
    for it in options_of(crate):
        said = it.help.replace("\\", "\\\\").replace("'", "\\'")
        kind = " -r -F" if it.value in FILES | FOLDERS else " -x" if it.value else ""
        lines.append(f"complete -c {name} -l {it.name}{kind} -d '{said}'")
    return "\n".join([*lines, ""])
