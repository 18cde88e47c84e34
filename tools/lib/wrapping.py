"""Texts of definitions and proofs with their long lines broken, as `rattle fmt` lays them out."""
import json
import pathlib
import subprocess
import tempfile

from lib.layout import meaning_of, wrapped_once

MOST_STEPS = 100  # in which the lines of a text are short enough, or as short as they get


def text_of(file):
    return file.read_text(encoding="utf-8")


def laid_out(files):
    """Lays out these files in place. Answers those that don't parse, each with the reason."""
    words = ["rattle", "fmt", "--write", *map(str, files)]
    done = subprocess.run(words, capture_output=True, text=True, check=False)
    lines = [*done.stdout.splitlines(), *done.stderr.splitlines()]
    said = {it: [line for line in lines if line.startswith(f"{it}:")] for it in files}
    faults = {it: some[0].partition(": ")[2] for it, some in said.items() if some}
    return faults if faults or done.returncode == 0 else dict.fromkeys(files, "\n".join(lines))


def tokens_of(files):
    """The tokens of each file, as a check reads them."""
    words, found = ["rattle", "fmt", "--tokens", *map(str, files)], []
    lines = subprocess.run(words, capture_output=True, text=True, check=True).stdout.splitlines()
    for line in lines:
        if line.startswith("file "):
            found.append([])
        else:
            found[-1].append(json.loads(line.split(" ", 4)[4]))
    return found


def wrapped_in_place(files):
    """Breaks the long lines of these files, step by step. Answers those that don't parse then."""
    faults, waiting = {}, files
    for _ in range(MOST_STEPS):
        texts = {it: text_of(it) for it in waiting if it not in faults}
        broken = {it: wrapped_once(text) for it, text in texts.items()}
        waiting = [it for it, text in broken.items() if text != texts[it]]
        for it in waiting:
            it.write_text(broken[it], encoding="utf-8")
        if not waiting:
            break
        faults.update(laid_out(waiting))
        waiting = [it for it in waiting if it not in faults and text_of(it) != texts[it]]
    return faults


def wrapped(texts):
    """Each text with its long lines broken, and nothing; or as it was, and why it is left so."""
    with tempfile.TemporaryDirectory() as folder:
        old = [pathlib.Path(folder) / f"old-{at}.antt" for at, _ in enumerate(texts)]
        new = [it.with_name(it.name.replace("old", "new")) for it in old]
        for files in (old, new):
            for file, text in zip(files, texts):
                file.write_text(text, encoding="utf-8")
        faults = wrapped_in_place(new)
        pairs = [pair for pair in zip(old, new) if pair[1] not in faults]
        tokens = tokens_of([it for pair in pairs for it in pair]) if pairs else []
        for (_, file), before, after in zip(pairs, tokens[::2], tokens[1::2]):
            if meaning_of(before) != meaning_of(after):
                faults[file] = "its tokens would be others"
        found = zip(texts, new)
        return [(old if it in faults else text_of(it), faults.get(it, "")) for old, it in found]
