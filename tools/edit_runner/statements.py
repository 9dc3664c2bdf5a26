"""What proofs see of a crate below: its statements. A proof above takes of a function its contract and never its body, so a changed body
changes nothing here.

It is read off the sources. The statement part of a library that `rt` builds (`interface/`, `lang/src`, `lang/antt/specs`,
`lang/antt/proofs` and their roots) is these sources too: the functions with their bodies cut, and the files of specs and proofs as
they are. Taken from the sources it needs no build, and is the same in every clone."""

import os
import re

from . import layout

MODULE = re.compile(r"(?m)^\s*(?:pub )?mod (\w+)")
# An import for the crate's own use, on one line, and what it names in braces.
IMPORT = re.compile(r"(\s*(?:ghost )?use [^;{}]*)(?:\{([^{}]*)\})?;")


def statements(texts):
    """Returns the texts of a crate, by path, with what no crate above can see left out."""
    read = lemma_files(texts)
    seen = {path: text for path, text in texts.items() if path.startswith("specs/") or path in read}
    for path, text in texts.items():
        if path.startswith("src/") and path.endswith(".rt"):
            seen[path] = without_bodies(path, text)
    return seen


def lemma_files(texts):
    """Returns the files of proofs/ that can be cited: those that the root names, and those that these name. Beside them stand the
    invariants and answers of single functions, which belong to their bodies."""
    left, found = ["proofs/Lib.antt"], set()
    while left:
        path = left.pop()
        if path in found or path not in texts:
            continue
        found.add(path)
        folder = os.path.dirname(path) if path == "proofs/Lib.antt" else path.removesuffix(".antt")
        left += [f"{folder}/{name}.antt" for name in MODULE.findall(texts[path])]
    return found


def without_bodies(path, text):
    """Returns a source without the bodies of its functions, without functions that are the crate's own, and without comments on lines of
    their own. What the layout doesn't show to be a function stays whole, and so does one that a constant may be made by."""
    kept, at = [], 0
    for it in layout.functions(path, text):
        head = text[it.start : it.body]
        if re.match(r"\s*(?:pub(?:\([^)]*\))? )?const fn", head):
            continue
        before = text[at : it.start]
        kept += [before, head] if is_seen(it, head) else [without_attributes(before)]
        at = it.end
    return without_imports(without_comments("".join([*kept, text[at:]])))


def is_seen(function, head):
    """Returns whether crates above may call a function: a public one, or one of a trait or of an impl of a trait."""
    return bool(re.match(r"\s*pub ", head)) or function.block.startswith("trait") or " for " in function.block


def without_attributes(before):
    """Returns a text without the attributes and comments at its end: they are those of the function behind it."""
    lines = before.split("\n")
    while len(lines) > 1 and re.match(r"\s*(#\[|//)", lines[-2]):
        del lines[-2]
    return "\n".join(lines)


def without_imports(text):
    """Returns a text without the imported names that nothing else of it has: bodies alone use those."""
    rows = [(line, IMPORT.fullmatch(line)) for line in text.split("\n")]
    rest = "\n".join(line for line, found in rows if not found)
    kept = []
    for line, found in rows:
        if found and found[2] is None:
            kept += [line] if is_named(found[1], rest) else []
        elif found:
            names = [it.strip() for it in found[2].split(",") if it.strip() and is_named(it, rest)]
            kept += [f"{found[1]}{{{', '.join(names)}}};"] if names else []
        else:
            kept.append(line)
    return "\n".join(kept)


def is_named(imported, text):
    """Returns whether a text may have the name that an import gives. An operator is written apart from its arguments, `◌+◌` as `+`."""
    name = re.split(r"::|\.|\s", imported.strip())[-1].strip("◌")
    return name in ("*", "self") or any(it in text for it in (name.split("◌")))


def without_comments(text):
    return "\n".join(line.rstrip() for line in text.split("\n") if line.strip() and not line.strip().startswith("//"))
