"""The crates of a repository, and the edits that must fail which stand beside them."""

import collections
import dataclasses
import os
import re

from . import layout

PARTS = ("src", "specs", "proofs")
FOLDERS = ("edits", "must-fail")
NAME = re.compile(r"[A-Za-z0-9_-][A-Za-z0-9_.-]*\.edit")
# Functions of which any other body doesn't end: views that lend the one value of their type that there is, which has edits where it
# is kept, and the empty map of keys and values of any type.
LENT = {
    ("ctl_index", "impl Cache", "store"),
    ("ctl_index", "impl Cache", "counters"),
    ("ctl_index", "impl<'a> KeptNamer<'a>", "copied"),
    ("ctl_ordered", "impl<K: Ord + Drop, V: Drop> Ordered<K, V>", "new"),
}


class BadEdit(Exception):
    """An edit that cannot be applied, and why."""


@dataclasses.dataclass
class Replacement:
    path: str
    old: str
    new: str


class Edit:
    """An edit of one crate: its replacements, and the function that each of them changes (None outside of functions)."""

    def __init__(self, crate, file):
        self.crate, self.file = crate, file
        self.name = os.path.basename(file)
        self.label = f"{crate.name}/{os.path.relpath(file, crate.folder)}"
        self.fault, self.replacements, self.functions, self.shares = "", [], [], False
        # The edits of the lowest rank are tried first.
        self.rank = 0
        try:
            self.replacements = read_replacements(file)
            places, self.paths = self.places({})
        except BadEdit as fault:
            self.fault = str(fault)
            return
        self.functions = [it and it[0] for it in places]
        # One that changes bodies of functions alone may share a check with others.
        self.shares = all(it and it[1] for it in places)
        self.known_as = {crate.known_as(it) for it in self.functions if it}

    def places(self, texts):
        """Returns where the replacements stand in these texts, by path, or in the crate's own, and the texts after them."""
        texts, places = dict(texts), []
        for it in self.replacements:
            text = texts.get(it.path, self.crate.texts.get(it.path))
            if text is None:
                raise BadEdit(f"there is no file {it.path}")
            if text.count(it.old) != 1:
                raise BadEdit(f"an 'old:' text is in {it.path} {text.count(it.old)} times, and not once")
            head = len(os.path.commonprefix([it.old, it.new]))
            tail = len(os.path.commonprefix([it.old[head:][::-1], it.new[head:][::-1]]))
            at = text.index(it.old)
            places.append(layout.function_at(it.path, text, at + head, at + len(it.old) - tail))
            texts[it.path] = text[:at] + it.new + text[at + len(it.old) :]
        return places, texts

    def applied(self, texts):
        """Returns these texts with the edit made, or None where it does not stand in the same functions as in the crate
        alone."""
        try:
            places, edited = self.places(texts)
        except BadEdit:
            return None
        return edited if [it and it[0] for it in places] == self.functions else None


def read_replacements(file):
    try:
        with open(file, encoding="utf-8") as it:
            lines = it.read().split("\n")
    except (OSError, UnicodeDecodeError) as error:
        raise BadEdit(f"it cannot be read: {error}") from error
    path, old, found = "", None, []
    for line in lines:
        if line.startswith("file: "):
            path = line[len("file: ") :].strip()
            if not path.startswith(tuple(f"{it}/" for it in PARTS)) or os.path.normpath(path) != path:
                raise BadEdit("a 'file:' line names no file below src/, specs/ or proofs/")
        elif line.startswith("old: "):
            old = line[len("old: ") :]
        elif line.startswith("new:"):
            if not path or not old:
                raise BadEdit("a 'new:' line stands before any 'file:' or 'old:' line")
            found.append(Replacement(path, old, line[len("new:") :].removeprefix(" ")))
            old = None
    if not found:
        raise BadEdit("it has no 'old:' and 'new:' pair")
    return found


class Crate:
    """A crate: its texts by path, the modules in which types of a name stand, and its edits."""

    def __init__(self, root, name, below):
        self.root, self.name, self.below = root, name, below
        self.folder = f"{root}/crates/{name}"
        self.texts = dict(texts_of(self.folder))
        self.modules = collections.defaultdict(set)
        for path, text in self.sources():
            for kind in layout.TYPE.findall(text):
                self.modules[kind].add("::".join(layout.module_of(path)))
        files = [f"{self.folder}/{part}/{it}" for part in FOLDERS for it in sorted(listed(f"{self.folder}/{part}"))]
        self.edits = [Edit(self, it) for it in files if NAME.fullmatch(os.path.basename(it))]
        self.misnamed = [it for it in files if not NAME.fullmatch(os.path.basename(it)) and not it.endswith(".md")]

    def sources(self):
        return [it for it in sorted(self.texts.items()) if it[0].startswith("src/") and it[0].endswith(".rt")]

    def names(self):
        return [it.name.removesuffix(".edit") for it in self.edits]

    def keep_only(self, names):
        """Forgets the edits of other names."""
        self.edits = [it for it, name in zip(self.edits, self.names()) if name in names]
        self.misnamed = []

    def known_as(self, function):
        """Returns what no two functions of one batch may share, since the lines of a check could not tell them apart."""
        return layout.block_names(function.block)[2] if function.block else function.modules, function.name

    def has_tests(self):
        return any("#[test]" in text for _, text in self.sources())

    def uncovered(self):
        """Returns the public functions that no edit changes, but for laws, tests and views of which no other body can be written."""
        changed = {function for edit in self.edits for function in edit.functions}
        inner = {it for _, text in self.sources() for it in re.findall(r"^(?:pub\([^)]*\) )?trait (\w+)", text, re.M)}
        found = []
        for path, text in self.sources():
            for it in layout.functions(path, text):
                is_test = "#[cfg(test)]" in text[: it.start] or re.search(r"#\[test\][^\n]*\n\Z", text[: it.start])
                is_lent = (self.name, it.block, it.name) in LENT
                if it not in changed and not is_lent and is_public(it, text, inner) and not is_test and not is_law(it, text):
                    found.append(it)
        return found


def is_public(function, text, inner):
    """A function of an impl of a trait is as public as the trait: `inner` are those of the crate alone."""
    return re.match(r" *pub ", text[function.start :]) or trait_of(function.block) not in {None, *inner}


def trait_of(block):
    """Returns the name of the trait of an impl, if it is of one."""
    found = re.match(r"impl\b(.*) for ", block)
    if not found:
        return None
    name, count = found[1], 1
    while count:
        name, count = re.subn(r"<[^<>]*>", "", name)
    return name.split("::")[-1].strip()


def is_law(function, text):
    """Returns whether there is nothing to a function but its contract: it has neither parameter nor result, or its body is
    empty."""
    has_nothing = re.search(r"fn \w+\(\)(?!\s*->)", text[function.start : function.body])
    lines = text[function.body : function.end].split("\n")
    return has_nothing or not any(line.strip(" {}") and not line.strip().startswith("//") for line in lines)


def texts_of(folder):
    for part in PARTS:
        for at, _, files in os.walk(f"{folder}/{part}"):
            for it in files:
                with open(f"{at}/{it}", encoding="utf-8", errors="replace") as file:
                    yield os.path.relpath(f"{at}/{it}", folder), file.read()


def listed(folder):
    return os.listdir(folder) if os.path.isdir(folder) else []


def crates_of(root):
    """Returns the name of each crate of crates.txt with the names of all crates below it, the lowest first."""
    named = {}
    with open(f"{root}/crates.txt", encoding="utf-8") as it:
        for line in it:
            name, _, libraries = line.partition("#")[0].partition(":")
            if name.strip():
                named[name.strip()] = libraries.split()

    def all_below(name):
        direct = [it for it in named[name] if it in named]
        return {*direct}.union(*map(all_below, direct))

    below = {it: all_below(it) for it in named}
    return dict(sorted(below.items(), key=lambda it: len(it[1])))
