#!/usr/bin/env python3
"""generate.py SEED [--long]

Writes a generated script for dctrl-cache: all edits and queries, filters, faults of every kind, marks, pins, classes of lists, the
target and preferences, over few names that depend on each other, of which some are hostile, with versions that are equal in other
words. Scripts of --long have hundreds of commands, lists of many stanzas, and lines about as long as may be. The same words give the
same bytes."""

import random
import sys

from generate_texts import LONGEST, Texts
from generate_words import EXPRESSIONS, LISTS, PACKAGES, WRONG_EXPRESSIONS, WRONG_NAMES, WRONG_PREFIXES
from queries import is_query
from session import Session

COMMANDS = 90
LONG_COMMANDS = 260
LONG_NAMES = [b"p%d" % number for number in range(24)]

ODD_LINES = [b"frob", b"frob 'x", b"Pkgnames", b"pkgnames\r", b"'pkgnames'", b".", b"unmet.", b"add-lists", b"\xff", b"-h", b"help",
             b"search a", b"\x0bpkgnames"]
SKIPPED_LINES = [b"", b" ", b"\t \t", b"# comment", b"  # 'x", b"\t#"]
NOT_QUOTED = b"abcdefghijklmnopqrstuvwxyzABCDEFGHIJKLMNOPQRSTUVWXYZ0123456789+-._*=~:,()!|^$[]{}?\\<>@/"
COMPARISONS = [b"--eq", b"--lt", b"--le", b"--gt", b"--ge"]
PATTERNS = [b"a", b"foo", b"FOO", b"mta", b"1.0", b"", b"x_y", b"A", b"-", b"Package: a", b"install", b"\xff", b"2.0-1", b"1", b"x\t", b"'"]


class Script:
    """A script that grows command by command. Its edits are made in a session of the reference program, so that what is there is known."""

    def __init__(self, seed, is_long):
        self.source = random.Random(f"{seed} {is_long}")
        packages = PACKAGES[:6] + LONG_NAMES if is_long else PACKAGES
        self.texts = Texts(self.source, self.source.choice([0.0, 0.01, 0.03, 0.06]), packages)
        self.is_long = is_long
        self.parts = []
        self.session = Session()

    def chance(self, likely):
        return self.source.random() < likely

    @property
    def state(self):
        return self.session.state

    def stanzas(self):
        """The stanzas that are there, each with the name of its list."""
        return [(entry.name, stanza) for entry in self.state.lists for stanza in entry.stanzas]

    # ---- lines

    def quoted(self, word):
        """A word as it stands in a line: with quotes where it needs them, and at times where it doesn't."""
        word = word.replace(b"'", b"")
        if word == b"":
            return self.source.choice([b"''", b"''''"])
        at = self.source.randrange(len(word) + 1)
        if all(byte in NOT_QUOTED for byte in word):
            if self.chance(0.9):
                return word
            return self.source.choice([b"'" + word + b"'", word[:at] + b"''" + word[at:], word[:at] + b"'" + word[at:] + b"'"])
        return b"'" + word[:at] + self.source.choice([b"", b"", b"''"]) + word[at:] + b"'"

    def changed(self, words):
        """Words with one that is left out, taken twice, moved, or of another kind."""
        words = list(words)
        at = self.source.randrange(len(words) + 1)
        way = self.source.randrange(5)
        if way == 0 and words:
            del words[self.source.randrange(len(words))]
        elif way == 1 and words:
            words.insert(at, self.source.choice(words))
        elif way == 2:
            self.source.shuffle(words)
        elif way == 3:
            words.insert(at, self.source.choice([b"-x", b"--installed", b"-i", b"--all", b"none", b"-", b"--"]))
        elif words:
            words[at - 1] = self.source.choice(WRONG_NAMES + WRONG_PREFIXES)
        return words

    def command(self, name, words, body=None):
        """Puts a command in, and its body with the line that ends it."""
        if self.chance(self.texts.wrong / 2 + 0.01):
            words = self.changed(words)
        blank = self.source.choice([b" "] * 12 + [b"\t", b"  "])
        line = self.source.choice([b""] * 12 + [b" ", b"\t"]) + blank.join([name] + [self.quoted(word) for word in words])
        if self.chance(self.texts.wrong / 8):
            line += self.source.choice([b" 'x", b"\r", b" \r"])
        text = line + self.source.choice([b""] * 12 + [b" "]) + b"\n"
        if body is not None:
            text += body + (b"" if body == b"" or body.endswith(b"\n") else b"\n") + b".\n"
        self.parts.append(text)
        if not is_query(name):
            self.session.run(text)

    # ---- edits

    def list_name(self):
        names = [entry.name for entry in self.state.lists]
        if names and self.chance(0.95):
            return self.source.choice(names)
        return self.texts.pick(LISTS, WRONG_NAMES)

    def add_list(self):
        names = [name for name in LISTS if self.state.find(name) is None or self.chance(0.05)]
        name = self.source.choice(names or LISTS)
        has_status = any(entry.kind == "status" for entry in self.state.lists)
        kind = "status" if self.chance(0.03 if has_status else 0.4) else "packages"
        words = [self.texts.pick([name], WRONG_NAMES), kind.encode()]
        if self.chance(0.3 if kind == "packages" else 0.03):
            words.append(self.texts.pick([b"notauto", b"butauto"], [b"plain", b"auto", b""]))
        count = self.source.choice([10, 20, 40] if self.is_long else [0, 1, 2, 3, 4, 6])
        self.command(b"add-list", words, self.texts.stanzas(kind, count))

    def drop_list(self):
        self.command(b"drop-list", [self.list_name()])

    def put(self):
        name = self.list_name()
        entry = self.state.find(name)
        kind = "packages" if entry is None else entry.kind
        body = self.texts.stanza(kind)
        if self.chance(self.texts.wrong / 2):
            body = self.source.choice([b"", body + b"\n" + self.texts.stanza(kind)])
        self.command(b"put", [name], body)

    def remove(self):
        """Most often a stanza that is there, at times by another version that may be equal."""
        name, package, version = self.list_name(), self.texts.package(), self.texts.version()
        if self.stanzas() and self.chance(0.8):
            name, stanza = self.source.choice(self.stanzas())
            package = stanza.package
            version = version if stanza.version is None or self.chance(0.3) else stanza.version.text
        self.command(b"remove", [name, package, version])

    def mark(self):
        package, version = self.texts.name(), self.texts.version()
        if self.stanzas() and self.chance(0.7):
            stanza = self.source.choice(self.stanzas())[1]
            package = stanza.package
            version = version if stanza.version is None or self.chance(0.4) else stanza.version.text
        self.command(b"mark", [package, b"none" if self.chance(0.15) else version])

    def unmark(self):
        marked = list(self.state.marks)
        self.command(b"unmark", [self.source.choice(marked) if marked and self.chance(0.9) else self.texts.name()])

    def pin_that_is_there(self):
        form, package, value = self.source.choice(self.state.pins)[0]
        return [b"*" if package is None else package, form.encode(), value]

    def selector(self):
        if self.state.pins and self.chance(0.3):
            return self.pin_that_is_there()
        form = self.source.choice([b"version", b"version", b"release"])
        package = self.texts.pinned_package()
        if form == b"release":
            return [b"*" if self.chance(0.5) else package, form, self.list_name()]
        return [self.texts.pick([package], [b"*"]), form, self.texts.pin_version()]

    def pin(self):
        self.command(b"pin", self.selector() + [self.texts.priority()])
        self.look_at_pins()

    def unpin(self):
        """A pin goes, and at times goes once more."""
        selector = self.pin_that_is_there() if self.state.pins and self.chance(0.85) else self.selector()
        for _ in range(self.source.choice([1, 1, 2])):
            self.command(b"unpin", selector)
        self.look_at_pins()

    def look_at_pins(self):
        """At times, what the pins that are there give."""
        if self.chance(0.3):
            self.command(b"policy", self.texts.pinned if self.chance(0.5) else [])

    def target(self):
        self.command(b"target", [b"none" if self.chance(0.3) else self.list_name()])

    def prefs(self):
        self.command(b"prefs", [], self.texts.records())
        self.look_at_pins()
        if self.state.pins and self.chance(0.3):
            self.unpin()

    # ---- queries

    def query(self, name, options, most, fewest=0, word=None):
        """A query with some of its options and some words among them."""
        words = [option for option in options if self.chance(0.35)]
        words += [(word or self.texts.name)() for _ in range(self.source.randint(fewest, most))]
        self.source.shuffle(words)
        self.command(name, words)

    def show_word(self):
        name = self.texts.name()
        return name if self.chance(0.6) else name + b"=" + self.texts.version()

    def prefix(self):
        name = self.texts.name()
        return name[:self.source.randrange(len(name) + 1)].lstrip(b"-")

    def pkgnames(self):
        self.query(b"pkgnames", [b"--all-names"], 1, 0, self.prefix)

    def show(self):
        self.query(b"show", [b"-a", b"--all-versions", b"--no-all-versions"], 3, 1, self.show_word)

    def depends(self):
        self.query(b"depends", [self.source.choice([b"-i", b"--important"]), b"--installed"], 3, 1)

    def rdepends(self):
        self.query(b"rdepends", [b"--installed"], 3, 1)

    def unmet(self):
        self.query(b"unmet", [self.source.choice([b"-i", b"--important"])], 0)

    def policy(self):
        self.query(b"policy", [], 3)

    def showpkg(self):
        self.query(b"showpkg", [], 3, 1)

    # ---- filters

    def pattern(self):
        pattern = self.texts.version() if self.chance(0.3) else self.texts.package() if self.chance(0.3) else self.source.choice(PATTERNS)
        if self.chance(0.1) or pattern.startswith(b"-") or pattern in (b"!", b"(", b")"):
            return b"--pattern=" + pattern
        return pattern

    def atom(self):
        """The words of an atom."""
        words = []
        if self.chance(0.6):
            words += self.source.choice([[b"-P"], [b"-F", self.texts.fields()], [b"-F" + self.texts.fields()]])
        method = self.texts.pick([b"", b"", b"-X", b"--rx", b"--rx", self.source.choice(COMPARISONS)], [b"-z", b"-X", b"--exact", b"-Pa"])
        words += [method] if method else []
        if self.chance(self.texts.wrong / 2):
            words.append(self.source.choice([b"-X", b"--rx", b"--eq"]))
        if self.chance(0.25):
            words.insert(self.source.randrange(len(words) + 1) if words[:1] != [b"-F"] else 0, b"-i")
        return words + [self.texts.pick(EXPRESSIONS, WRONG_EXPRESSIONS) if method == b"--rx" else self.pattern()]

    def expression(self, depth):
        if depth == 0 or self.chance(0.4):
            return self.atom()
        way = self.source.randrange(4)
        if way == 0:
            return [b"!"] * self.source.choice([1, 1, 2]) + self.expression(depth - 1)
        if way == 1:
            return [b"("] + self.expression(depth - 1) + [b")"]
        words = self.expression(depth - 1)
        for _ in range(self.source.choice([1, 1, 2])):
            words += [self.source.choice([b"-a", b"-o"])] + self.expression(depth - 1)
        return words

    def filter(self):
        if self.chance(0.02):
            depth = self.source.choice([50, 99, 100, 101])
            signs = [self.source.choice([b"!", b"("]) for _ in range(depth)]
            words = signs + [b"-P", b"a"] + [b")"] * signs.count(b"(")
        else:
            words = self.expression(2)
        options = [[b"-s" + self.texts.fields()], [b"-s", self.texts.fields()], [b"-c"], [b"-c"], [b"-d"], [b"-v"], [b"-n"], [b"-vc"],
                   [b"-nsPackage"], [b"-dns", b"Package"]]
        for option in self.source.sample(options, self.source.choice([0, 1, 1, 2])):
            words = option + words if self.chance(0.6) else words + option
        self.command(b"grep-dctrl", words)

    # ---- what is no command, and lines that are too long

    def odd(self):
        self.parts.append(self.source.choice(ODD_LINES if self.chance(0.3) else SKIPPED_LINES) + b"\n")

    def long_line(self):
        """A line about as long as may be: outside a body, or in one."""
        more = self.source.choice([0, 1])
        way = self.source.randrange(5)
        if way == 0:
            head = self.source.choice([b"# ", b"pkgnames ", b"  ", b"add-list x packages "])
            self.parts.append(head.ljust(LONGEST + more) + b"\n")
            if head.startswith(b"add-list") and not more:
                self.parts.append(b".\n")
        elif way == 1:
            self.command(b"prefs", [], b"#" + b"x" * (LONGEST + more - 1))
        elif way == 2:
            self.command(b"add-list", [b"long", b"packages"], self.texts.long_stanza())
        else:
            self.command(b"put", [self.list_name()], self.texts.long_stanza())

    def looks(self):
        """Questions that tell all of a state."""
        for line in (b"policy", b"unmet", b"grep-dctrl -nsPackage,Version ''", b"pkgnames --all-names"):
            self.parts.append(line + b"\n")
        names = self.source.sample(self.texts.packages, min(5, len(self.texts.packages)))
        for query in (b"policy", b"showpkg", b"depends", b"rdepends"):
            self.parts.append(query + b" " + b" ".join(names) + b"\n")


EDITS = {"put": 14, "add_list": 3, "drop_list": 1, "remove": 5, "mark": 5, "unmark": 2, "pin": 7, "unpin": 3, "target": 3, "prefs": 3}
QUERIES = {"pkgnames": 2, "show": 4, "depends": 4, "rdepends": 3, "unmet": 4, "policy": 6, "showpkg": 2, "filter": 7, "odd": 3}


def script(seed, is_long=False):
    """The bytes of a script."""
    made = Script(seed, is_long)
    chances = {**EDITS, **QUERIES}
    for _ in range(2):
        made.add_list()
    count = LONG_COMMANDS if is_long else made.source.randrange(10, COMMANDS)
    long_lines = set(made.source.sample(range(count), 3)) if is_long else set()
    for at in range(count):
        if at in long_lines:
            made.long_line()
        getattr(made, made.source.choices(list(chances), list(chances.values()))[0])()
        if made.chance(0.03):
            made.looks()
    made.looks()
    if made.chance(0.1):
        made.parts.append(made.source.choice([b"put main\nPackage: a\n", b"prefs x", b"add-list 'x\n\n", b"unmet"]))
    return b"".join(made.parts)


def main(words):
    is_long = "--long" in words
    seeds = [word for word in words if word != "--long"]
    if len(seeds) != 1:
        raise SystemExit(__doc__)
    sys.stdout.buffer.write(script(seeds[0], is_long))


if __name__ == "__main__":
    main(sys.argv[1:])
