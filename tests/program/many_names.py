"""`showpkg` of one name and of many names at once, in lists of hundreds of stanzas. What is wanted is reckoned here, by the rows that
are made: of each package the rows from the newest, of each row the stanza of the first list."""

import random

COUNT = 200
SEED = 20261125
FIELDS = ((b"Pre-Depends", b"PreDepends"), (b"Depends", b"Depends"), (b"Conflicts", b"Conflicts"), (b"Breaks", b"Breaks"),
          (b"Recommends", b"Recommends"), (b"Suggests", b"Suggests"), (b"Replaces", b"Replaces"), (b"Enhances", b"Enhances"))
ALTERNATIVES = (b"Pre-Depends", b"Depends", b"Recommends", b"Suggests")


class Stanza:
    """A stanza with relations to some names."""

    def __init__(self, chance, name, version, names):
        self.name = name
        self.version = version
        self.relations = []
        for field, label in FIELDS:
            if chance.random() < 0.4:
                most = 2 if field in ALTERNATIVES else 1
                groups = [[self.atom(chance, names) for _ in range(chance.randint(1, most))] for _ in range(chance.randint(1, 3))]
                self.relations.append((field, label, groups))
        self.provides = [b"virtual-%d" % chance.randrange(3)] if chance.random() < 0.3 else []

    @staticmethod
    def atom(chance, names):
        name = chance.choice(names)
        return (name, name + chance.choice([b"", b" (>= 1)", b" (<< 3)"]))

    def text(self):
        lines = [b"Package: " + self.name, b"Version: %d" % self.version]
        lines += [field + b": " + b", ".join(b" | ".join(atom[1] for atom in group) for group in groups) for field, _, groups in self.relations]
        lines += [b"Provides: " + name for name in self.provides]
        return b"\n".join(lines) + b"\n"

    def naming(self, name):
        """The lines of its atoms with a name."""
        return [b"  %s %d %s: %s\n" % (self.name, self.version, label, text)
                for _, label, groups in self.relations for group in groups for own, text in group if own == name]


def rows_of(lists):
    """The rows by packages, in the order of their bytes, each from the newest: the stanza of the first list, and the lists that hold the row."""
    rows = {}
    for list_name, stanzas in lists:
        for stanza in stanzas:
            rows.setdefault(stanza.name, {}).setdefault(stanza.version, (stanza, []))[1].append(list_name)
    return [[own[version] for version in sorted(own, reverse=True)] for _, own in sorted(rows.items())]


def answer(rows, name):
    """What `showpkg` is to print of a name."""
    own = [row for package in rows for row in package if row[0].name == name]
    leads = [row[0] for package in rows for row in package]
    lines = [b"Package: %s\nVersions:\n" % name]
    lines += [b"%d%s\n" % (lead.version, b"".join(b" (%s)" % holder for holder in holders)) for lead, holders in own]
    lines += [b"\nReverse Depends:\n"] + [line for lead in leads for line in lead.naming(name)]
    lines += [b"Dependencies:\n"] + [b"%d %s: %s\n" % (lead.version, label, b" | ".join(atom[1] for atom in group))
                                     for lead, _ in own for _, label, groups in lead.relations for group in groups]
    lines += [b"Provides:\n"] + [b"%d %s\n" % (lead.version, provided) for lead, _ in own for provided in lead.provides]
    lines.append(b"Reverse Provides:\n")
    lines += [b"  %s %d %s\n" % (lead.name, lead.version, provided) for lead in leads for provided in lead.provides if provided == name]
    return b"".join(lines)


def made_lists(chance):
    """Two lists in no order, which share some rows, and the names that are known."""
    names = [b"package-%03d" % number for number in range(COUNT)]
    others = names + [b"virtual-%d" % number for number in range(3)]
    lists = []
    for list_name, versions in ((b"one", (1, 2)), (b"two", (2, 3))):
        stanzas = [Stanza(chance, name, version, others) for name in names for version in versions if chance.random() < 0.6]
        chance.shuffle(stanzas)
        lists.append((list_name, stanzas))
    return lists, sorted({stanza.name for _, stanzas in lists for stanza in stanzas})


def test_many_names(tests):
    lists, names = made_lists(random.Random(SEED))
    rows = rows_of(lists)
    edits = b"".join(b"add-list %s packages\n%s.\n" % (list_name, b"\n".join(stanza.text() for stanza in stanzas)) for list_name, stanzas in lists)
    wanted = b"".join(answer(rows, name) for name in names)
    at_once = edits + b"showpkg " + b" ".join(names) + b"\n"
    one_by_one = edits + b"".join(b"showpkg %s\n" % name for name in names)
    tests.same("showpkg of many names at once", tests.run([], at_once), (0, wanted, b""))
    tests.same("showpkg of many names, one by one", tests.run([], one_by_one), (0, wanted, b""))
