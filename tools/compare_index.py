#!/usr/bin/env python3
"""Compares what a kept cache tells after edits with a reference program.

    tools/compare_index.py [SEQUENCES]

The reference program of tests/reference says what an edit makes of a state, how many tests of an offer against an atom it takes
(`pairs`), and which names are known, offers stand and atoms are met in a state. The edits are generated: sequences of them over few names, which depend on each other in all fields, with small limits at times. After each edit the
names, the offers and the namers of each name, the numbers of all clauses, those at 0, the names of packages with some prefix, the
rows of each package with their priorities, what is installed and would be, and the count of tests are compared.
Each twentieth sequence puts and removes stanzas of one list beside one that stays, of which the first grows to hundreds and
shrinks; there the count of tests is compared after each edit, and the rest now and then. `rt run` in crates/probe builds the
program that is compared.
"""

import reference
from answers import compare, tell
from edit_sequences import GROWTH, LISTS, PACKAGES, VERSIONS, Keys
from edit_sequences import generate_change, generate_edit, generate_sequences, head_lines, outcome_of, probe, read, read_words

SEQUENCES = 1000
SEED = 20261123

# How many names a long sequence has, and how many edits there are between two looks at the tables.
LONG_NAMES = 120
LONG_EDITS = 40

VIRTUAL = [b"v", b"mta", b"x+y", b"zz"]
NAMES = PACKAGES + VIRTUAL
OPERATORS = ["<<", "<=", "=", ">=", ">>"]
FIELDS = {"Pre-Depends": 0.2, "Depends": 0.7, "Conflicts": 0.2, "Breaks": 0.1, "Recommends": 0.3, "Suggests": 0.2, "Replaces": 0.1, "Enhances": 0.15}
NO_ALTERNATIVES = ("Conflicts", "Breaks", "Replaces")


def generate_atom(source, names):
    """An atom, at times with a qualifier and a bound."""
    atom = source.choice(names).decode() + source.choice(["", "", "", ":any"])
    if source.random() < 0.45:
        atom += f" ({source.choice(OPERATORS)} {source.choice(VERSIONS).decode()})"
    return atom


def generate_relations(source, names):
    """The lines of relation fields."""
    lines = []
    for field, chance in FIELDS.items():
        if source.random() < chance:
            most = 1 if field in NO_ALTERNATIVES else 3
            groups = [" | ".join(generate_atom(source, names) for _ in range(source.randint(1, most))) for _ in range(source.randint(1, 3))]
            lines.append(f"{field}: " + ", ".join(groups))
    if source.random() < 0.6:
        entries = [source.choice(names).decode() + source.choice(["", "", f" (= {source.choice(VERSIONS).decode()})"]) for _ in range(source.randint(1, 3))]
        lines.append("Provides: " + ", ".join(entries))
    return lines


def related_stanza(source, kind):
    """A stanza with relation fields."""
    return "\n".join(head_lines(source, kind) + generate_relations(source, NAMES)) + "\n"


def named_related_stanza(source, names):
    """A stanza of one of these names, of one of two versions, that names some others."""
    few = [name.encode() for name in source.sample(names, 3)] + VIRTUAL[:1]
    lines = [f"Package: {source.choice(names)}", f"Version: {source.choice(['1', '2'])}"]
    return "\n".join(lines + generate_relations(source, few)) + "\n"


def keyed_stanzas(state, keys):
    """The live stanzas under their keys, in order."""
    for entry in state.lists:
        for key, stanza in zip(keys.of(entry.name), entry.stanzas, strict=True):
            if stanza.live:
                yield key, stanza


def offer_words(key, stanza):
    for offer in stanza.offers:
        version = "-" if offer.version is None else "@" + offer.version.text.hex()
        yield f"offer={offer.name.hex()}:{key}{version}"


def namer_words(key, stanza):
    for field in reference.EIGHT:
        for at, group in enumerate(stanza.groups(field)):
            for place, atom in enumerate(group):
                yield f"namer={atom.name.hex()}:{key}.{reference.printed_field(field).decode()}.{at}.{place}"


def tables_words(state, keys):
    """The tables of a state as the probe prints them, with offers and namers in the order of their words."""
    view = reference.View(state)
    offers, namers, counters, unmet = [], [], [], []
    for key, stanza in keyed_stanzas(state, keys):
        offers += offer_words(key, stanza)
        namers += namer_words(key, stanza)
        for field, at, group in stanza.clauses():
            clause = f"{key}.{reference.printed_field(field).decode()}.{at}"
            number = sum(reference.met_by(atom, offer) for atom in group for _, offer in view.offers(atom.name))
            counters.append(f"counter={clause}:{number}")
            if number == 0:
                unmet.append(f"unmet={clause}")
    names = [f"name={name.hex()}" for name in view.known_names()]
    return " ".join(["views", *names, *sorted(offers), *sorted(namers), *counters, *unmet])


def rows_by_class(state, keys):
    """The keys of the stanzas of each row, by its package and the key of its version."""
    rows = {}
    for key, stanza in keyed_stanzas(state, keys):
        rows.setdefault((stanza.package, stanza.version.key), []).append(key)
    return rows


def policies_words(state, keys):
    """The policies of a state as the probe prints them."""
    view = reference.View(state)
    rows = rows_by_class(state, keys)

    def lead(package, row):
        return "-" if row is None else rows[package, row.version.key][0]

    packages, chosen = [], []
    for name in view.packages():
        choice = f"{name.hex()}:{lead(name, view.installed(name))}:{lead(name, view.candidate(name))}"
        packages.append(f"package={choice}")
        chosen.append(f"chosen={choice}")
        for row in view.rows(name):
            priority, pinned = view.row_priority(row)
            packages.append(f"row={'+'.join(rows[name, row.version.key])}:{priority}{'!' if pinned else ''}")
    lists = [f"list={entry.name.hex()}:{view.list_priority(entry)}" for entry in state.lists]
    return " ".join(["policies", *lists, *packages, *chosen])


def in_order(answer):
    """An answer of the probe, with offers and namers, which come in any order, in the order of their words."""
    if not answer.startswith("views"):
        return answer
    words = answer.split(" ")
    offers = sorted(word for word in words if word.startswith("offer="))
    namers = sorted(word for word in words if word.startswith("namer="))
    first = [word for word in words if word == "views" or word.startswith("name=")]
    last = [word for word in words if word.startswith(("counter=", "unmet="))]
    return " ".join(first + offers + namers + last)


class Followed:
    """A state that edits change, with its keys and the count of tests."""

    def __init__(self, limits):
        self.limits = limits
        self.state = reference.State()
        self.keys = Keys()
        self.pairs = 0
        self.tests = 0

    def outcome(self, edit):
        """Makes an edit, and gives the answer to it."""
        try:
            after = reference.step(self.state, self.limits, edit)
        except reference.Refused as refused:
            return f"refused {refused.number} {self.tests}"
        mid = reference.pairs(reference.without_removed(self.state, edit))
        pairs = reference.pairs(after)
        self.tests += self.pairs - mid + pairs - mid
        self.pairs = pairs
        self.keys.after(edit, self.state)
        self.state = after
        return f"ok {self.tests}"

    def looks(self, source):
        """What is asked behind an edit, each with its answer."""
        prefix = source.choice([b"", b"", b"a", b"ab", b"p1", b"v"])
        packages = [name for name in reference.View(self.state).packages() if name.startswith(prefix)]
        return [
            ("views", tables_words(self.state, self.keys)),
            ("policies", policies_words(self.state, self.keys)),
            (f"packages\t{prefix.hex()}", " ".join(["packages"] + [name.hex() for name in packages])),
        ]


def generate_sequence(source):
    """The lines of a sequence, each with what is to be printed for it."""
    small = source.random() < 0.3
    stanzas = source.randrange(12) if small else 4_294_967_295
    edits = source.choice([source.randrange(30), 4_294_967_295]) if small else 4_294_967_295
    followed = Followed(reference.Limits(stanzas, edits))
    told = [(f"limits\t{stanzas}\t{edits}", "new"), *followed.looks(source)]
    for _ in range(source.randrange(5, 50)):
        edit, words = generate_edit(source, followed.state, related_stanza)
        told.append(("\t".join(words), followed.outcome(edit)))
        told += followed.looks(source)
    return told


def added(name, text):
    """The edit that adds a list, and its words."""
    return ("add-list", name, reference.PACKAGES, "plain", read(text, "packages")), ["add-list", name.hex(), "packages", "plain", text.encode().hex()]


def generate_long_sequence(source):
    """The lines of many edits of one list, which grows, shrinks to a few stanzas and grows again beside another."""
    followed = Followed(reference.Limits())
    names = [f"p{number}" for number in range(LONG_NAMES)]
    texts = ["\n".join(named_related_stanza(source, names) for _ in range(size)) for size in (source.choice([0, 1, 64, 65, 150]), 40)]
    told = [("limits\t4294967295\t4294967295", "new")]
    edits = [added(name, text) for name, text in zip(LISTS, texts)]
    for growth in GROWTH:
        for _ in range(LONG_EDITS):
            edit, words = edits.pop(0) if edits else generate_change(source, followed.state, names, growth, named_related_stanza)
            told.append(("\t".join(words), followed.outcome(edit)))
        told += followed.looks(source)
    for entry in followed.state.lists:
        told.append((f"drop-list\t{entry.name.hex()}", followed.outcome(("drop-list", entry.name))))
        told += followed.looks(source)
    return told


def main():
    count = read_words(__doc__, SEQUENCES)
    told = generate_sequences(SEED, count, generate_sequence, generate_long_sequence)
    answers = [in_order(answer) for answer in probe("index", (line for line, _ in told))]
    outcomes, wrong = compare(told, answers, lambda line, wanted: outcome_of(line, wanted, ("limits", "views", "policies", "packages"), "refused"))
    looks = sum(line == "views" for line, _ in told)
    tell(outcomes, f"{count} sequences, {sum(outcomes.values())} edits, {looks} looks at the tables, {wrong} answers are others", wrong)


if __name__ == "__main__":
    main()
