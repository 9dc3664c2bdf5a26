"""Relation fields: the syntax of Debian Policy 7.1, and when an offer meets a relation (7.1, 7.5).

A field is groups parted by commas; a group is alternatives parted by bars; an alternative is a name, perhaps with a qualifier, and
perhaps a relation to a version in parentheses."""

from versions import DIGITS, LETTERS, NAME, is_name, is_related, read_version

EIGHT = [b"Pre-Depends", b"Depends", b"Conflicts", b"Breaks", b"Recommends", b"Suggests", b"Replaces", b"Enhances"]
NINE = EIGHT + [b"Provides"]
DEPENDENCIES = [b"Pre-Depends", b"Depends", b"Recommends", b"Suggests"]
NO_ALTERNATIVES = [b"Conflicts", b"Breaks", b"Replaces", b"Provides"]

BLANKS = b" \t\n"
QUALIFIER = LETTERS + DIGITS + b"-"

# The longest one that fits is taken. The last two are old spellings of `<=` and `>=`.
OPERATORS = [b"<<", b"<=", b">=", b">>", b"=", b"<", b">"]
MEANING = {b"<": b"<=", b">": b">="}

FAULTS = ["name", "operator", "version", "close", "alternative", "operator of Provides"]


class RelationFault(Exception):
    """The first place where a body isn't a relation field: what is wrong there, as a word and as its number from 1 on."""

    def __init__(self, what):
        super().__init__(what)
        self.number = FAULTS.index(what) + 1


class Atom:
    """One alternative: a name, a qualifier or none, an operator and a version or none."""

    def __init__(self, name, qualifier, operator, version):
        self.name = name
        self.qualifier = qualifier
        self.operator = operator
        self.version = version


class Offer:
    """A name that a stanza offers, at a version or at none."""

    def __init__(self, name, version):
        self.name = name
        self.version = version


def met_by(atom, offer):
    """Whether an offer meets an alternative. An offer without a version meets none that asks for one. Qualifiers play no part."""
    if atom.name != offer.name:
        return False
    if atom.operator is None:
        return True
    return offer.version is not None and is_related(offer.version, atom.operator, atom.version)


class Reader:
    """Reads a body from left to right."""

    def __init__(self, body, kind):
        self.body = body
        self.kind = kind
        self.at = 0

    def next(self):
        """The next byte; none at the end."""
        return self.body[self.at:self.at + 1]

    def skip_blanks(self):
        self.run(BLANKS)

    def run(self, allowed):
        """Takes the longest run of some bytes."""
        first = self.at
        while self.at < len(self.body) and self.body[self.at] in allowed:
            self.at += 1
        return self.body[first:self.at]

    def field(self):
        """All groups. Nothing between two commas is left out."""
        groups = []
        while True:
            self.skip_blanks()
            if self.next() not in (b"", b","):
                groups.append(self.group())
            if self.next() == b"":
                return groups
            if self.next() != b",":
                raise RelationFault("name")
            self.at += 1

    def group(self):
        """Alternatives, and the blanks behind them."""
        atoms = [self.atom()]
        while self.next() == b"|":
            if self.kind in NO_ALTERNATIVES:
                raise RelationFault("alternative")
            self.at += 1
            self.skip_blanks()
            atoms.append(self.atom())
        return atoms

    def atom(self):
        """An alternative, and the blanks behind it."""
        name = self.run(NAME)
        if not is_name(name):
            raise RelationFault("name")
        qualifier = None
        if self.next() == b":":
            self.at += 1
            qualifier = self.run(QUALIFIER)
            if qualifier == b"":
                raise RelationFault("name")
        self.skip_blanks()
        operator, version = self.bound() if self.next() == b"(" else (None, None)
        self.skip_blanks()
        return Atom(name, qualifier, operator, version)

    def bound(self):
        """An operator and a version in parentheses."""
        self.at += 1
        self.skip_blanks()
        operator = self.operator()
        self.skip_blanks()
        first = self.at
        while self.next() not in (b"", b" ", b"\t", b"\n", b")"):
            self.at += 1
        version = read_version(self.body[first:self.at])
        if version is None:
            raise RelationFault("version")
        self.skip_blanks()
        if self.next() != b")":
            raise RelationFault("close")
        self.at += 1
        return operator, version

    def operator(self):
        for operator in OPERATORS:
            if self.body.startswith(operator, self.at):
                self.at += len(operator)
                if self.kind == b"Provides" and operator != b"=":
                    raise RelationFault("operator of Provides")
                return MEANING.get(operator, operator)
        raise RelationFault("operator")


def parse_relations(body, kind):
    """The groups of a body of one of the nine fields."""
    return Reader(body, kind).field()


def print_atom(atom):
    text = atom.name
    if atom.qualifier is not None:
        text += b":" + atom.qualifier
    if atom.operator is not None:
        text += b" (" + atom.operator + b" " + atom.version.text + b")"
    return text


def print_group(group):
    return b" | ".join(print_atom(atom) for atom in group)


def printed_field(kind):
    """The name of a field as apt-cache prints it: without its hyphen."""
    return kind.replace(b"-", b"")
