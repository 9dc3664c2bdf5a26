"""Which versions of a package there are, which is installed, and which would be: apt_preferences(5) over a state.

Nothing is kept: each question is a search through all lists."""

from control import STATUS
from relations import EIGHT, met_by
from state import place_of_edit
from versions import Version

TARGET_PRIORITY = 990
STATUS_PRIORITY = 100
CLASS_PRIORITIES = {"plain": 500, "notauto": 1, "butauto": 100}
DOWNGRADE = 1000


class Row:
    """A version of a package: the stanzas of equal versions, and the lists that hold one of them, each once. It is shown by its lead,
    the first of them, which also gives its text."""

    def __init__(self, lead):
        self.lead = lead
        self.version = lead.version
        self.stanzas = []
        self.sources = []


def newest_first(rows):
    """Each row behind those that are newer. Rows are few, so each is put in its place in turn."""
    ordered = []
    for row in rows:
        place = 0
        while place < len(ordered) and ordered[place].version.order(row.version) > 0:
            place += 1
        ordered.insert(place, row)
    return ordered


class View:
    """The questions about a state."""

    def __init__(self, state):
        self.state = state
        self.live = [(entry, stanza) for entry in state.lists for stanza in entry.stanzas if stanza.live]
        self.offered = [(stanza, offer) for _, stanza in self.live for offer in stanza.offers]

    def packages(self):
        """The names that have a row, in the order of their bytes."""
        return sorted({stanza.package for _, stanza in self.live})

    def known_names(self):
        """The names that have a row, are offered, or are named in one of the eight fields, in the order of their bytes."""
        names = {offer.name for _, offer in self.offered}
        for _, stanza in self.live:
            names |= {atom.name for field in EIGHT for group in stanza.groups(field) for atom in group}
        return sorted(names)

    def rows(self, name):
        """The rows of a name, newest first."""
        rows = []
        for entry, stanza in self.live:
            if stanza.package != name:
                continue
            same = [row for row in rows if row.version.equals(stanza.version)]
            row = same[0] if same else Row(stanza)
            if not same:
                rows.append(row)
            row.stanzas.append(stanza)
            if entry not in row.sources:
                row.sources.append(entry)
        return newest_first(rows)

    def row(self, name, version):
        """The row of an equal version, or nothing."""
        for row in self.rows(name):
            if row.version.equals(version):
                return row
        return None

    def has_row(self, name):
        return any(stanza.package == name for _, stanza in self.live)

    def offers(self, name):
        """The offers of a name, each with its stanza, in the order of lists and stanzas."""
        return [(stanza, offer) for stanza, offer in self.offered if offer.name == name]

    def is_met(self, clause):
        """Whether any offer of any live stanza meets one of the alternatives."""
        return any(met_by(atom, offer) for atom in clause for _, offer in self.offers(atom.name))

    def installed(self, name):
        """The row of the mark; without a mark, that of the first live stanza in the status list. There may be no such row."""
        if name in self.state.marks:
            version = self.state.marks[name]
        else:
            versions = [stanza.version for entry, stanza in self.live if entry.kind == STATUS and stanza.package == name]
            version = versions[0] if versions else None
        return None if version is None else self.row(name, version)

    def list_priority(self, entry):
        """The target has 990, unless it is the status list; else the first pin for all packages on the list counts, else its class."""
        if entry.name == self.state.target and entry.kind != STATUS:
            return TARGET_PRIORITY
        for selector, priority in self.state.pins:
            if selector == ("release", None, entry.name):
                return priority
        return STATUS_PRIORITY if entry.kind == STATUS else CLASS_PRIORITIES[entry.class_of_list]

    def row_priority(self, row):
        """The priority of a row, and whether it comes from a pin of its package: the first that matches, else the greatest of its lists."""
        for (form, package, value), priority in self.state.pins:
            if package == row.lead.package and is_matched(form, value, row):
                return priority, True
        return max(self.list_priority(entry) for entry in row.sources), False

    def candidate(self, name):
        """The row that would be installed: the greatest priority above 0, the newest of these. One that is older than the installed
        row needs 1000."""
        installed = self.installed(name)
        best = None
        for row in self.rows(name):
            priority, _ = self.row_priority(row)
            is_older = installed is not None and row.version.order(installed.version) < 0
            if priority <= 0 or (is_older and priority < DOWNGRADE):
                continue
            if best is None or priority > best[0]:
                best = (priority, row)
        return None if best is None else best[1]


def is_matched(form, value, row):
    """Whether a pin of the package matches a row: one of its lists, a prefix of its text, or an equal version."""
    if form == "release":
        return value in [entry.name for entry in row.sources]
    if value.endswith(b"*"):
        return row.version.text.startswith(value[:-1])
    return row.version.equals(Version(value))


def pairs(state):
    """How many pairs of one name there are of an alternative of a clause and an offer."""
    view = View(state)
    offered = [offer.name for _, offer in view.offered]
    asked = [atom.name for _, stanza in view.live for _, _, clause in stanza.clauses() for atom in clause]
    return sum(asked.count(name) * offered.count(name) for name in set(asked))


def without_removed(state, edit):
    """The state without the stanzas that an accepted edit takes out, one that is replaced too."""
    before = state.copy()
    if edit[0] == "drop-list":
        before.lists.remove(before.find(edit[1]))
    if edit[0] in ("put", "remove"):
        entry = before.find(edit[1])
        place = place_of_edit(entry, edit)
        if place is not None:
            del entry.stanzas[place]
    return before
