"""The state: lists of stanzas, marks, pins and the target release; and what an edit makes of it.

An edit is a tuple: its command, and its words as they were read. `step` never changes the state that it is given."""

from control import STATUS

PLAIN = "plain"
# The words of a class in a script. A list without one is plain.
SCRIPT_CLASSES = ["notauto", "butauto"]
MOST = 4294967295

# The numbers of what doesn't fit the state.
LIST_EXISTS, NO_LIST, STATUS_EXISTS, NO_STANZA, ONE_STANZA, NO_MARK, NO_PIN = range(11, 18)
FULL = 21


class Refused(Exception):
    """The number of the refusal of an edit."""

    def __init__(self, number):
        super().__init__(number)
        self.number = number


class Limits:
    """How many stanzas there may be, and how many edits may be accepted."""

    def __init__(self, stanzas=MOST, edits=MOST):
        self.stanzas = min(stanzas, MOST)
        self.edits = min(edits, MOST)


class List:
    """A list: its name, its kind, its class and its stanzas in order."""

    def __init__(self, name, kind, class_of_list, stanzas):
        self.name = name
        self.kind = kind
        self.class_of_list = class_of_list
        self.stanzas = stanzas


class State:
    """Lists in the order in which they came, marks by package (a version or none), pins in order, the target or none, and how many
    edits were accepted. A pin is a selector and a priority; a selector is the form, the package (none for all) and what is named."""

    def __init__(self):
        self.lists = []
        self.marks = {}
        self.pins = []
        self.target = None
        self.edits = 0

    def copy(self):
        other = State()
        other.lists = [List(entry.name, entry.kind, entry.class_of_list, list(entry.stanzas)) for entry in self.lists]
        other.marks = dict(self.marks)
        other.pins = list(self.pins)
        other.target = self.target
        other.edits = self.edits
        return other

    def find(self, name):
        """The list of a name, or nothing."""
        for entry in self.lists:
            if entry.name == name:
                return entry
        return None

    def count(self):
        return sum(len(entry.stanzas) for entry in self.lists)


def same_version(one, other):
    """Whether both are none, or equal versions."""
    if one is None or other is None:
        return one is None and other is None
    return one.equals(other)


def place_of(entry, package, version):
    """Where in a list the first stanza of this name and an equal version stands, or nothing."""
    for place, stanza in enumerate(entry.stanzas):
        if stanza.package == package and same_version(stanza.version, version):
            return place
    return None


def place_of_edit(entry, edit):
    """Where in its list the stanza stands that a put replaces or a remove takes out, or nothing."""
    if edit[0] == "put":
        return place_of(entry, edit[2].package, edit[2].version)
    return place_of(entry, edit[2], edit[3])


def list_of(state, name):
    """The list that an edit is about."""
    entry = state.find(name)
    if entry is None:
        raise Refused(NO_LIST)
    return entry


def add_list(state, name, kind, class_of_list, stanzas):
    if state.find(name) is not None:
        raise Refused(LIST_EXISTS)
    if kind == STATUS and any(entry.kind == STATUS for entry in state.lists):
        raise Refused(STATUS_EXISTS)
    state.lists.append(List(name, kind, class_of_list, list(stanzas)))


def drop_list(state, name):
    state.lists.remove(list_of(state, name))


def put(state, name, stanza):
    """In the place of the first stanza of this name and an equal version, or last."""
    entry = list_of(state, name)
    place = place_of(entry, stanza.package, stanza.version)
    if place is None:
        entry.stanzas.append(stanza)
    else:
        entry.stanzas[place] = stanza


def remove(state, name, package, version):
    """The first stanza of this name and an equal version; one that isn't live has no version, so it stays."""
    entry = list_of(state, name)
    place = place_of(entry, package, version)
    if place is None:
        raise Refused(NO_STANZA)
    del entry.stanzas[place]


def mark(state, package, version):
    state.marks[package] = version


def unmark(state, package):
    if package not in state.marks:
        raise Refused(NO_MARK)
    del state.marks[package]


def place_of_pin(state, selector):
    """Where a pin with this selector stands, or nothing. Selectors are the same where their bytes are."""
    selectors = [other for other, _ in state.pins]
    return selectors.index(selector) if selector in selectors else None


def pin(state, selector, priority):
    """A pin that is set again keeps its place."""
    place = place_of_pin(state, selector)
    if place is None:
        state.pins.append((selector, priority))
    else:
        state.pins[place] = (selector, priority)


def unpin(state, selector):
    place = place_of_pin(state, selector)
    if place is None:
        raise Refused(NO_PIN)
    del state.pins[place]


def set_target(state, name):
    state.target = name


def prefs(state, settings):
    """All pins go, and these come."""
    state.pins = list(settings)


EDITS = {
    "add-list": add_list,
    "drop-list": drop_list,
    "put": put,
    "remove": remove,
    "mark": mark,
    "unmark": unmark,
    "pin": pin,
    "unpin": unpin,
    "target": set_target,
    "prefs": prefs,
}


def step(state, limits, edit):
    """The state after an edit, or its refusal. That a limit is passed comes last."""
    after = state.copy()
    EDITS[edit[0]](after, *edit[1:])
    after.edits += 1
    if after.count() > limits.stanzas or after.edits > limits.edits:
        raise Refused(FULL)
    return after
