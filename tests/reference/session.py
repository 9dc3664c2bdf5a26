"""A session: a state, and the runs of scripts over it. Each command in turn gives no text where it is an edit that is accepted, one line
where it is refused, and its answer where it is a query."""

from control import PACKAGES, STATUS, TextFault, read_stanzas
from preferences import PRIORITY, is_pin_version, read_prefs, read_priority
from queries import is_query, parse_query
from script import commands_of, words_of
from state import NO_LIST, ONE_STANZA, PLAIN, SCRIPT_CLASSES, Limits, Refused, State, step
from versions import is_name, read_version

COMMAND, USAGE, UNENDED, TOO_LONG = 1, 2, 3, 4
NAME, VERSION = 8, 9

TEXTS = {
    1: "unknown command",
    2: "bad arguments",
    3: "body has no end",
    4: "line too long",
    5: "not a control line",
    6: "field given twice",
    7: "required field missing",
    8: "bad name",
    9: "bad version",
    10: "bad relation field",
    11: "list already present",
    12: "no such list",
    13: "a status list is already present",
    14: "no such stanza",
    15: "body is not one stanza",
    16: "no such mark",
    17: "no such pin",
    18: "bad priority",
    19: "bad filter",
    20: "bad pattern",
    21: "cache full",
    23: "bad pin record",
}


def need(is_right, number):
    """Refuses a command unless something is right."""
    if not is_right:
        raise Refused(number)


# ---- the words of edits


def name_of(word):
    need(is_name(word), NAME)
    return word


def version_of(word):
    version = read_version(word)
    need(version is not None, VERSION)
    return version


def add_list(session, command, words):
    need(len(words) in (2, 3) and words[1] in (b"packages", b"status"), USAGE)
    kind = PACKAGES if words[1] == b"packages" else STATUS
    class_of_list = PLAIN
    if len(words) == 3:
        class_of_list = words[2].decode("latin-1")
        need(kind == PACKAGES and class_of_list in SCRIPT_CLASSES, USAGE)
    name = name_of(words[0])
    return ("add-list", name, kind, class_of_list, read_stanzas(command.body_text(), command.line + 1, kind))


def drop_list(session, command, words):
    need(len(words) == 1, USAGE)
    return ("drop-list", name_of(words[0]))


def put(session, command, words):
    """The kind of the list says how the body is read, so that the list isn't there comes before the faults of the body."""
    need(len(words) == 1, USAGE)
    name = name_of(words[0])
    entry = session.state.find(name)
    need(entry is not None, NO_LIST)
    stanzas = read_stanzas(command.body_text(), command.line + 1, entry.kind)
    need(len(stanzas) == 1, ONE_STANZA)
    return ("put", name, stanzas[0])


def remove(session, command, words):
    need(len(words) == 3, USAGE)
    return ("remove", name_of(words[0]), name_of(words[1]), version_of(words[2]))


def mark(session, command, words):
    need(len(words) == 2, USAGE)
    return ("mark", name_of(words[0]), None if words[1] == b"none" else version_of(words[1]))


def unmark(session, command, words):
    need(len(words) == 1, USAGE)
    return ("unmark", name_of(words[0]))


def selector_of(words):
    """A package, or `*` for all, a form, and what is named in that form."""
    package, form, value = words
    need(form == b"release" or (form == b"version" and package != b"*"), USAGE)
    package = None if package == b"*" else name_of(package)
    if form == b"release":
        return ("release", package, name_of(value))
    need(is_pin_version(value), VERSION)
    return ("version", package, value)


def pin(session, command, words):
    need(len(words) == 4, USAGE)
    selector = selector_of(words[:3])
    priority = read_priority(words[3])
    need(priority is not None, PRIORITY)
    return ("pin", selector, priority)


def unpin(session, command, words):
    need(len(words) == 3, USAGE)
    return ("unpin", selector_of(words))


def target(session, command, words):
    need(len(words) == 1, USAGE)
    return ("target", None if words[0] == b"none" else name_of(words[0]))


def prefs(session, command, words):
    need(words == [], USAGE)
    return ("prefs", read_prefs(command.body_text(), command.line + 1))


EDITS = {
    b"add-list": add_list,
    b"drop-list": drop_list,
    b"put": put,
    b"remove": remove,
    b"mark": mark,
    b"unmark": unmark,
    b"pin": pin,
    b"unpin": unpin,
    b"target": target,
    b"prefs": prefs,
}


# ---- a run


class Session:
    """A state under limits, and how many commands were accepted and refused."""

    def __init__(self, limits=None):
        self.state = State()
        self.limits = limits or Limits()
        self.accepted = 0
        self.refused = 0

    def run(self, text):
        """What a run of a script writes."""
        commands, last_line = commands_of(text)
        return b"".join(self.command(command, last_line) for command in commands)

    def command(self, command, last_line):
        """The text of a command: its answer, or the line of its refusal. A fault of its body has the line where it is."""
        line = command.line
        try:
            if command.long_line is not None:
                line = command.long_line
                raise Refused(TOO_LONG)
            if not command.is_ended:
                line = last_line
                raise Refused(UNENDED)
            answer = self.answer(command)
            self.accepted += 1
            return answer
        except Refused as refused:
            number = refused.number
        except TextFault as fault:
            line, number = fault.line, fault.cause
        self.refused += 1
        return b"E: line %d: %s\n" % (line, TEXTS[number].encode())

    def answer(self, command):
        """Makes an edit, or answers a query."""
        need(command.name in EDITS or is_query(command.name), COMMAND)
        words = words_of(command.rest)
        need(words is not None, USAGE)
        if is_query(command.name):
            return parse_query(command.name, words)(self.state)
        edit = EDITS[command.name](self, command, words)
        self.state = step(self.state, self.limits, edit)
        return b""

    def load(self, name, kind, text):
        """Adds a list that isn't in a script. Its lines count from 1."""
        need(is_name(name), NAME)
        self.state = step(self.state, self.limits, ("add-list", name, kind, PLAIN, read_stanzas(text, 1, kind)))
