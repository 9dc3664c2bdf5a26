"""grep-dctrl(1): the words of a filter, which stanzas it takes, and what is shown of them.

Expressions of `--rx` have the syntax of Rust's `regex`. They are read here by Python's `re` on bytes, which means the same for those
that generate.py makes: ASCII letters, `.`, simple classes, repetitions, bars, parentheses, and `^` and `$`, over texts in which a byte
that isn't ASCII stands nowhere where `.` or a class could take it. No other pattern is judged by this program."""

import re

from control import is_field_name
from state import Refused
from versions import is_related, read_version

USAGE, FILTER, PATTERN = 2, 19, 20
DEEPEST = 100

COMPARISONS = {b"--eq": b"=", b"--lt": b"<<", b"--le": b"<=", b"--gt": b">>", b"--ge": b">="}
METHODS = [b"-X", b"--rx", *COMPARISONS]
SIGNS = [b"!", b"(", b")", b"-a", b"-o"]


class Shown:
    """What is shown: the letters of v, c, n and d that are given, and the fields of all -s, or nothing without one."""

    def __init__(self):
        self.letters = set()
        self.fields = None


class Atom:
    """A pattern, where it is looked for, and how."""

    def __init__(self, fields, is_caseless, method, pattern):
        self.fields = fields
        self.is_caseless = is_caseless
        self.method = method
        self.pattern = pattern
        self.expression = built(pattern, is_caseless) if method == b"--rx" else None

    def is_true(self, stanza):
        return any(self.matches(text) for text in self.texts(stanza))

    def texts(self, stanza):
        """The bodies of the fields that the stanza has, or its whole text."""
        if self.fields is None:
            return [stanza.text]
        return [stanza.field(name).body for name in self.fields if stanza.field(name) is not None]

    def matches(self, text):
        if self.method == b"--rx":
            return self.expression.search(text) is not None
        if self.method in COMPARISONS:
            one, other = read_version(text), read_version(self.pattern)
            return one is not None and other is not None and is_related(one, COMPARISONS[self.method], other)
        pattern = self.pattern
        if self.is_caseless:
            text, pattern = text.lower(), pattern.lower()
        return text == pattern if self.method == b"-X" else pattern in text


def built(pattern, is_caseless):
    """The expression of a pattern. `$` stands at the end of the whole text, which Python writes `\\Z`."""
    try:
        pattern.decode("utf-8")
        parts = re.findall(rb"\\.|\[\]?[^\]]*\]|.", pattern, re.DOTALL)
        return re.compile(b"".join(b"\\Z" if part == b"$" else part for part in parts), re.IGNORECASE if is_caseless else 0)
    except (UnicodeDecodeError, re.error) as fault:
        raise Refused(PATTERN) from fault


# ---- the words


def fields_of(word):
    """The names of fields in a word, parted by commas."""
    names = word.split(b",")
    if not all(is_field_name(name) for name in names):
        raise Refused(FILTER)
    return names


def cluster(word, rest, parts, shown):
    """The letters of a word, each a part of the expression or of what is shown. A word behind F or s is taken from the rest."""
    letters = word[1:].decode("latin-1")
    for at, letter in enumerate(letters):
        if letter in "PXi":
            parts.append(("modifier", b"-" + letter.encode()))
        elif letter in "vcnd":
            shown.letters.add(letter)
        elif letter in "Fs":
            fields = word[at + 2:]
            if fields == b"":
                if not rest:
                    raise Refused(USAGE)
                fields = rest.pop(0)
            parts.append(("fields" if letter == "F" else "shown", fields))
            return
        else:
            raise Refused(USAGE)


def parts_of(words, shown):
    """The words told apart: signs, modifiers, fields and patterns."""
    parts = []
    rest = list(words)
    while rest:
        word = rest.pop(0)
        if word in SIGNS:
            parts.append(("sign", word))
        elif word in METHODS and word != b"-X":
            parts.append(("modifier", word))
        elif word.startswith(b"--pattern="):
            parts.append(("pattern", word[len(b"--pattern="):]))
        elif word.startswith(b"--"):
            raise Refused(USAGE)
        elif word.startswith(b"-") and word != b"-":
            cluster(word, rest, parts, shown)
        else:
            parts.append(("pattern", word))
    return parts


class Reader:
    """Reads an expression from left to right. It becomes a function of a stanza."""

    def __init__(self, parts):
        self.parts = parts
        self.atoms = []

    def takes(self, sign):
        if self.parts and self.parts[0] == ("sign", sign):
            self.parts.pop(0)
            return True
        return False

    def disjunction(self, depth):
        terms = [self.conjunction(depth)]
        while self.takes(b"-o"):
            terms.append(self.conjunction(depth))
        return lambda stanza: any(term(stanza) for term in terms)

    def conjunction(self, depth):
        terms = [self.negation(depth)]
        while self.takes(b"-a"):
            terms.append(self.negation(depth))
        return lambda stanza: all(term(stanza) for term in terms)

    def negation(self, depth):
        """An atom, or what is behind `!` or in parentheses, one deeper."""
        if self.takes(b"!"):
            self.check_depth(depth + 1)
            term = self.negation(depth + 1)
            return lambda stanza: not term(stanza)
        if self.takes(b"("):
            self.check_depth(depth + 1)
            term = self.disjunction(depth + 1)
            if not self.takes(b")"):
                raise Refused(FILTER)
            return term
        return self.atom()

    def check_depth(self, depth):
        if depth > DEEPEST:
            raise Refused(FILTER)

    def atom(self):
        """Modifiers in any order and a pattern. Its expression is built when all words are read."""
        fields, is_caseless, methods = None, False, []
        while self.parts and self.parts[0][0] in ("modifier", "fields"):
            what, word = self.parts.pop(0)
            if what == "fields":
                fields = (fields or []) + fields_of(word)
            elif word == b"-P":
                fields = (fields or []) + [b"Package"]
            elif word == b"-i":
                is_caseless = True
            else:
                methods.append(word)
        if len(methods) > 1 or not self.parts or self.parts[0][0] != "pattern":
            raise Refused(FILTER)
        told = (fields, is_caseless, methods[0] if methods else None, self.parts.pop(0)[1])
        at = len(self.atoms)
        self.atoms.append(told)
        return lambda stanza: self.atoms[at].is_true(stanza)


def parse_filter(words):
    """The truth of a filter as a function of a stanza, and what is shown."""
    shown = Shown()
    parts = parts_of(words, shown)
    for what, word in parts:
        if what == "shown":
            shown.fields = (shown.fields or []) + fields_of(word)
    reader = Reader([part for part in parts if part[0] != "shown"])
    truth = reader.disjunction(0)
    if reader.parts:
        raise Refused(FILTER)
    reader.atoms = [Atom(*told) for told in reader.atoms]
    return truth, shown


# ---- the answer


def shown_fields(shown):
    """The names of the fields to show, or nothing where whole stanzas are shown."""
    if "d" not in shown.letters:
        return shown.fields
    fields = shown.fields or []
    is_named = any(name.lower() == b"description" for name in fields)
    return fields if is_named else fields + [b"Description"]


def print_field(field, letters):
    body = field.body
    if "d" in letters and field.name.lower() == b"description":
        body = body.split(b"\n")[0]
    if "n" in letters:
        return body + b"\n"
    space = b"" if body.split(b"\n")[0] == b"" else b" "
    return field.name + b":" + space + body + b"\n"


def print_stanza(stanza, names, letters):
    if names is None:
        return stanza.text + b"\n"
    fields = [stanza.field(name) for name in names if stanza.field(name) is not None]
    text = b"".join(print_field(field, letters) for field in fields)
    return text + (b"\n" if fields and len(names) != 1 else b"")


def answer_filter(state, query):
    """All stanzas, live or not, in the order of lists and of stanzas."""
    truth, shown = query
    stanzas = [stanza for entry in state.lists for stanza in entry.stanzas if truth(stanza) != ("v" in shown.letters)]
    if "c" in shown.letters:
        return b"%d\n" % len(stanzas)
    names = shown_fields(shown)
    return b"".join(print_stanza(stanza, names, shown.letters) for stanza in stanzas)
