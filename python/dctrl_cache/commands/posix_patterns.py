"""Regular expressions of POSIX, as grep-dctrl(1) takes them, in the syntax of `--rx`. What would mean something else there raises
Untold."""

import re
from dataclasses import dataclass

_CLASSES = frozenset(("alpha", "digit", "alnum", "upper", "lower", "punct", "xdigit", "blank", "graph", "print", "space", "cntrl"))
# Classes that have the newline among them.
_WITH_NEWLINE = frozenset(("space", "cntrl"))
_COUNT = re.compile(r"([0-9]*)(,?)([0-9]*)$")
_SIGNS = frozenset(".[]()*+?{}|^$\\")
# Signs that would mean something in brackets.
_IN_BRACKETS = frozenset("[]^-&~\\")


class Untold(ValueError):
    """A pattern that has no equal in the syntax of `--rx`; its text says what stands in the way."""


@dataclass
class Translated:
    """A pattern in the syntax of `--rx`.

    text           the pattern, without an anchor at its very end
    ends_anchored  whether such an anchor stood there
    inner_anchors  whether the end of the text is asked for elsewhere
    takes_newline  whether a sign of it may take a newline"""

    text: str
    ends_anchored: bool = False
    inner_anchors: bool = False
    takes_newline: bool = False


def literal(sign: str) -> str:
    """The expression of a sign that stands for itself."""
    return "\\" + sign if sign in _SIGNS else sign


def _bracket(pattern: str, start: int) -> tuple[str, int, bool]:
    """The bracket expression at a place, the place behind it, and whether it may take a newline."""
    place = start + 1
    negated = pattern.startswith("^", place)
    place += negated
    made, takes_newline, first = "[^" if negated else "[", negated, True
    while first or not pattern.startswith("]", place):
        if place >= len(pattern):
            raise Untold("a bracket has no end")
        first = False
        if pattern.startswith(("[.", "[="), place):
            raise Untold("elements of a collation aren't known")
        if pattern.startswith("[:", place):
            end = pattern.find(":]", place)
            name = pattern[place + 2:end] if end > 0 else ""
            if name not in _CLASSES:
                raise Untold("[:%s:] is no class" % name)
            takes_newline = takes_newline or name in _WITH_NEWLINE
            made, place = made + "[:%s:]" % name, end + 2
            continue
        sign, place = pattern[place], place + 1
        is_range = sign == "-" and made not in ("[", "[^") and not pattern.startswith("]", place)
        made += "-" if is_range else "\\" + sign if sign in _IN_BRACKETS else sign
    return made + "]", place + 1, takes_newline


def _count(inner: str) -> str:
    """The count between braces."""
    found = _COUNT.match(inner)
    if found is None or not (found.group(1) or found.group(3)):
        raise Untold("{%s} is no count" % inner)
    return "{%s%s%s}" % (found.group(1) or "0", found.group(2), found.group(3))


class _Extended:
    """Tokens of an extended expression: each is a kind and its text."""

    def __init__(self, pattern: str) -> None:
        self.pattern = pattern

    def token(self, place: int, starts: bool) -> tuple[str, str, int]:
        pattern, sign = self.pattern, self.pattern[place]
        if sign == "\\":
            if place + 1 >= len(pattern):
                raise Untold("it ends with a backslash")
            escaped = pattern[place + 1]
            if escaped.isalnum() or escaped in "<>`'":
                raise Untold("\\%s is not of POSIX" % escaped)
            return "sign", literal(escaped), place + 2
        if sign in "*+?":
            return "repeat", sign, place + 1
        if sign == "{":
            end = pattern.find("}", place)
            return "repeat", _count(pattern[place + 1:end] if end > 0 else ""), end + 1
        kinds = {"(": "open", ")": "close", "|": "or", "^": "begin", "$": "end", ".": "any", "[": "bracket"}
        return kinds.get(sign, "sign"), literal(sign) if sign not in kinds else sign, place + 1


class _Basic(_Extended):
    """Tokens of a basic expression, with the signs that GNU's library has in it."""

    def token(self, place: int, starts: bool) -> tuple[str, str, int]:
        pattern, sign = self.pattern, self.pattern[place]
        if sign == "\\":
            escaped = pattern[place + 1:place + 2]
            if escaped == "{":
                end = pattern.find("\\}", place)
                return "repeat", _count(pattern[place + 2:end] if end > 0 else ""), end + 2
            kinds = {"(": "open", ")": "close", "|": "or", "+": "repeat", "?": "repeat"}
            if escaped in kinds and escaped:
                return kinds[escaped], escaped, place + 2
            return super().token(place, starts)
        if sign == "*" and not starts:
            return "repeat", sign, place + 1
        if sign == "^" and starts:
            return "begin", sign, place + 1
        if sign == "$" and (place + 1 == len(pattern) or pattern.startswith(("\\)", "\\|"), place + 1)):
            return "end", sign, place + 1
        if sign in ".[":
            return ("any" if sign == "." else "bracket"), sign, place + 1
        return "sign", literal(sign), place + 1


def translated(pattern: str, extended: bool) -> Translated:
    """An extended or a basic expression in the syntax of `--rx`."""
    tokens: _Extended = _Extended(pattern) if extended else _Basic(pattern)
    made, place, depth = Translated(""), 0, 0
    before = "open"
    while place < len(pattern):
        kind, text, after = tokens.token(place, before in ("open", "or"))
        if kind == "bracket":
            text, after, takes = _bracket(pattern, place)
            made.takes_newline = made.takes_newline or takes
        elif kind == "any":
            made.takes_newline = True
        elif kind == "repeat" and before in ("open", "or", "begin", "end", "repeat"):
            raise Untold("%s has nothing before it that it repeats" % text)
        if (kind == "begin" and before not in ("open", "or")) or (before == "end" and kind not in ("close", "or")):
            raise Untold("an anchor stands in the middle")
        depth += (kind == "open") - (kind == "close")
        if depth < 0:
            raise Untold("a parenthesis is closed that isn't open")
        if kind == "end" and after == len(pattern) and depth == 0 and "|" not in made.text:
            made.ends_anchored = True
            return made
        made.inner_anchors = made.inner_anchors or kind == "end"
        made.text += text
        before, place = kind, after
    if depth > 0:
        raise Untold("a parenthesis isn't closed")
    return made
