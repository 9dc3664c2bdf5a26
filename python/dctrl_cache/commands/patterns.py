"""Patterns of names, as those of files in fnmatch(3) and as regular expressions between slashes, in the way of apt."""

import functools
import re

from .posix_patterns import Untold, translated

_SIGNS = frozenset("*?[")
# The classes of POSIX in brackets, of which Python has none.
_CLASSES = {"alpha": "A-Za-z", "digit": "0-9", "alnum": "A-Za-z0-9", "upper": "A-Z", "lower": "a-z", "xdigit": "0-9A-Fa-f",
            "punct": r"!-/:-@\[-`{-~", "blank": r" \t", "space": r" \t-\r", "graph": "!-~", "print": " -~", "cntrl": r"\x00-\x1f\x7f"}
_CLASS = re.compile(r"\[:([a-z]+):\]")


def is_pattern(word: str) -> bool:
    """Whether a word has signs of a pattern of files."""
    return not _SIGNS.isdisjoint(word)


def is_expression(word: str) -> bool:
    """Whether a word is a regular expression between slashes."""
    return len(word) > 1 and word.startswith("/") and word.endswith("/")


def _class(found: "re.Match[str]") -> str:
    return _CLASSES.get(found.group(1), "")


def _bracket(pattern: str, start: int) -> tuple[str, int]:
    """The expression of a bracket of a pattern and the place behind it; a bracket without an end stands for itself."""
    place = start + 1
    negated = pattern.startswith(("!", "^"), place)
    place += negated
    made, end = "", place
    while end == place or not pattern.startswith("]", end):
        found = _CLASS.match(pattern, end)
        if found is not None:
            made, end = made + _class(found), found.end()
        else:
            made, end = made + re.sub(r"[\\\[\]&~|^]", r"\\\g<0>", pattern[end:end + 1]), end + 1
        if end >= len(pattern):
            return r"\[", start + 1
    return "[%s%s]" % ("^" if negated else "", made), end + 1


def file_pattern(pattern: str) -> str:
    """The regular expression of a pattern of files, for the whole of a text."""
    made, place = "", 0
    while place < len(pattern):
        sign = pattern[place]
        if sign == "[":
            expression, place = _bracket(pattern, place)
            made += expression
            continue
        if sign == "\\" and place + 1 < len(pattern):
            place += 1
            made += re.escape(pattern[place])
        else:
            made += {"*": ".*", "?": "."}.get(sign) or re.escape(sign)
        place += 1
    return made


@functools.lru_cache(maxsize=256)
def compiled(pattern: str) -> "re.Pattern[str] | None":
    """What finds the texts that apt takes for a pattern, whatever their case; None for an expression that is none."""
    try:
        if is_expression(pattern):
            made = translated(pattern[1:-1], extended=True)
            return re.compile(_CLASS.sub(_class, made.text) + ("$" if made.ends_anchored else ""), re.IGNORECASE | re.DOTALL)
        return re.compile("(?:%s)\\Z" % file_pattern(pattern), re.IGNORECASE | re.DOTALL)
    except (re.error, Untold):
        return None


def matches(pattern: str, text: str) -> bool:
    """Whether apt takes a text for one of a pattern, an expression between slashes or a word."""
    made = compiled(pattern)
    if made is None:
        return False
    return (made.search(text) if is_expression(pattern) else made.match(text)) is not None
