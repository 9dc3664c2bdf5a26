"""The language of scripts: words, lines and bodies. What it has no way to say raises ValueError."""

import os
import re
from collections.abc import Iterable
from typing import IO, Final, TypeAlias

from .errors import BodyError

Text: TypeAlias = str | bytes
# The text of a list or a stanza; or a file of it: its path (any os.PathLike), or a file that is open.
Source: TypeAlias = str | bytes | os.PathLike[str] | os.PathLike[bytes] | IO[bytes] | IO[str]

# A line that is longer, in bytes without its newline, is refused, and what follows it is no body.
LONGEST_LINE: Final = 1_048_576

# Commands that have a body.
WITH_BODY: Final = frozenset((b"add-list", b"put", b"prefs"))

_NAME = re.compile(rb"[ \t]*([^ \t]*)")
_PLAIN = re.compile(rb"[A-Za-z0-9=+._:~*/,@%^-]+")


def to_bytes(text: Text) -> bytes:
    """Text as UTF-8; what was no UTF-8 when it was read becomes the bytes that it was. A lone surrogate of no byte raises ValueError."""
    return text if isinstance(text, bytes) else text.encode("utf-8", "surrogateescape")


def to_text(data: bytes) -> str:
    """UTF-8 as text; bytes that are none are kept as surrogates."""
    return data.decode("utf-8", "surrogateescape")


def quoted(word: Text) -> bytes:
    """A word of a command, between quotes where it needs them. No word has a quote or a newline: ValueError."""
    data = to_bytes(word)
    if b"'" in data or b"\n" in data:
        raise ValueError("%r: a word has no quote and no newline" % word)
    return data if _PLAIN.fullmatch(data) else b"'" + data + b"'"


def value_word(word: Text) -> bytes:
    """A word of a query that is no option: one that begins with a hyphen raises ValueError."""
    if to_bytes(word).startswith(b"-"):
        raise ValueError("%r: a word of a query that begins with a hyphen would be an option" % word)
    return quoted(word)


def command(name: bytes, words: Iterable[bytes]) -> bytes:
    """The line of a command, of words that are quoted."""
    return b" ".join((name, *words))


def name_of(line: bytes) -> bytes:
    """The name of the command of a line; empty where the line is blank or a comment."""
    found = _NAME.match(line)
    name = found.group(1) if found else b""
    return b"" if name.startswith(b"#") else name


def checked_body(text: bytes) -> bytes:
    """The lines of a body, each with its newline. A line of one dot raises BodyError."""
    lines = text if text.endswith(b"\n") or not text else text + b"\n"
    place = 0 if lines.startswith(b".\n") else lines.find(b"\n.\n") + 1
    if place > 0 or lines.startswith(b".\n"):
        raise BodyError(lines.count(b"\n", 0, place) + 1)
    return lines


def script_text(line: bytes, body: bytes | None) -> bytes:
    """The lines by which a command is given, its body and the end of that among them. A line behind which the program would take other
    lines for the body than ours raises ValueError."""
    if b"\n" in line:
        raise ValueError("%r: a command is one line" % line)
    if len(line) > LONGEST_LINE:
        return line + b"\n"
    if name_of(line) in WITH_BODY:
        if body is None:
            raise ValueError("%r: the command has a body" % line)
        return b"%s\n%s.\n" % (line, checked_body(body))
    if body is not None:
        raise ValueError("%r: the command has no body" % line)
    return line + b"\n"


def read_source(source: Source) -> bytes:
    """The text of a list or a stanza. A file that can't be read raises OSError."""
    if isinstance(source, (str, bytes)):
        return to_bytes(source)
    if isinstance(source, os.PathLike):
        with open(source, "rb") as file:
            return file.read()
    return to_bytes(source.read())
