"""The records of apt's preferences, and which lists their releases and origins mean."""

import re
from collections.abc import Iterable, Iterator
from dataclasses import dataclass, replace
from typing import Protocol


class Release(Protocol):
    """What pins ask of a list."""

    @property
    def name(self) -> str: ...
    @property
    def suite(self) -> str: ...
    @property
    def codename(self) -> str: ...
    @property
    def version(self) -> str: ...
    @property
    def origin(self) -> str: ...
    @property
    def label(self) -> str: ...
    @property
    def component(self) -> str: ...
    @property
    def architecture(self) -> str: ...
    @property
    def site(self) -> str: ...


@dataclass(frozen=True)
class Preference:
    """A record of preferences, by the texts of its fields.

    path      the file that has it, or the setting
    line      the line of its first field
    package   what stands behind `Package:`, in one line
    pin       behind `Pin:`
    priority  behind `Pin-Priority:`"""

    path: str
    line: int
    package: str
    pin: str
    priority: str


def read_preferences(path: str) -> Iterator[Preference]:
    """The records of a file. A line that is no field counts for the pin of the record, which then has no known form."""
    with open(path, encoding="utf-8", errors="surrogateescape", newline="\n") as file:
        text = file.read()
    fields: dict[str, str] = {}
    start, last = 0, ""
    for number, line in enumerate([*text.split("\n"), ""], 1):
        if line.startswith("#"):
            continue
        if line in ("", "\r"):
            if start:
                yield Preference(path, start, fields.get("package", ""), fields.get("pin", ""), fields.get("pin-priority", ""))
            fields, start, last = {}, 0, ""
            continue
        start = start or number
        name, colon, body = line.partition(":")
        if line[0] in " \t":
            fields[last] = (fields.get(last, "") + " " + line.strip(" \t\r")).strip()
        elif colon:
            last = name.lower()
            fields[last] = body.strip(" \t\r")
        else:
            last = "pin"
            fields[last] = line


def matches(pattern: str, text: str) -> bool:
    """Whether a text is of a pattern as those of files, or of an expression between slashes, without regard to case."""
    if not text:
        return False
    if len(pattern) > 1 and pattern.startswith("/") and pattern.endswith("/"):
        try:
            return re.search(pattern[1:-1], text, re.IGNORECASE) is not None
        except re.error:
            return False
    return re.fullmatch(_expression(pattern), text, re.IGNORECASE | re.DOTALL) is not None


def _expression(pattern: str) -> str:
    """The expression of a pattern as those of files."""
    made, place = "", 0
    while place < len(pattern):
        letter = pattern[place]
        close = pattern.find("]", place + 2) if letter == "[" else -1
        if letter == "*":
            made += ".*"
        elif letter == "?":
            made += "."
        elif close > 0:
            inner = pattern[place + 1:close]
            mark = "^" if inner[0] in "!^" else ""
            made += "[%s%s]" % (mark, inner[len(mark):].replace("\\", "\\\\").replace("[", "\\[").replace("^", "\\^"))
            place = close
        elif letter == "\\" and place + 1 < len(pattern):
            place += 1
            made += re.escape(pattern[place])
        else:
            made += re.escape(letter)
        place += 1
    return made


def is_of_release(entry: Release, data: str) -> bool:
    """Whether a list is of a release, in the words behind `release`."""
    if data == "*":
        return True
    if "=" not in data:
        if data[:1].isdigit():
            return matches(data, entry.version)
        return matches(data, entry.suite) or matches(data, entry.codename)
    known = {"a=": entry.suite, "n=": entry.codename, "v=": entry.version, "o=": entry.origin, "l=": entry.label, "c=": entry.component,
             "b=": entry.architecture}
    for part in data.split(","):
        word = part.lstrip(" \t")
        key, value = word[:2].lower(), word[2:]
        if value and key in known and not matches(value, known[key]):
            return False
    return True


def is_of_origin(entry: Release, data: str) -> bool:
    """Whether a list is from a site, in the words behind `origin`."""
    if len(data) > 1 and data.startswith('"') and data.endswith('"'):
        data = data[1:-1]
    if not data:
        return entry.name != "status" and not entry.site
    return matches(data, entry.site)


def resolved(record: Preference, lists: Iterable[Release], architecture: str) -> list[Preference]:
    """A record as records of the program, whose releases are names of lists: one for each list that is meant. A record with another form
    of pin stays as it is. The names lose the architecture of this machine."""
    names = [re.sub(":(%s|any|native)$" % re.escape(architecture), "", name) for name in record.package.split()]
    plain = replace(record, package=" ".join(names))
    kind, _, data = record.pin.replace("\t", " ").partition(" ")
    tests = {"release": is_of_release, "origin": is_of_origin}
    if kind.lower() not in tests:
        return [plain]
    return [replace(plain, pin="release a=" + entry.name) for entry in lists if tests[kind.lower()](entry, data.strip())]


def lists_of_release(lists: Iterable[Release], release: str) -> list[str] | None:
    """The names of the lists of the default release; None where no list knows a release of that name."""
    entries = list(lists)
    is_known = any(matches(release, word) for entry in entries for word in (entry.suite, entry.codename, entry.version))
    if not is_known and release[1:2] != "=":
        return None
    return [entry.name for entry in entries if is_of_release(entry, release)]


def record_text(record: Preference) -> str:
    """A record as the program reads it. A field that is empty stays so, since the program says what is missing."""
    return "Package: %s\nPin: %s\nPin-Priority: %s\n" % (record.package, record.pin, record.priority)
