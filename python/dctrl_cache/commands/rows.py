"""What a session holds of packages: their rows with the lists that hold each, their sources, and what nothing meets."""

import re
from collections.abc import Iterable, Iterator
from dataclasses import dataclass, field

from ..script import LONGEST_LINE, quoted, to_bytes, to_text
from ..session import Session

_ROW = re.compile(r"(?: \*\*\*|    ) ([^ ]+) -?[0-9]+$")
_HOLDER = re.compile(r" +-?[0-9]+ ([^ ]+)$")
_UNMET = re.compile(r"Package ([^ ]+) version ([^ ]+) has an unmet dep:$")
_SOURCE_VERSION = re.compile(r"[ \t]*\(.*$")


@dataclass
class Row:
    """A version of a package, and the lists that hold it."""

    version: str
    lists: list[str] = field(default_factory=list)


@dataclass(frozen=True, order=True)
class Unmet:
    """A group of alternatives of a version of a package that nothing meets."""

    package: str
    version: str
    field: str
    clause: str


@dataclass(frozen=True)
class Binary:
    """A stanza, by its package and version, and the source that it is of."""

    package: str
    version: str
    source: str


def commands_of(command: str, words: Iterable[str]) -> Iterator[bytes]:
    """The command with all words, over as many lines as it needs."""
    line = start = to_bytes(command)
    for word in words:
        said = quoted(word)
        if len(line) + 1 + len(said) > LONGEST_LINE and line != start:
            yield line
            line = start
        line += b" " + said
    if line != start:
        yield line


def names(session: Session, *, all_names: bool = False) -> list[str]:
    """The names that have a row, or all that are known."""
    return to_text(session.run("pkgnames --all-names" if all_names else "pkgnames")).split("\n")[:-1]


def rows_of(session: Session, packages: Iterable[str]) -> dict[str, list[Row]]:
    """The rows of packages, newest first; a name that isn't known is left out."""
    answers = session.submit_many(list(commands_of("policy", packages)))
    found: dict[str, list[Row]] = {}
    rows: list[Row] = []
    for answer in answers:
        for line in to_text(answer.result()).split("\n"):
            if line.endswith(":") and not line.startswith(" "):
                rows = found[line[:-1]] = []
            elif row := _ROW.match(line):
                rows.append(Row(row.group(1)))
            elif rows and (holder := _HOLDER.match(line)):
                rows[-1].lists.append(holder.group(1))
    return found


def source_of(package: str, source: str) -> str:
    """The source of a stanza: its field without the version, or the package where there is none."""
    return _SOURCE_VERSION.sub("", source) or package


def binaries(session: Session, source: str | None = None) -> list[Binary]:
    """The stanzas of all lists, or those whose source this may be."""
    words = ["grep-dctrl", "-s", "Package,Version,Source"]
    if source is not None:
        expression = "^%s([ \\t]|$)" % re.sub(r"([^A-Za-z0-9_])", r"\\\1", source)
        words += ["-F", "Source", "--rx", expression, "-o", "-P", "-X", source]
    else:
        words += ["--pattern="]
    line = b" ".join([to_bytes(words[0]), *(quoted(word) for word in words[1:])])
    found = []
    for stanza in to_text(session.run(line)).split("\n\n"):
        fields = dict(line.split(": ", 1) for line in stanza.split("\n") if ": " in line)
        if "Package" in fields and "Version" in fields:
            found.append(Binary(fields["Package"], fields["Version"], source_of(fields["Package"], fields.get("Source", ""))))
    return found


def unmet(session: Session, *, important: bool = False) -> list[Unmet]:
    """The groups of alternatives that nothing meets, in the order of the answer."""
    found: list[Unmet] = []
    package = version = ""
    for line in to_text(session.run("unmet -i" if important else "unmet")).split("\n"):
        if line.startswith(" "):
            name, _, clause = line[1:].partition(": ")
            found.append(Unmet(package, version, name, clause))
        elif heading := _UNMET.match(line):
            package, version = heading.groups()
    return found
