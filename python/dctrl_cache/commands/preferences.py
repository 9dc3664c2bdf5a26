"""The records of apt_preferences(5) as those that the program takes, so that each version has the priority that apt gives it.

What the program has no words for is said by names, versions and lists: patterns of names and expressions by the names that the lists
hold, sources by the versions that are of them, patterns of versions by the versions that there are."""

from collections.abc import Iterable, Iterator, Sequence
from dataclasses import dataclass

from ..apt_preferences import Preference, Release, is_of_origin, is_of_release, record_text
from ..errors import Refused
from ..session import Session
from . import patterns, rows
from .versions import version_key
from .words import is_name, is_version

# How many bytes of names a record of the program has at most; the body of a field may have more.
_LONGEST = 500_000


@dataclass(frozen=True)
class Setting:
    """A pin of the program: the names that it is for, and the words behind `Pin:` and `Pin-Priority:`."""

    names: tuple[str, ...]
    pin: str
    priority: str


class LeftOut(Exception):
    """A record that counts for nothing here; the text says why."""


def is_of_architecture(qualifier: str, architecture: str) -> bool:
    """Whether a name with a qualifier is one of this machine, as apt has it in preferences."""
    return qualifier in ("any", "linux-any", "any-" + architecture, "linux-" + architecture) or patterns.matches(qualifier, architecture)


def takes_version(data: str, version: str) -> bool:
    """Whether apt takes a version for one of the words behind `version`."""
    is_prefix, text = data.endswith("*"), data.removesuffix("*")
    if version.lower().startswith(text.lower()) if is_prefix else version.lower() == text.lower():
        return True
    return patterns.matches(text, version)


def _program_takes(data: str, version: str) -> bool:
    """Whether the program takes a version for one of the words behind `version`."""
    return version.startswith(data[:-1]) if data.endswith("*") else version_key(version) == version_key(data)


def _has_form(data: str) -> bool:
    """Whether the program has a word for the versions that are meant."""
    return data == "*" or is_version(data) or (data.endswith("*") and is_version(data[:-1] + "0"))


class _Holdings:
    """What the lists hold, asked for once."""

    def __init__(self, session: Session) -> None:
        self._session = session
        self._rows: dict[str, list[rows.Row]] = {}
        self._names: list[str] | None = None
        self._sources: dict[str, list[rows.Binary]] | None = None

    def names(self) -> list[str]:
        if self._names is None:
            self._names = rows.names(self._session)
        return self._names

    def held(self, packages: Iterable[str]) -> dict[str, list[rows.Row]]:
        missing = [package for package in packages if package not in self._rows and is_name(package)]
        self._rows.update({package: [] for package in missing})
        self._rows.update(rows.rows_of(self._session, missing))
        return self._rows

    def sources(self) -> dict[str, list[rows.Binary]]:
        if self._sources is None:
            self._sources = {}
            for binary in rows.binaries(self._session):
                self._sources.setdefault(binary.source, []).append(binary)
        return self._sources


class Expansion:
    """Makes pins of the program from records.

    lists         the lists, `status` among them
    architecture  that of the machine"""

    def __init__(self, session: Session, lists: Sequence[Release], architecture: str) -> None:
        self._session = session
        self._lists = lists
        self._architecture = architecture
        self._holdings = _Holdings(session)

    def settings(self, record: Preference) -> list[Setting]:
        """The pins of a record. LeftOut where it counts for nothing."""
        kind, _, data = record.pin.replace("\t", " ").partition(" ")
        kind, data = kind.lower(), data.strip()
        if kind in ("release", "origin"):
            is_of = is_of_release if kind == "release" else is_of_origin
            holders = [entry.name for entry in self._lists if is_of(entry, data)]
            pins = ["release a=" + name for name in holders]
        else:
            holders, pins = [], [record.pin]
        self._try(record, pins)
        if record.package == "*":
            return [Setting(("*",), pin, record.priority) for pin in pins]
        made: list[Setting] = []
        for word in record.package.split():
            made += self._of_word(word, kind, data, holders, record.priority)
        return made

    def _try(self, record: Preference, pins: list[str]) -> None:
        """Lets the program say what is wrong with a record, whose names and versions it may not know as such."""
        plain = [name for name in map(self._plain_name, record.package.split()) if name is not None]
        package = "*" if record.package == "*" else " ".join(plain) or ("x" if record.package else "")
        pin = pins[0] if pins else "release a=none"
        data = pin.removeprefix("version ").strip()
        if pin.lower().startswith("version") and (patterns.is_expression(data) or patterns.is_pattern(data.removesuffix("*"))):
            pin = "version 1" if record.package != "*" else pin
        for word in record.package.split():
            name = self._unqualified(word.removeprefix("src:"))
            if name is not None and patterns.is_expression(name) and patterns.compiled(name) is None:
                raise LeftOut("%s: not a regular expression that is known here" % name)
        try:
            self._session.prefs(record_text(Preference(record.path, record.line, package, pin, record.priority)))
        except Refused as refused:
            raise LeftOut(refused.text) from None

    def _unqualified(self, word: str) -> str | None:
        """The name of a word without its architecture; None where that is another one's."""
        name, colon, qualifier = word.rpartition(":")
        if not colon:
            return word
        return name if is_of_architecture(qualifier, self._architecture) else None

    def _plain_name(self, word: str) -> str | None:
        """The name of a word that names one package."""
        name = None if word.startswith("src:") else self._unqualified(word)
        return None if name is None or patterns.is_expression(name) or patterns.is_pattern(name) else name

    def _of_word(self, word: str, kind: str, data: str, holders: list[str], priority: str) -> list[Setting]:
        """The pins of one word of `Package:`."""
        is_source = word.startswith("src:")
        name = self._unqualified(word.removeprefix("src:"))
        if name is None:
            return []
        if is_source:
            return self._of_sources(name, kind, data, holders, priority)
        names = [name]
        if patterns.is_expression(name) or patterns.is_pattern(name):
            names = [known for known in self._holdings.names() if patterns.matches(name, known)]
        if kind != "version":
            return [Setting(tuple(names), "release a=" + holder, priority) for holder in holders] if names else []
        return self._of_versions(names, data, priority)

    def _of_versions(self, names: list[str], data: str, priority: str) -> list[Setting]:
        """Pins of versions: in the words of the record where the program means the same by them, else of each version that there is."""
        held, same = self._holdings.held(names), []
        exact: dict[str, list[str]] = {}
        for name in names:
            versions = [row.version for row in held.get(name, [])]
            taken = [version for version in versions if takes_version(data, version)]
            if _has_form(data) and taken == [version for version in versions if _program_takes(data, version)]:
                same.append(name)
            else:
                for version in taken:
                    exact.setdefault(version, []).append(name)
        made = [Setting(tuple(same), "version " + data, priority)] if same else []
        return made + [Setting(tuple(some), "version " + version, priority) for version, some in exact.items()]

    def _of_sources(self, source: str, kind: str, data: str, holders: list[str], priority: str) -> list[Setting]:
        """Pins of the versions that are of a source, or of the sources of a pattern."""
        sources = self._holdings.sources()
        if patterns.is_expression(source) or patterns.is_pattern(source):
            chosen = [known for known in sources if patterns.matches(source, known)]
        else:
            chosen = [source]
        binaries = [binary for known in chosen for binary in sources.get(known, [])]
        held = self._holdings.held(sorted({binary.package for binary in binaries}))
        exact: dict[str, list[str]] = {}
        for binary in binaries:
            row = next((row for row in held[binary.package] if version_key(row.version) == version_key(binary.version)), None)
            if row is None:
                continue
            if takes_version(data, row.version) if kind == "version" else not set(row.lists).isdisjoint(holders):
                exact.setdefault(row.version, []).append(binary.package)
        return [Setting(tuple(dict.fromkeys(some)), "version " + version, priority) for version, some in exact.items()]


def body(settings: Iterable[Setting]) -> str:
    """The body of `prefs`, with the names of a setting over as many records as they need."""
    made = []
    for setting in settings:
        for names in _pieces(setting.names):
            made.append("Package: %s\nPin: %s\nPin-Priority: %s\n" % (" ".join(names), setting.pin, setting.priority))
    return "\n".join(made)


def _pieces(names: tuple[str, ...]) -> Iterator[list[str]]:
    piece: list[str] = []
    size = 0
    for name in names:
        if size + len(name) > _LONGEST:
            yield piece
            piece, size = [], 0
        piece.append(name)
        size += len(name) + 1
    if piece:
        yield piece
