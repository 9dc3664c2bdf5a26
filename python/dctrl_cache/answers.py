"""The answers to queries as values. What isn't of the form that an answer has raises UnexpectedAnswer."""

import re
from collections.abc import Iterator, Mapping
from dataclasses import dataclass, replace
from typing import Final, NoReturn

from .errors import UnexpectedAnswer
from .script import to_text

_NAME = r"[A-Za-z0-9][A-Za-z0-9+._-]*"
_VERSION = r"[A-Za-z0-9.+~:-]+"
_FIELD = r"PreDepends|Depends|Conflicts|Breaks|Recommends|Suggests|Replaces|Enhances"
_UNKNOWN: Final = re.compile(r"N: (?:Unable to locate package [^ \n]+|Version [^ \n]+ of [^ \n]+ was not found)\n")
_ATOM = re.compile(r"(%s)(?::([^ ()|,]+))?(?: \((<<|<=|=|>=|>>|<|>) (%s)\))?" % (_NAME, _VERSION))
_UNMET_ROW = re.compile(r"Package (%s) version (%s) has an unmet dep:" % (_NAME, _VERSION))
_UNMET_RELATION = re.compile(r" (%s): (.+)" % _FIELD)
_DEPENDS_ATOM = re.compile(r" ([ |])(%s): (?:<([^<> ]+)>|([^<> ]+))" % _FIELD)
_PROVIDER = re.compile(r"    (%s)" % _NAME)
_DEPENDENT = re.compile(r" ([ |])(%s)" % _NAME)
_POLICY_ROW = re.compile(r" (   |\*\*\*) (%s) (-?[0-9]+)" % _VERSION)
_POLICY_SOURCE = re.compile(r" {7} *(-?[0-9]+) (%s)" % _NAME)
_LIST_PRIORITY = re.compile(r" *(-?[0-9]+) (%s)" % _NAME)
_PINNED = re.compile(r"     (%s) -> (%s) with priority (-?[0-9]+)" % (_NAME, _VERSION))
_HELD = re.compile(r"(%s)((?: \(%s\))+)" % (_VERSION, _NAME))
_ASKING = re.compile(r"  (%s) (%s) (?:(%s): )?(.+)" % (_NAME, _VERSION, _FIELD))
_ROW_RELATION = re.compile(r"(%s) (?:(%s): )?(.+)" % (_VERSION, _FIELD))
_FIELD_NAME = re.compile(r"[!-9;-~]+")


class Stanza(Mapping[str, str]):
    """A stanza: bodies by names of fields, in their order, with the names as they are written. A name is found in any case of its letters.

    A body is without the blanks around its first line; its further lines are as they stand, each behind a newline. `text` is the whole
    stanza as it is held, each line with its newline."""

    def __init__(self, text: str) -> None:
        self.text = text
        self._bodies: dict[str, str] = {}
        self._names: dict[str, str] = {}
        if not text.endswith("\n"):
            raise UnexpectedAnswer("a stanza without its last newline: %r" % text[-80:])
        name = ""
        for line in text[:-1].split("\n"):
            if line[:1] in (" ", "\t") and name:
                self._bodies[name] += "\n" + line
                continue
            name, colon, body = line.partition(":")
            if not colon or not _FIELD_NAME.fullmatch(name) or name.lower() in self._names:
                raise UnexpectedAnswer("no line of a stanza: %r" % line[:200])
            self._names[name.lower()] = name
            self._bodies[name] = body.strip(" \t")

    def __getitem__(self, name: str) -> str:
        return self._bodies[self._names[name.lower()]]

    def __contains__(self, name: object) -> bool:
        return isinstance(name, str) and name.lower() in self._names

    def __iter__(self) -> Iterator[str]:
        return iter(self._bodies)

    def __len__(self) -> int:
        return len(self._bodies)

    def __repr__(self) -> str:
        return "Stanza(%r)" % self.text


@dataclass(frozen=True)
class Alternative:
    """A name in a relation: "libc6:any (>= 2.36)". Without a version `operator` and `version` are None."""

    name: str
    qualifier: str | None = None
    operator: str | None = None
    version: str | None = None

    def __str__(self) -> str:
        name = self.name if self.qualifier is None else "%s:%s" % (self.name, self.qualifier)
        return name if self.version is None else "%s (%s %s)" % (name, self.operator, self.version)


@dataclass(frozen=True)
class Relation:
    """Alternatives of a relation field, one of which is enough. `field` is a name as PreDepends or Depends."""

    field: str
    alternatives: tuple[Alternative, ...]


@dataclass(frozen=True)
class Unmet:
    """A version of a package, and its dependencies that nothing meets."""

    package: str
    version: str
    relations: tuple[Relation, ...]


@dataclass(frozen=True)
class Dependency:
    """What a package names in a relation field.

    name       with its qualifier, as "python3:any"
    is_virtual whether the name has no version of its own
    has_next   whether another alternative follows it in the field
    providers  packages of other names that offer it"""

    field: str
    name: str
    is_virtual: bool
    has_next: bool
    providers: tuple[str, ...]


@dataclass(frozen=True)
class Depends:
    """What a package names. `is_virtual`: the name has no version, and so names nothing."""

    package: str
    is_virtual: bool
    dependencies: tuple[Dependency, ...]


@dataclass(frozen=True)
class Dependent:
    """A package that names another. `has_next`: in each place another alternative follows."""

    package: str
    has_next: bool


@dataclass(frozen=True)
class ReverseDepends:
    """The packages that name a package."""

    package: str
    dependents: tuple[Dependent, ...]


@dataclass(frozen=True)
class ListPriority:
    """A list, and the priority that it gives to what it holds."""

    list: str
    priority: int


@dataclass(frozen=True)
class PolicyRow:
    """A version of a package, its priority, and the lists that hold it."""

    version: str
    priority: int
    is_installed: bool
    lists: tuple[ListPriority, ...]


@dataclass(frozen=True)
class Policy:
    """The versions of a package, newest first. `installed` and `candidate` are None where there is none."""

    package: str
    installed: str | None
    candidate: str | None
    rows: tuple[PolicyRow, ...]


@dataclass(frozen=True)
class Pinned:
    """A version of a package that has its priority from a pin of that package."""

    package: str
    version: str
    priority: int


@dataclass(frozen=True)
class Priorities:
    """The priorities of the lists, and the versions that have another from a pin of their package."""

    lists: tuple[ListPriority, ...]
    pinned: tuple[Pinned, ...]


@dataclass(frozen=True)
class HeldVersion:
    """A version, and the names of the lists that hold it."""

    version: str
    lists: tuple[str, ...]


@dataclass(frozen=True)
class AskedBy:
    """A version of a package that names another: in which field, and how."""

    package: str
    version: str
    field: str
    alternative: Alternative


@dataclass(frozen=True)
class RowRelation:
    """A relation of a version."""

    version: str
    relation: Relation


@dataclass(frozen=True)
class RowProvides:
    """An entry of the field Provides of a version."""

    version: str
    offer: Alternative


@dataclass(frozen=True)
class ProvidedBy:
    """A version of a package that offers a name, and how."""

    package: str
    version: str
    offer: Alternative


@dataclass(frozen=True)
class ShowPackage:
    """All that concerns a name."""

    package: str
    versions: tuple[HeldVersion, ...]
    reverse_depends: tuple[AskedBy, ...]
    dependencies: tuple[RowRelation, ...]
    provides: tuple[RowProvides, ...]
    reverse_provides: tuple[ProvidedBy, ...]


def _unexpected(what: str, line: str) -> NoReturn:
    raise UnexpectedAnswer("no line of %s: %r" % (what, line[:200]))


def _lines(text: str) -> list[str]:
    if text and not text.endswith("\n"):
        raise UnexpectedAnswer("an answer without its last newline: %r" % text[-80:])
    return text.split("\n")[:-1]


def _matched(pattern: "re.Pattern[str]", what: str, line: str) -> "re.Match[str]":
    return pattern.fullmatch(line) or _unexpected(what, line)


def is_unknown(text: str) -> bool:
    """Whether an answer about one name says that it isn't known, or that it has no such version."""
    return _UNKNOWN.fullmatch(text) is not None


def read_names(answer: bytes) -> list[str]:
    """The names that `pkgnames` prints."""
    names = _lines(to_text(answer))
    for name in names:
        if not re.fullmatch(_NAME, name):
            _unexpected("pkgnames", name)
    return names


def read_stanzas(answer: bytes, *, one_field: bool = False) -> list[Stanza]:
    """The stanzas that `grep-dctrl` prints, each with an empty line behind it; of one field alone without."""
    text = to_text(answer)
    if not text:
        return []
    if one_field:
        return [Stanza(piece) for piece in re.findall(r"[^ \t\n].*\n(?:[ \t].*\n)*", text)]
    if not text.endswith("\n\n"):
        raise UnexpectedAnswer("stanzas without a last empty line: %r" % text[-80:])
    return [Stanza(piece + "\n") for piece in text[:-2].split("\n\n")]


def read_shown(answer: bytes) -> list[Stanza]:
    """The stanzas that `show` of one package prints; none where it isn't known. A stanza has an empty line behind it, so that it isn't
    mistaken for an unknown name."""
    return [] if is_unknown(to_text(answer)) else read_stanzas(answer)


def read_count(answer: bytes) -> int:
    """The number that `grep-dctrl -c` prints."""
    return int(_matched(re.compile("[0-9]+\n"), "a count", to_text(answer)).group())


def read_alternative(text: str) -> Alternative:
    """A name with what stands behind it in a relation."""
    found = _matched(_ATOM, "relations", text)
    return Alternative(*found.groups())


def _relation(field: str, text: str) -> Relation:
    return Relation(field, tuple(read_alternative(part) for part in text.split(" | ")))


def read_unmet(answer: bytes) -> list[Unmet]:
    """The rows of `unmet`."""
    rows: list[Unmet] = []
    relations: list[Relation] = []
    head: tuple[str, str] | None = None
    for line in _lines(to_text(answer)):
        if line.startswith("Package "):
            if head is not None:
                rows.append(Unmet(*head, tuple(relations)))
            found = _matched(_UNMET_ROW, "unmet", line)
            head, relations = (found.group(1), found.group(2)), []
        else:
            found = _matched(_UNMET_RELATION, "unmet", line)
            if head is None:
                _unexpected("unmet", line)
            relations.append(_relation(found.group(1), found.group(2)))
    return rows if head is None else [*rows, Unmet(*head, tuple(relations))]


def read_depends(answer: bytes) -> Depends | None:
    """The answer to `depends` of one package; None where it isn't known."""
    text = to_text(answer)
    if is_unknown(text):
        return None
    first, *lines = _lines(text) or [""]
    found = _matched(re.compile("<(%s)>|(%s)" % (_NAME, _NAME)), "depends", first)
    made: list[tuple[Dependency, list[str]]] = []
    for line in lines:
        provider = _PROVIDER.fullmatch(line)
        if provider is not None and made:
            made[-1][1].append(provider.group(1))
            continue
        atom = _matched(_DEPENDS_ATOM, "depends", line)
        made.append((Dependency(atom.group(2), atom.group(3) or atom.group(4), atom.group(3) is not None, atom.group(1) == "|", ()), []))
    dependencies = tuple(replace(dependency, providers=tuple(providers)) for dependency, providers in made)
    return Depends(found.group(1) or found.group(2), found.group(1) is not None, dependencies)


def read_rdepends(answer: bytes) -> ReverseDepends | None:
    """The answer to `rdepends` of one package; None where it isn't known."""
    text = to_text(answer)
    if is_unknown(text):
        return None
    lines = _lines(text)
    if len(lines) < 2 or lines[1] != "Reverse Depends:" or not re.fullmatch(_NAME, lines[0]):
        _unexpected("rdepends", text)
    found = [_matched(_DEPENDENT, "rdepends", line) for line in lines[2:]]
    return ReverseDepends(lines[0], tuple(Dependent(row.group(2), row.group(1) == "|") for row in found))


def _version_or_none(line: str, label: str) -> str | None:
    version = _matched(re.compile(r"  %s: (\(none\)|%s)" % (label, _VERSION)), "policy", line).group(1)
    return None if version == "(none)" else str(version)


def read_policy(answer: bytes) -> Policy | None:
    """The answer to `policy` of one package; None where it isn't known."""
    text = to_text(answer)
    if is_unknown(text):
        return None
    lines = _lines(text)
    if len(lines) < 4 or lines[3] != "  Version table:":
        _unexpected("policy", text)
    package = _matched(re.compile("(%s):" % _NAME), "policy", lines[0]).group(1)
    made: list[tuple[str, int, bool, list[ListPriority]]] = []
    for line in lines[4:]:
        source = _POLICY_SOURCE.fullmatch(line)
        if source is not None and made:
            made[-1][3].append(ListPriority(source.group(2), int(source.group(1))))
            continue
        row = _matched(_POLICY_ROW, "policy", line)
        made.append((row.group(2), int(row.group(3)), row.group(1) == "***", []))
    rows = tuple(PolicyRow(version, priority, is_installed, tuple(lists)) for version, priority, is_installed, lists in made)
    return Policy(package, _version_or_none(lines[1], "Installed"), _version_or_none(lines[2], "Candidate"), rows)


def read_priorities(answer: bytes) -> Priorities:
    """The answer to `policy` without a name."""
    lines = _lines(to_text(answer))
    if lines[:1] != ["Package files:"] or "Pinned packages:" not in lines:
        _unexpected("policy", "\n".join(lines[:1]))
    end = lines.index("Pinned packages:")
    lists = [_matched(_LIST_PRIORITY, "policy", line) for line in lines[1:end]]
    pinned = [_matched(_PINNED, "policy", line) for line in lines[end + 1:]]
    return Priorities(tuple(ListPriority(row.group(2), int(row.group(1))) for row in lists),
                      tuple(Pinned(row.group(1), row.group(2), int(row.group(3))) for row in pinned))


_SECTIONS: Final = ("Versions:", "Reverse Depends:", "Dependencies:", "Provides:", "Reverse Provides:")


def _sections(lines: list[str]) -> list[list[str]]:
    """The lines of `showpkg` below each of its heads."""
    places = [lines.index(head) if head in lines else _unexpected("showpkg", head) for head in _SECTIONS]
    if places != sorted(places) or places[0] != 1 or lines[places[1] - 1] != "":
        _unexpected("showpkg", lines[0])
    ends = [places[1] - 1, *places[2:], len(lines)]
    return [lines[start + 1:end] for start, end in zip(places, ends)]


def read_showpkg(answer: bytes) -> ShowPackage | None:
    """The answer to `showpkg` of one package; None where it isn't known."""
    text = to_text(answer)
    if is_unknown(text):
        return None
    lines = _lines(text)
    package = _matched(re.compile("Package: (%s)" % _NAME), "showpkg", lines[0] if lines else "").group(1)
    versions, asking, relations, provides, offers = _sections(lines)
    return ShowPackage(package, tuple(map(_held, versions)), tuple(map(_asked_by, asking)), tuple(map(_row_relation, relations)),
                       tuple(map(_row_provides, provides)), tuple(map(_provided_by, offers)))


def _held(line: str) -> HeldVersion:
    found = _matched(_HELD, "showpkg", line)
    return HeldVersion(found.group(1), tuple(found.group(2)[2:-1].split(") (")))


def _asked_by(line: str) -> AskedBy:
    found = _matched(_ASKING, "showpkg", line)
    return AskedBy(found.group(1), found.group(2), found.group(3) or _unexpected("showpkg", line), read_alternative(found.group(4)))


def _row_relation(line: str) -> RowRelation:
    found = _matched(_ROW_RELATION, "showpkg", line)
    return RowRelation(found.group(1), _relation(found.group(2) or _unexpected("showpkg", line), found.group(3)))


def _row_provides(line: str) -> RowProvides:
    found = _matched(_ROW_RELATION, "showpkg", line)
    if found.group(2):
        _unexpected("showpkg", line)
    return RowProvides(found.group(1), read_alternative(found.group(3)))


def _provided_by(line: str) -> ProvidedBy:
    found = _matched(_ASKING, "showpkg", line)
    if found.group(3):
        _unexpected("showpkg", line)
    return ProvidedBy(found.group(1), found.group(2), read_alternative(found.group(4)))
