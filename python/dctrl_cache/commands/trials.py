"""Uploads and removals that are tried in a session, and what they leave unmet."""

from dataclasses import dataclass

from ..errors import Refused
from ..script import Text
from ..session import Session
from .rows import Unmet, binaries, rows_of, unmet
from .versions import version_key

_NO_SUCH_STANZA = 14


class Fault(Exception):
    """What ends a command with status 2; the text says it."""


@dataclass(frozen=True)
class Upload:
    """A stanza to be put: its package and version, its text, and where it comes from."""

    package: str
    version: str
    text: Text
    origin: str
    line: int = 1


@dataclass(frozen=True)
class Change:
    """What is unmet after a trial and wasn't before, and what was before and isn't any more."""

    unmet: list[Unmet]
    met: list[Unmet]


def versions_in(session: Session, list_name: str, package: str) -> list[str]:
    """The versions of a package that a list holds."""
    return [row.version for row in rows_of(session, [package]).get(package, []) if list_name in row.lists]


def remove_all(session: Session, list_name: str, package: str, version: str) -> int:
    """Takes out each stanza of the list with this package and an equal version. Returns how many there were."""
    count = 0
    while True:
        try:
            session.remove(list_name, package, version)
        except Refused as refused:
            if refused.number != _NO_SUCH_STANZA:
                raise
            return count
        count += 1


def upload(session: Session, list_name: str, stanzas: list[Upload]) -> None:
    """Puts stanzas into a list; older versions of the same packages leave it."""
    for stanza in stanzas:
        try:
            session.put(list_name, stanza.text)
        except Refused as refused:
            line = stanza.line + (refused.body_line or 1) - 1
            raise Fault("%s: line %d: %s" % (stanza.origin, line, refused.text)) from None
        key = version_key(stanza.version)
        for version in versions_in(session, list_name, stanza.package):
            if version_key(version) < key:
                remove_all(session, list_name, stanza.package, version)


def remove(session: Session, list_name: str, names: list[str]) -> None:
    """Takes the binaries of sources out of a list; a name of which there is no source there is a package."""
    for name in names:
        found = [stanza for stanza in binaries(session, name) if stanza.source == name]
        holders = rows_of(session, sorted({stanza.package for stanza in found}))
        held = {(package, version_key(row.version)) for package, rows in holders.items() for row in rows if list_name in row.lists}
        chosen = [(stanza.package, stanza.version) for stanza in found if (stanza.package, version_key(stanza.version)) in held]
        if not chosen:
            chosen = [(name, version) for version in versions_in(session, list_name, name)]
        if not chosen:
            raise Fault("%s: the list %s has neither a source nor a package of this name" % (name, list_name))
        for package, version in chosen:
            remove_all(session, list_name, package, version)


def difference(before: list[Unmet], after: list[Unmet]) -> Change:
    """The rows of one answer of `unmet` that another one hasn't, and the other way round."""
    old, new = set(before), set(after)
    return Change([row for row in after if row not in old], [row for row in before if row not in new])


class Trial:
    """Remembers what is unmet, so that edits can be judged by it."""

    def __init__(self, session: Session, *, important: bool = False) -> None:
        self._session = session
        self._important = important
        self._before = unmet(session, important=important)

    def change(self) -> Change:
        """What the edits since then have changed."""
        return difference(self._before, unmet(self._session, important=self._important))
