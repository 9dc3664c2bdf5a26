"""Lists of apt in a session: those that are asked for, with the preferences of apt over what they hold."""

import os
from collections.abc import Callable, Iterable
from dataclasses import dataclass

from ..apt import AptList, AptSystem
from ..apt_files import AptFault
from ..apt_preferences import Preference
from ..session import Session
from .list_names import ListName, ListNames
from .preferences import Expansion, LeftOut, Setting, body
from .trials import Fault

Say = Callable[[str], None]


@dataclass(frozen=True)
class Choice:
    """Which lists are taken, by their names or short names, and whether a fault of one ends all."""

    only: tuple[str, ...] = ()
    without: tuple[str, ...] = ()
    strict: bool = False


def check_names(system: AptSystem, choice: Choice) -> None:
    """Fault for a name that no list has."""
    for option, words in (("--only", choice.only), ("--without", choice.without)):
        for word in words:
            try:
                system.find(word)
            except KeyError:
                raise Fault("%s: %s: no list has this name" % (option, word)) from None


def load_lists(session: Session, system: AptSystem, choice: Choice, say: Say, progress: Say) -> list[AptList]:
    """The lists that are asked for, of which those with a fault are left out with a line. Fault where that ends all."""
    check_names(system, choice)

    def show(entry: AptList, before: int, count: int) -> None:
        progress("Reading lists: %d of %d, %s" % (before + 1, count, entry.short or entry.name))

    def report(fault: AptFault) -> None:
        say("%s: the list is left out" % fault)

    try:
        return system.load_lists(session, only=choice.only, without=choice.without, strict=choice.strict, report=report, progress=show)
    except AptFault as fault:
        raise Fault(str(fault)) from None


def load_preferences(session: Session, system: AptSystem, lists: Iterable[AptList], say: Say) -> None:
    """The target and the preferences, over the names that the session has then. A record that counts for nothing is named."""
    session.target(system.target)
    expansion = Expansion(session, list(lists), system.architecture)
    settings: list[Setting] = []
    records: list[Preference] = list(system.preferences)
    if system.target is None:
        settings += [Setting(("*",), "release a=" + name, "990") for name in system.default_lists]
    for record in records:
        try:
            settings += expansion.settings(record)
        except LeftOut as cause:
            say("%s: line %d: %s: the record is left out" % (record.path, record.line, cause))
    session.prefs(body(settings))


def list_names(lists: Iterable[AptList]) -> ListNames:
    """The names of lists that a session has."""
    return ListNames(ListName(entry.name, entry.short or entry.name, entry.description, entry.path) for entry in lists)


def watched(system: AptSystem, root: str) -> list[str]:
    """The files whose change makes other lists or preferences: the folders of them, what is in those, and the files that are read."""
    top = os.path.realpath(root or "/").rstrip("/")
    folders = {os.path.dirname(entry.path) for entry in system.lists if entry.kind == "packages"} | {top + "/var/lib/apt/lists"}
    files = {entry.path for entry in system.lists} | {record.path for record in system.preferences if record.line}
    for name in ("apt.conf", "sources.list", "preferences"):
        files.add("%s/etc/apt/%s" % (top, name))
    folders |= {"%s/etc/apt/%s.d" % (top, name) for name in ("apt.conf", "sources.list", "preferences")}
    for folder in folders:
        files |= set(_files_in(folder))
    if "APT_CONFIG" in os.environ:
        files.add(os.environ["APT_CONFIG"])
    return sorted(files | {folder for folder in folders if not folder.endswith("/lists")})


def _files_in(folder: str) -> Iterable[str]:
    """The files of a folder that count: in that of lists those of packages and releases, which `apt update` replaces."""
    try:
        names = os.listdir(folder)
    except OSError:
        return []
    wanted = ("_Packages", "_InRelease", "_Release")
    return [os.path.join(folder, name) for name in names if not folder.endswith("/lists") or any(part in name for part in wanted)]
