"""The lists, classes, preferences and target that apt(8) has on this machine, or below another folder."""

import json
import os
import re
import subprocess
import sys
import tempfile
from collections.abc import Callable, Iterable, Iterator, Sequence
from contextlib import contextmanager
from dataclasses import dataclass, field
from typing import Any, Final

from . import apt_files, apt_preferences
from .apt_files import AptFault
from .apt_preferences import Preference
from .errors import BodyError, Refused
from .session import Classification, Kind, Session

__all__ = ["AptFault", "AptList", "AptSystem", "Preference", "Progress", "Report", "apt_lists"]

_PYTHON: Final = "/usr/bin/python3"
_PROBE: Final = os.path.join(os.path.dirname(os.path.abspath(__file__)), "apt_probe.py")
_BY_COMPONENT = re.compile("(.*)_binary-([^_]*)_Packages")

Report = Callable[[AptFault], None]
Progress = Callable[["AptList", int, int], None]


@dataclass(frozen=True)
class AptList:
    """A list that apt keeps.

    name            by which a session knows it: the name of its file without what a name can't have; "status" for what dpkg has
    kind            "packages" or "status"
    classification  "notauto" where its Release file says NotAutomatic, "butauto" where it says ButAutomaticUpgrades too, else None
    path            its file, which may be packed
    description     as `policy` of apt-cache(8) names it
    short           a short name, as main, updates, security; its name where another list has the same
    suite, codename, version, origin, label
                    what its Release file says; empty where it says nothing
    component, architecture, site
                    what else pins ask for; empty where it isn't known"""

    name: str
    kind: Kind
    classification: Classification | None
    path: str
    description: str
    short: str = ""
    suite: str = ""
    codename: str = ""
    version: str = ""
    origin: str = ""
    label: str = ""
    component: str = ""
    architecture: str = ""
    site: str = ""

    def read(self, architecture: str) -> bytes:
        """Its text, unpacked; stanzas of other architectures than this one are blank lines. AptFault where it can't be read."""
        return apt_files.without_others(apt_files.read_list(self.path), architecture)


@dataclass(frozen=True)
class AptSystem:
    """What apt has.

    lists            the lists in the order of apt's sources, that of dpkg last
    preferences      the records of apt's files of preferences, in the order in which they count, as they stand
    target           the name of the list that is the default release, where that is one list
    architecture     that of the machine
    default_release  APT::Default-Release, or nothing
    default_lists    the names of the lists that it means"""

    lists: tuple[AptList, ...]
    preferences: tuple[Preference, ...]
    target: str | None
    architecture: str
    default_release: str = ""
    default_lists: tuple[str, ...] = field(default=())

    def find(self, name: str) -> AptList:
        """The list of a name, or of a short name. KeyError where there is none."""
        for entry in self.lists:
            if entry.name == name:
                return entry
        for entry in self.lists:
            if entry.short == name:
                return entry
        raise KeyError(name)

    def chosen(self, *, only: Iterable[str] = (), without: Iterable[str] = ()) -> list[AptList]:
        """The lists of the names in `only`, or all; but those of `without`. KeyError for a name that no list has."""
        wanted = [self.find(name) for name in only]
        left = [self.find(name) for name in without]
        return [entry for entry in self.lists if (not wanted or entry in wanted) and entry not in left]

    def settings(self) -> list[Preference]:
        """The preferences as records of the program: releases and origins are names of lists. A default release of several lists comes
        first, as 990 for each."""
        several = () if self.target else self.default_lists
        first = [Preference("APT::Default-Release", 0, "*", "release a=" + name, "990") for name in several]
        return first + [made for record in self.preferences for made in apt_preferences.resolved(record, self.lists, self.architecture)]

    def load(self, session: Session, *, only: Iterable[str] = (), without: Iterable[str] = (), strict: bool = False,
             report: Report | None = None, progress: Progress | None = None) -> list[AptList]:
        """Gives a session the lists, the preferences and the target, and returns the lists that it took.

        only      names of lists, or short names: no other list is taken
        without   those that aren't taken
        strict    a list with a fault raises AptFault; else it is left out
        report    called with the AptFault of each list and record that is left out; else they are lines on standard error
        progress  called before a list is read: with the list, how many came before it, and how many there are

        KeyError for a name that no list has; Refused where a list of that name is there already, or there is no memory."""
        taken = self.load_lists(session, only=only, without=without, strict=strict, report=report, progress=progress)
        self.load_preferences(session, report=report)
        return taken

    def load_lists(self, session: Session, *, only: Iterable[str] = (), without: Iterable[str] = (), strict: bool = False,
                   report: Report | None = None, progress: Progress | None = None) -> list[AptList]:
        """The lists alone; see `load`."""
        entries = self.chosen(only=only, without=without)
        taken = []
        for count, entry in enumerate(entries):
            if progress is not None:
                progress(entry, count, len(entries))
            try:
                self._add(session, entry)
                taken.append(entry)
            except AptFault as fault:
                if strict:
                    raise
                (report or _report)(fault)
        return taken

    def _add(self, session: Session, entry: AptList) -> None:
        text = entry.read(self.architecture)
        try:
            session.add_list(entry.name, entry.kind, text, entry.classification)
        except BodyError as error:
            raise AptFault(entry.path, error.line, "not a control line") from None
        except Refused as refused:
            if refused.body_line is None:
                raise
            raise AptFault(entry.path, refused.body_line, refused.text) from None

    def load_preferences(self, session: Session, *, settings: Sequence[Preference] | None = None, report: Report | None = None) -> None:
        """The target and the preferences alone; see `load`. `settings` are records to take in the place of `self.settings()`."""
        records = self.settings() if settings is None else list(settings)
        session.target(self.target)
        answers = session.submit_many([("prefs", apt_preferences.record_text(record)) for record in records])
        kept, told = [], set()
        for record, answer in zip(records, answers):
            try:
                answer.result()
                kept.append(record)
            except Refused as refused:
                if (record.path, record.line) not in told:
                    (report or _report)(AptFault(record.path, record.line, refused.text + ": the record is left out"))
                told.add((record.path, record.line))
        session.prefs("\n".join(apt_preferences.record_text(record) for record in kept))


def _report(fault: AptFault) -> None:
    print(fault, file=sys.stderr)


def apt_lists(root: str | os.PathLike[str] = "/") -> AptSystem:
    """What apt has on this machine; or, for another root, in the system below that folder, whose architecture is that of its dpkg.

    The lists are those of apt's sources that were fetched; where there are no sources, all files of packages. Lists of other
    architectures are left out. The environment's APT_CONFIG counts as it does for apt, but below another root.

    AptFault where the folder can't be entered, apt's configuration, sources or preferences can't be read, or no list is of the default
    release."""
    told = _probe(os.fspath(root))
    architecture, status = told["architecture"], told["status"]
    if told["indexes"] is None:
        found = _files_of(told["lists"])
    else:
        found = [_of_source(index, told["lists"]) for index in told["indexes"]]
    lists = [entry for entry in _named(found) if entry.architecture in ("", architecture, "all")]
    lists = _with_short_names(lists) + [AptList("status", "status", None, status, status, "status", suite="now")]
    default = told["default_release"]
    names = apt_preferences.lists_of_release(lists, default) if default else []
    if names is None:
        raise AptFault("APT::Default-Release", None, "no list is of the release " + default)
    files = apt_files.preference_files(told["preferences"], told["preferences_parts"])
    records = tuple(record for file in files for record in _records_of(file))
    target = names[0] if len(names) == 1 and names[0] != "status" else None
    return AptSystem(tuple(lists), records, target, architecture, default, tuple(names))


def _records_of(path: str) -> list[Preference]:
    try:
        return list(apt_preferences.read_preferences(path))
    except OSError:
        raise AptFault(path, None, "cannot read") from None


@contextmanager
def _environment(root: str) -> Iterator[dict[str, str]]:
    """The environment in which apt has the system below a folder for its own."""
    if os.path.realpath(root) == "/":
        yield dict(os.environ)
        return
    if not os.path.isdir(root) or not os.access(root, os.X_OK):
        raise AptFault(root, None, "not a folder that can be entered")
    place = os.path.realpath(root)
    if '"' in place or "\n" in place:
        raise AptFault(root, None, "a folder of this name cannot be told to apt")
    lines = ['Dir "%s/";' % place, 'Dir::State::status "%s/var/lib/dpkg/status";' % place]
    for setting, name in (("parts", "apt.conf.d"), ("sourceparts", "sources.list.d"), ("preferencesparts", "preferences.d")):
        path = "%s/etc/apt/%s" % (place, name)
        lines.append('Dir::Etc::%s "%s";' % (setting, name if os.path.isdir(path) else "/dev/null"))
    architecture = _architecture_of(place + "/var/lib/dpkg/status")
    if architecture:
        lines.append('APT::Architecture "%s";\nAPT::Architectures { "%s"; };' % (architecture, architecture))
    with tempfile.NamedTemporaryFile("w", prefix="dctrl-cache-", suffix=".conf", encoding="utf-8", errors="surrogateescape") as file:
        file.write("\n".join(lines) + "\n")
        file.flush()
        yield {**os.environ, "APT_CONFIG": file.name}


def _architecture_of(status: str) -> str:
    """The architecture of the dpkg that a status file has; empty where it has none."""
    try:
        with open(status, "rb") as file:
            text = file.read()
    except OSError:
        return ""
    found = re.search(rb"(?m)^Package: dpkg\n(?:.+\n)*?Architecture: ([a-z0-9-]+)$", text)
    return found.group(1).decode() if found else ""


def _probe(root: str) -> dict[str, Any]:
    """What apt_probe.py tells of a system."""
    python = _PYTHON if os.access(_PYTHON, os.X_OK) else sys.executable
    with _environment(root) as environment:
        got = subprocess.run([python, "-I", _PROBE], stdin=subprocess.DEVNULL, stdout=subprocess.PIPE, stderr=subprocess.PIPE,
                             env={**environment, "LC_ALL": "C.UTF-8"})
    if got.returncode != 0:
        said = got.stderr.decode("utf-8", "surrogateescape").strip().splitlines()
        raise AptFault(root, None, "apt's settings or sources cannot be read: " + (said[-1] if said else "no reason is told"))
    told: dict[str, Any] = json.loads(got.stdout)
    return told


def _of_source(index: dict[str, str], lists: str) -> AptList:
    """A list that a source names. Its description has its file behind it, in parentheses."""
    place = index["described"].find(" (" + lists)
    if place < 0:
        place = index["described"].rindex(" (")
    description, path = index["described"][:place], index["described"][place + 2:-1]
    base = os.path.basename(apt_files.plain_name(path))
    dist = index["dist"]
    above = index["uri"].rstrip("/") + "/" + ("" if dist == "/" else dist if dist.endswith("/") else "dists/%s/" % dist)
    prefix = _file_name(above)
    if not base.startswith(prefix):
        prefix = base[:-len("Packages")] if base.endswith("Packages") else base
    return _told_by(lists, path, description, prefix, base[len(prefix):], _site(index["uri"]), dist)


def _files_of(lists: str) -> list[AptList]:
    """All files of packages in a folder of lists."""
    made: dict[str, AptList] = {}
    try:
        names = sorted(os.listdir(lists), key=os.fsencode)
    except OSError:
        return []
    for name in names:
        base = apt_files.plain_name(name)
        if not base.endswith("_Packages") or base in made or not os.path.isfile(lists + name):
            continue
        found = re.fullmatch("(.*_dists_.*_)([^_]*_binary-[^_]*_Packages)", base)
        prefix = found.group(1) if found else base[:-len("Packages")]
        described, dist = _described(base)
        made[base] = _told_by(lists, lists + name, described, prefix, base[len(prefix):], described.partition("/")[0], dist)
    return list(made.values())


def _told_by(lists: str, path: str, description: str, prefix: str, rest: str, site: str, dist: str) -> AptList:
    """A list by what its Release file and the name of its file tell. `short` is what may become its short name."""
    fields = apt_files.read_release(lists + prefix)
    parts = _BY_COMPONENT.fullmatch(rest)
    component = _plain_text(parts.group(1)) if parts else ""
    architecture = parts.group(2) if parts else ""
    classification: Classification | None = None
    if apt_files.is_true(fields.get("notautomatic", "")):
        classification = "butauto" if apt_files.is_true(fields.get("butautomaticupgrades", "")) else "notauto"
    return AptList(_base_name(path), "packages", classification, path, description, _short(dist, component), fields.get("suite", ""),
                   fields.get("codename", ""), fields.get("version", ""), fields.get("origin", ""), fields.get("label", ""), component,
                   architecture, site)


def _file_name(uri: str) -> str:
    """The name that apt gives to the file of an address, as far as it goes."""
    text = re.sub("^[^:/]*:(//)?", "", uri)
    text = re.sub("^[^/]*@", "", text)
    return text.replace("_", "%5f").replace("/", "_")


def _plain_text(part: str) -> str:
    return part.replace("_", "/").replace("%5f", "_")


def _described(base: str) -> tuple[str, str]:
    """The words by which apt-cache names a source, and its release, as far as the name of a file has them."""
    text = _plain_text(base)
    site, found, rest = text.partition("/dists/")
    parts = rest.split("/")
    if not found or len(parts) < 3:
        return base, ""
    return "%s %s/%s %s Packages" % (site, parts[0], parts[-3], parts[-2].removeprefix("binary-")), parts[0]


def _site(uri: str) -> str:
    """The host of an address; empty where it has none."""
    found = re.match("[^:/]*://(?:[^/@]*@)?([^/:]*)", uri)
    return found.group(1) if found else ""


def _base_name(path: str) -> str:
    """A name for a list: that of its file, in the letters that a name has."""
    name = re.sub("[^A-Za-z0-9+._-]", "+", os.path.basename(apt_files.plain_name(path)))
    return name if name[:1].isalnum() else "file" + name


def _named(lists: Iterable[AptList]) -> list[AptList]:
    """The lists, each file once and each with a name of its own."""
    made: dict[str, AptList] = {}
    paths: set[str] = set()
    for entry in lists:
        if entry.path in paths:
            continue
        paths.add(entry.path)
        name, count = entry.name, 0
        while name in made or name == "status":
            count += 1
            name = "%s-%d" % (entry.name, count)
        made[name] = _replaced(entry, name=name)
    return list(made.values())


def _short(dist: str, component: str) -> str:
    """What a list is called in short: its component, or for a release beside another (as bookworm-updates) what that is to it."""
    pocket = re.fullmatch("[^-/]+[-/]([A-Za-z0-9+._-]+)", dist)
    words = [pocket.group(1)] if pocket else []
    if component and not (pocket and component == "main"):
        words.append(component)
    return re.sub("[^A-Za-z0-9+._-]", "+", "-".join(words))


def _with_short_names(lists: Sequence[AptList]) -> list[AptList]:
    """The lists, each with its own name for short where another has the same short name."""
    shorts = [entry.short for entry in lists]
    names = {entry.name for entry in lists} | {"status", ""}
    return [entry if shorts.count(entry.short) == 1 and entry.short not in names else _replaced(entry, short=entry.name) for entry in lists]


def _replaced(entry: AptList, **fields: Any) -> AptList:
    return AptList(**{**entry.__dict__, **fields})
