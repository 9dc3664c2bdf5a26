"""The queries of a session, with answers as values."""

from abc import ABC, abstractmethod
from collections.abc import Callable, Iterable
from typing import Final, Literal, TypeVar

from . import answers
from .answers import Depends, Policy, Priorities, ReverseDepends, ShowPackage, Stanza, Unmet
from .channel import Answer
from .script import Text, command, quoted, to_bytes, to_text, value_word

Match = Literal["contains", "exact", "regex", "eq", "lt", "le", "gt", "ge"]
Value = TypeVar("Value")

_MATCHES: Final[dict[str, list[bytes]]] = {
    "contains": [], "exact": [b"-X"], "regex": [b"--rx"],
    "eq": [b"--eq"], "lt": [b"--lt"], "le": [b"--le"], "gt": [b"--gt"], "ge": [b"--ge"]}
# Letters of options of grep-dctrl that change what is printed.
_PRINTING: Final = b"cnsd"


class Queries(ABC):
    """The queries. A name that isn't known raises nothing: it has None or an empty list for its answer, and in the answers to many names it
    is left out. What can be no name at all is refused as "bad name" (8). The forms for many names write all questions before the first
    answer is read, and give a dict in the order of the names."""

    @abstractmethod
    def submit(self, line: Text, body: Text | None = None) -> Answer:
        """Writes a command."""

    @abstractmethod
    def submit_many(self, commands: Iterable[Text | tuple[Text, Text | None]]) -> list[Answer]:
        """Writes commands."""

    def _ask(self, name: bytes, words: Iterable[bytes] = ()) -> bytes:
        return self.submit(command(name, words)).result()

    def _ask_each(self, name: bytes, options: list[bytes], packages: Iterable[Text],
                  read: Callable[[bytes], Value | None]) -> dict[str, Value]:
        words = list(dict.fromkeys(to_bytes(package) for package in packages))
        handles = self.submit_many([command(name, [*options, value_word(word)]) for word in words])
        read_values = ((to_text(word), read(handle.result())) for word, handle in zip(words, handles))
        return {word: value for word, value in read_values if value is not None}

    def pkgnames(self, prefix: Text = "", *, all_names: bool = False) -> list[str]:
        """The names that begin with a prefix, of packages that have a version; with `all_names` of all that are known."""
        options = [b"--all-names"] if all_names else []
        return answers.read_names(self._ask(b"pkgnames", options + ([value_word(prefix)] if prefix else [])))

    def show(self, package: Text, version: Text | None = None, *, all_versions: bool = True) -> list[Stanza]:
        """The stanzas of a package: of each of its versions, newest first; of one version; or without `all_versions` of the candidate
        alone. An empty list where the package, or its version, isn't known."""
        word = _package_word(package) if version is None else b"%s=%s" % (_package_word(package), to_bytes(version))
        return answers.read_shown(self._ask(b"show", [_versions_option(all_versions), quoted(word)]))

    def show_many(self, packages: Iterable[Text], *, all_versions: bool = True) -> dict[str, list[Stanza]]:
        """The stanzas of each package that has some."""
        words = [_package_word(package) for package in packages]
        return self._ask_each(b"show", [_versions_option(all_versions)], words, lambda answer: answers.read_shown(answer) or None)

    def depends(self, package: Text, *, important: bool = False, installed: bool = False) -> Depends | None:
        """What the candidate of a package names in its relations; None where the package isn't known.

        important  only Pre-Depends and Depends
        installed  only what is installed, or is offered by what is installed"""
        return self.depends_many([package], important=important, installed=installed).get(to_text(to_bytes(package)))

    def depends_many(self, packages: Iterable[Text], *, important: bool = False, installed: bool = False) -> dict[str, Depends]:
        """The same of each package that is known."""
        options = ([b"--important"] if important else []) + ([b"--installed"] if installed else [])
        return self._ask_each(b"depends", options, packages, answers.read_depends)

    def rdepends(self, package: Text, *, installed: bool = False) -> ReverseDepends | None:
        """The packages that name a package, or with `installed` those of them that are installed; None where it isn't known."""
        return self.rdepends_many([package], installed=installed).get(to_text(to_bytes(package)))

    def rdepends_many(self, packages: Iterable[Text], *, installed: bool = False) -> dict[str, ReverseDepends]:
        """The same of each package that is known."""
        return self._ask_each(b"rdepends", [b"--installed"] if installed else [], packages, answers.read_rdepends)

    def unmet(self, *, important: bool = False) -> list[Unmet]:
        """The versions that have dependencies which nothing in the lists meets, by names; with `important` only by Pre-Depends and
        Depends."""
        return answers.read_unmet(self._ask(b"unmet", [b"--important"] if important else []))

    def policy(self, package: Text) -> Policy | None:
        """The installed version, the candidate and the versions of a package with their priorities; None where it isn't known."""
        return self.policy_many([package]).get(to_text(to_bytes(package)))

    def policy_many(self, packages: Iterable[Text]) -> dict[str, Policy]:
        """The same of each package that is known."""
        return self._ask_each(b"policy", [], packages, answers.read_policy)

    def priorities(self) -> Priorities:
        """The priorities of all lists, and of the versions that a pin of their package has given one."""
        return answers.read_priorities(self._ask(b"policy"))

    def showpkg(self, package: Text) -> ShowPackage | None:
        """All that concerns a name: versions, relations and offers of its own, and those of others; None where it isn't known."""
        return self.showpkg_many([package]).get(to_text(to_bytes(package)))

    def showpkg_many(self, packages: Iterable[Text]) -> dict[str, ShowPackage]:
        """The same of each package that is known."""
        return self._ask_each(b"showpkg", [], packages, answers.read_showpkg)

    def grep(self, *words: Text, pattern: Text | None = None, fields: Iterable[Text] | None = None, match: Match = "contains",
             ignore_case: bool = False, invert: bool = False, show: Iterable[Text] | None = None) -> list[Stanza]:
        """The stanzas for which a filter is true, in the order of the lists, live or not.

        words        the filter in words of grep-dctrl, each a word by itself: grep("-F", "Section", "net", "-a", "!", "-P", "foo"). They
                     have no option that changes what is printed (-c, -n, -s, -d): ValueError
        pattern      or, without words, one pattern
        fields       the names of the fields in which it is looked for; without them in the whole stanza
        match        "contains"; "exact": it is the whole body; "regex": an expression in Rust's syntax; "eq", "lt", "le", "gt", "ge": body
                     and pattern are versions, and the body is equal to it, older, no newer, newer, no older
        ignore_case  letters without regard to case
        invert       the stanzas for which the filter is false
        show         the names of the fields that the stanzas are to have, in this order; a stanza without any of them is left out"""
        names = None if show is None else list({to_bytes(name).lower(): name for name in show}.values())
        options = [] if names is None else [b"-s", _joined(names)]
        made = options + _filter(words, pattern, fields, match, ignore_case, invert)
        return answers.read_stanzas(self._ask(b"grep-dctrl", made), one_field=names is not None and len(names) == 1)

    def grep_count(self, *words: Text, pattern: Text | None = None, fields: Iterable[Text] | None = None, match: Match = "contains",
                   ignore_case: bool = False, invert: bool = False) -> int:
        """How many stanzas `grep` would give."""
        made = [b"-c"] + _filter(words, pattern, fields, match, ignore_case, invert)
        return answers.read_count(self._ask(b"grep-dctrl", made))


def _package_word(package: Text) -> bytes:
    """The name of a package where a version may stand behind it."""
    word = to_bytes(package)
    if b"=" in word:
        raise ValueError("%r: the version of a package is an argument of its own" % package)
    value_word(word)
    return word


def _versions_option(all_versions: bool) -> bytes:
    return b"--all-versions" if all_versions else b"--no-all-versions"


def _joined(names: Iterable[Text]) -> bytes:
    """Names of fields as one word."""
    words = [to_bytes(name) for name in names]
    if not words or any(b"," in word for word in words):
        raise ValueError("%r: no names of fields" % words)
    return quoted(b",".join(words))


def _filter(words: tuple[Text, ...], pattern: Text | None, fields: Iterable[Text] | None, match: str, ignore_case: bool,
            invert: bool) -> list[bytes]:
    """The words of a filter."""
    if bool(words) == (pattern is not None):
        raise ValueError("a filter is words, or a pattern: one of the two")
    made = [b"-v"] if invert else []
    if pattern is None:
        if fields is not None or match != "contains" or ignore_case:
            raise ValueError("a filter of words says in them how it matches")
        _check_printing(words)
        return made + [quoted(word) for word in words]
    if match not in _MATCHES:
        raise ValueError("%r: no way to match" % match)
    made += [] if fields is None else [b"-F", _joined(fields)]
    return made + ([b"-i"] if ignore_case else []) + _MATCHES[match] + [quoted(b"--pattern=" + to_bytes(pattern))]


def _check_printing(words: tuple[Text, ...]) -> None:
    """ValueError where words of a filter change what is printed."""
    is_value = False
    for word in map(to_bytes, words):
        if is_value or not word.startswith(b"-") or word.startswith(b"--"):
            is_value = False
            continue
        letters = word[1:]
        ends = [place for place in (letters.find(b"F"), letters.find(b"s")) if place >= 0]
        is_value = bool(ends) and min(ends) == len(letters) - 1
        letters = letters[:min(ends) + 1] if ends else letters
        if any(letter in _PRINTING for letter in letters):
            raise ValueError("%r: an option that changes what is printed" % to_text(word))
