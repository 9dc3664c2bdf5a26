"""The names of lists: those by which a session knows them, short ones, and those that apt-cache(8) prints."""

import re
from collections.abc import Iterable
from dataclasses import dataclass

_POLICY_ROW = re.compile(rb"^( +-?[0-9]+ )([^ \n]+)$", re.MULTILINE)
_VERSION_ROW = re.compile(rb"^[^ \n]+(?: \([^ ()\n]+\))+$", re.MULTILINE)
_WORD = re.compile(rb"(?:[^ \t']|'[^']*')+")


@dataclass(frozen=True)
class ListName:
    """A list of a session.

    name         by which the session knows it
    short        a word for it that no other list has; may be the name
    description  as `policy` of apt-cache names it
    path         its file, as `showpkg` of apt-cache names it"""

    name: str
    short: str
    description: str
    path: str


class ListNames:
    """The lists of a session that come from files, and those that commands have added."""

    def __init__(self, lists: Iterable[ListName]) -> None:
        self._lists = {entry.name: entry for entry in lists}
        self._short = {entry.short: entry.name for entry in self._lists.values()}
        self._added: set[str] = set()
        self._descriptions = {entry.name.encode(): entry.description.encode("utf-8", "surrogateescape") for entry in self._lists.values()}
        self._paths = {entry.name.encode(): entry.path.encode("utf-8", "surrogateescape") for entry in self._lists.values()}

    def add(self, name: str) -> None:
        """A list that a command has added: its name is no short one any more."""
        self._added.add(name)

    def resolved(self, word: str) -> str:
        """The name of the list that a word names; the word itself where it is none of a file."""
        if word in self._lists or word in self._added:
            return word
        return self._short.get(word, word)

    def short(self, name: str) -> str:
        """The short name of a list; its name where it is none of a file."""
        entry = self._lists.get(name)
        return name if entry is None else entry.short

    def shown(self, command: str, answer: bytes) -> bytes:
        """An answer of `policy` or `showpkg` with lists named as apt-cache names them; any other as it is."""
        if command == "policy":
            return _POLICY_ROW.sub(self._policy_row, answer)
        if command == "showpkg":
            return _VERSION_ROW.sub(self._version_row, answer)
        return answer

    def _policy_row(self, row: "re.Match[bytes]") -> bytes:
        return row.group(1) + self._descriptions.get(row.group(2), row.group(2))

    def _version_row(self, row: "re.Match[bytes]") -> bytes:
        version, *holders = row.group().split(b" ")
        return b" ".join([version, *(b"(%s)" % self._paths.get(holder[1:-1], holder[1:-1]) for holder in holders)])

    def words_resolved(self, command: str, words: list[str]) -> list[str]:
        """The words of an edit, with the name of the list in the place of a short one."""
        place = _place_of_list(command, words)
        return [self.resolved(word) if number == place else word for number, word in enumerate(words)]

    def line_resolved(self, line: bytes) -> bytes:
        """The line of an edit, with the name of the list in the place of a short one."""
        spans = list(_WORD.finditer(line))
        words = [span.group().decode("utf-8", "surrogateescape") for span in spans]
        place = _place_of_list(words[0], words[1:]) if words else None
        if place is None:
            return line
        span, word = spans[place + 1], words[place + 1].replace("'", "")
        name = self.resolved(word)
        return line if name == word else line[:span.start()] + name.encode() + line[span.end():]

    def note(self, line: bytes) -> None:
        """Remembers the list that an accepted line has added."""
        words = [word.decode("utf-8", "surrogateescape").replace("'", "") for word in _WORD.findall(line)]
        if words[:1] == ["add-list"] and len(words) > 1:
            self.add(words[1])


def _place_of_list(command: str, words: list[str]) -> int | None:
    """Which of the words of an edit names a list."""
    if command in ("drop-list", "put", "remove", "target"):
        place = 0
    elif command in ("pin", "unpin") and words[1:2] == ["release"]:
        place = 2
    else:
        return None
    return place if place < len(words) else None
