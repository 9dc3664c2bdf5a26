"""One command that is given by words: its answer, its refusal by the word that is wrong, and its exit status."""

from dataclasses import dataclass

from ..errors import Refused
from ..script import quoted, to_bytes, to_text
from ..session import Session
from . import patterns, rows
from .grep_words import Advice, program_words
from .json_forms import json_answer
from .list_names import ListNames
from .words import BODIES, EDITS, OF_NAMES, QUERIES, wrong_word

# The status of apt-cache where no word names a package that it knows.
NOTHING_FOUND = 100
# Queries that have it.
_WITH_STATUS = frozenset(("show", "depends", "rdepends"))
_UNKNOWN = b"N: Unable to locate package "


@dataclass
class Reply:
    """What a command is answered: its exit status, and the bytes of its output and errors."""

    status: int = 0
    output: bytes = b""
    errors: bytes = b""

    def say(self, text: str) -> None:
        """A line more of errors."""
        self.errors += to_bytes(text) + b"\n"


class Asker:
    """Answers commands of words by a session.

    architecture  that of the machine, by which names may be qualified"""

    def __init__(self, session: Session, lists: ListNames, architecture: str) -> None:
        self._session = session
        self._lists = lists
        self._qualifiers = {architecture, "native", "any"}
        self._known: dict[bool, list[str]] = {}

    def answer(self, words: list[str], *, json: bool = False, may_edit: bool = True) -> Reply:
        """The answer to a command."""
        reply, command = Reply(), words[0]
        if command not in QUERIES | EDITS:
            reply.status = 1
            reply.say("dctrl-cache-apt: %s: unknown command" % command)
        elif command in EDITS and not may_edit:
            reply.status = 2
            reply.say("dctrl-cache-apt: %s: a served session answers queries alone" % command)
        elif command in EDITS and json:
            reply.status = 2
            reply.say("dctrl-cache-apt: --json: %s is no query" % command)
        elif command in BODIES:
            reply.status = 1
            reply.say("dctrl-cache-apt: %s: body has no end: a command with a body is given in a script" % command)
        else:
            self._run(reply, command, words[1:], json)
        return reply

    def _run(self, reply: Reply, command: str, words: list[str], json: bool) -> None:
        try:
            said = self._program_words(reply, command, words)
            if said is None:
                return
            if json:
                reply.output = json_answer(self._session, command, said, self._lists)
            else:
                answers = self._session.submit_many(list(self._lines(command, said)))
                reply.output = b"".join(self._lists.shown(command, answer.result()) for answer in answers)
        except Advice as advice:
            reply.status = 2
            reply.say("dctrl-cache-apt: grep-dctrl: %s" % advice)
            return
        except Refused as refused:
            self._refuse(reply, command, words, refused)
            return
        if command in _WITH_STATUS and self._nothing_found(command, said):
            reply.status = NOTHING_FOUND
            reply.say("E: No packages found")

    def _program_words(self, reply: Reply, command: str, words: list[str]) -> list[str] | None:
        """The words of the program; None where patterns name no package, and nothing is to be asked."""
        if command == "grep-dctrl":
            return program_words(words)
        if command in EDITS:
            return self._lists.words_resolved(command, words)
        if command not in OF_NAMES:
            return words
        said: list[str] = []
        for word in words:
            said += [word] if word.startswith("-") else self._names(reply, command, word)
        if any(not word.startswith("-") for word in words) and all(word.startswith("-") for word in said):
            if command in _WITH_STATUS:
                reply.status = NOTHING_FOUND
                reply.say("E: No packages found")
            return None
        return said

    def _names(self, reply: Reply, command: str, word: str) -> list[str]:
        """The names that a word is for: without this machine's architecture, and those of a pattern."""
        name, equals, version = word.partition("=")
        plain, colon, qualifier = name.rpartition(":")
        name = plain if colon and qualifier in self._qualifiers else name
        if not patterns.is_pattern(name):
            return [name + equals + version]
        found = [known + equals + version for known in self._known_names(command != "show") if patterns.matches(name, known)]
        if not found:
            reply.say("N: Couldn't find any package by glob '%s'" % name)
        return found

    def _known_names(self, all_names: bool) -> list[str]:
        if all_names not in self._known:
            self._known[all_names] = rows.names(self._session, all_names=all_names)
        return self._known[all_names]

    def _lines(self, command: str, words: list[str]) -> list[bytes]:
        """The lines of the command: as many as its names need, with its options on each."""
        if command not in OF_NAMES or not words:
            return [b" ".join([to_bytes(command), *(quoted(word) for word in words)])]
        options = [word for word in words if word.startswith("-")]
        start = " ".join([command, *(to_text(quoted(word)) for word in options)])
        lines = list(rows.commands_of(start, [word for word in words if not word.startswith("-")]))
        return lines or [to_bytes(start)]

    def _nothing_found(self, command: str, words: list[str]) -> bool:
        """Whether no word names a package that is known, so that apt-cache would end with a status of its own."""
        plain = [word.partition("=")[0] for word in words if not word.startswith("-")]
        return bool(plain) and not any(self._is_known(name) for name in plain)

    def _is_known(self, name: str) -> bool:
        found = self._session.run(b"pkgnames --all-names " + quoted(name))
        return found.startswith(to_bytes(name) + b"\n")

    def _refuse(self, reply: Reply, command: str, words: list[str], refused: Refused) -> None:
        """Says a refusal by the words and the one that is wrong."""
        reply.status = 1
        reply.output = b""
        wrong = wrong_word(command, words, refused.text)
        reply.say("dctrl-cache-apt: %s: %s%s" % (said_words(command, words), refused.text, "" if wrong is None else ": " + wrong))


def said_words(command: str, words: list[str]) -> str:
    """The words of a command as they would be typed, not more than a line of them."""
    text = " ".join([command, *(to_text(quoted(word)) for word in words)])
    return text if len(text) <= 100 else text[:97] + "..."

