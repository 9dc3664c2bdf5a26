"""A script from standard input: each command is answered before the next line is read, and lines count from the first of the script."""

from collections.abc import Callable, Iterator
from dataclasses import dataclass, field
from typing import BinaryIO

from ..errors import Refused
from ..script import LONGEST_LINE, WITH_BODY, name_of
from ..session import Session
from .list_names import ListNames


@dataclass
class Command:
    """A command of a script.

    first     the number of its line
    line      the line
    body      the lines of its body; None where it has none
    too_long  the number of its first line that is too long, or 0
    last      the number of the last line of the input, where that ends before the body does; else 0"""

    first: int
    line: bytes
    body: list[bytes] | None = None
    too_long: int = 0
    last: int = 0


@dataclass
class _Lines:
    """The lines of an input, counted. Of one that is too long no more is kept than shows that it is."""

    source: BinaryIO
    number: int = 0
    rest: list[bytes] = field(default_factory=list)

    def next(self) -> bytes | None:
        """The next line without its newline; None at the end."""
        line = piece = self.source.readline(LONGEST_LINE + 2)
        if not line:
            return None
        while piece and not piece.endswith(b"\n"):
            piece = self.source.readline(LONGEST_LINE + 2)
            line = line if len(line) > LONGEST_LINE else line + piece
        self.number += 1
        return line[:-1] if line.endswith(b"\n") and len(line) <= LONGEST_LINE + 1 else line


def commands(source: BinaryIO) -> Iterator[Command]:
    """The commands of a script, as the program parts them."""
    lines = _Lines(source)
    while (line := lines.next()) is not None:
        command = Command(lines.number, line)
        if len(line) > LONGEST_LINE:
            command.too_long = lines.number
        elif name_of(line) in WITH_BODY:
            _take_body(lines, command)
        elif not line.strip(b" \t") or line.lstrip(b" \t").startswith(b"#"):
            continue
        yield command


def _take_body(lines: _Lines, command: Command) -> None:
    command.body = []
    while (line := lines.next()) != b".":
        if line is None:
            command.last = lines.number
            return
        if len(line) > LONGEST_LINE and not command.too_long:
            command.too_long = lines.number
        command.body.append(line)


class ScriptRun:
    """Runs a script in a session, and writes what it answers."""

    def __init__(self, session: Session, lists: ListNames, write: Callable[[bytes], None]) -> None:
        self._session = session
        self._lists = lists
        self._write = write

    def run(self, source: BinaryIO) -> int:
        """The exit status: 1 where a command was refused."""
        status = 0
        for command in commands(source):
            refusal = self._refusal(command)
            if refusal is None:
                refusal = self._answer(command)
            if refusal is not None:
                status = 1
                self._write(b"E: line %d: %s\n" % refusal)
        return status

    @staticmethod
    def _refusal(command: Command) -> tuple[int, bytes] | None:
        """The refusals that come before all others, for which a line can't be handed on as it is."""
        if command.too_long:
            return command.too_long, b"line too long"
        if command.last:
            return command.last, b"body has no end"
        return None

    def _answer(self, command: Command) -> tuple[int, bytes] | None:
        line = self._lists.line_resolved(command.line)
        body = None if command.body is None else b"".join(text + b"\n" for text in command.body)
        try:
            answer = self._session.run(line, body)
        except Refused as refused:
            return command.first + refused.line - 1, refused.text.encode()
        self._lists.note(line)
        if answer:
            self._write(self._lists.shown(name_of(line).decode("ascii", "replace"), answer))
        return None
