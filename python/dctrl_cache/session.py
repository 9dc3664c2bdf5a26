"""A session: a program that stays, whose edits and queries are methods."""

import os
from collections.abc import Iterable, Sequence
from types import TracebackType
from typing import Literal

from .channel import Answer, Channel
from .errors import UnexpectedAnswer
from .queries import Queries
from .script import Source, Text, command, quoted, read_source, to_bytes, to_text

Kind = Literal["packages", "status"]
Classification = Literal["notauto", "butauto"]


class Session(Queries):
    """A running dctrl-cache: `with Session() as session: ..`. It holds lists of packages until it is closed.

    program  the program, by its path or as it is found on PATH; or a sequence of it and words, as ["dctrl-cache", "-l", "main=Packages"]
    memory   how many bytes of addresses the program may have (RLIMIT_AS): past it a command is refused as "out of memory". Without a limit
             the kernel hardly ever refuses memory
    cpu      how many seconds of a processor the program may take (RLIMIT_CPU); then the kernel ends it

    OSError where the program can't be run; ValueError or PermissionError for a limit that can't be set.

    Words and texts are str, which stands for UTF-8 with surrogateescape, or bytes; what is answered is str, and the answer of `run` bytes.

    Each method raises Refused where the program refuses the command, which then has changed nothing; Ended where the program has ended;
    and ValueError, before anything is written, for a value that no word or body can hold. Several threads may use one session: each
    command is whole, and they are in some order.

    At the end of `with` the input is ended and the program waited for; it is killed where an exception comes out of the block."""

    def __init__(self, program: str | os.PathLike[str] | Sequence[str] = "dctrl-cache", *, memory: int | None = None,
                 cpu: int | None = None) -> None:
        self._channel = Channel(program, memory=memory, cpu=cpu)

    def __enter__(self) -> "Session":
        return self

    def __exit__(self, kind: type[BaseException] | None, error: BaseException | None, trace: TracebackType | None) -> None:
        if kind is None:
            self.close()
        else:
            self.kill()

    @property
    def pid(self) -> int:
        """The number of the process."""
        return self._channel.pid

    def close(self) -> int:
        """Ends the input, waits for the program, and returns its status: 0 where no command was refused, else 1. Ended for any other."""
        return self._channel.close()

    def kill(self) -> None:
        """Ends the program at once. Answers that haven't come raise Ended."""
        self._channel.kill()

    # Commands as they stand in a script.

    def run(self, line: Text, body: Text | None = None) -> bytes:
        """The text that a command prints. Its words are those of the manual, quotes among them; the line of a dot that ends a body is
        added."""
        return self._channel.submit(line, body).result()

    def submit(self, line: Text, body: Text | None = None) -> Answer:
        """Writes a command, and returns before it is answered: the `result` of what is returned waits, and raises what `run` would."""
        return self._channel.submit(line, body)

    def submit_many(self, commands: Iterable[Text | tuple[Text, Text | None]]) -> list[Answer]:
        """Writes all commands, each a line or a pair of a line and a body, before any answer is waited for."""
        return self._channel.submit_many(commands)

    def run_last(self, line: Text, body: Text | None = None) -> bytes:
        """The text that a last command prints. The input ends behind it, without the line of a dot that would end a body, so a command with
        a body is refused as "body has no end" (3). The program ends then, and `close` returns its status."""
        return self._channel.submit_last(line, body).result()

    def _edit(self, line: bytes, body: bytes | None = None) -> None:
        text = self._channel.submit(line, body).result()
        if text:
            raise UnexpectedAnswer("%s: an edit that prints %r" % (to_text(line), text[:200]))

    # Edits.

    def add_list(self, name: Text, kind: Kind, source: Source, classification: Classification | None = None) -> None:
        """Adds a last list.

        kind            "packages", as an archive has them, or "status", as dpkg has it; there is one status list at most
        source          its text; or a path (any os.PathLike) or an open file of it. It isn't packed
        classification  of a packages list: "notauto", whose versions are taken only where they are asked for, or "butauto", from which
                        what is installed from it is upgraded as well

        A list with a fault is refused whole; `Refused.body_line` is the line in its text. BodyError, a ValueError with the line, for a text
        with a line of one dot. OSError where a file can't be read."""
        words = [quoted(name), quoted(kind)] + ([] if classification is None else [quoted(classification)])
        self._edit(command(b"add-list", words), read_source(source))

    def drop_list(self, name: Text) -> None:
        """Takes a list out."""
        self._edit(command(b"drop-list", [quoted(name)]))

    def put(self, name: Text, stanza: Source) -> None:
        """Puts a stanza into a list: in the place of the first stanza with its name and an equal version, or last. A stanza of a newer
        version leaves the older ones: take those out by `remove`."""
        self._edit(command(b"put", [quoted(name)]), read_source(stanza))

    def remove(self, name: Text, package: Text, version: Text) -> None:
        """Takes out the first stanza of a list with this package and an equal version."""
        self._edit(command(b"remove", [quoted(name), quoted(package), quoted(version)]))

    def mark(self, package: Text, version: Text | None) -> None:
        """Says which version of a package is installed, or with None that none is. It counts before the status list."""
        word = b"none" if version is None else to_bytes(version)
        if version is not None and word == b"none":
            word = b"0:none"
        self._edit(command(b"mark", [quoted(package), quoted(word)]))

    def unmark(self, package: Text) -> None:
        """Takes the mark of a package out."""
        self._edit(command(b"unmark", [quoted(package)]))

    def pin(self, package: Text, priority: int, *, version: Text | None = None, release: Text | None = None) -> None:
        """Gives versions of a package a priority, a whole number from -32768 to 32767 that isn't 0.

        package  its name, or "*" for all packages (with `release` alone)
        version  a version, or a prefix of versions with "*" behind it
        release  the name of a list, which need not be there: the versions that it holds

        One of `version` and `release` is given, else ValueError. Of the pins that match the first counts; one that is set again keeps its
        place."""
        self._edit(command(b"pin", [*_selector(package, version, release), quoted(str(int(priority)))]))

    def unpin(self, package: Text, *, version: Text | None = None, release: Text | None = None) -> None:
        """Takes out the pin that was set with these words."""
        self._edit(command(b"unpin", _selector(package, version, release)))

    def target(self, name: Text | None) -> None:
        """Makes a list, which need not be there, the target release; or with None no list. A list of the name "none" can't be it."""
        if name is not None and to_bytes(name) == b"none":
            raise ValueError("a list of the name none can't be the target")
        self._edit(command(b"target", [b"none" if name is None else quoted(name)]))

    def prefs(self, records: Source) -> None:
        """The records, those of apt_preferences(5) as dctrl-cache(1) has them, take the place of all pins. The target stays."""
        self._edit(b"prefs", read_source(records))


def _selector(package: Text, version: Text | None, release: Text | None) -> list[bytes]:
    """The words by which a pin is known."""
    if (version is None) == (release is None):
        raise ValueError("a pin has a version or a release, one of the two")
    if version is not None:
        return [quoted(package), b"version", quoted(version)]
    assert release is not None
    return [quoted(package), b"release", quoted(release)]
