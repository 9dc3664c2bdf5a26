"""What goes wrong: a command that the program refuses, a program that has ended, an answer of no known form."""

import re
from typing import Final

# The refusals by their numbers. dctrl-cache(1) tells when each is given.
REFUSALS: Final[dict[int, str]] = {
    1: "unknown command",
    2: "bad arguments",
    3: "body has no end",
    4: "line too long",
    5: "not a control line",
    6: "field given twice",
    7: "required field missing",
    8: "bad name",
    9: "bad version",
    10: "bad relation field",
    11: "list already present",
    12: "no such list",
    13: "a status list is already present",
    14: "no such stanza",
    15: "body is not one stanza",
    16: "no such mark",
    17: "no such pin",
    18: "bad priority",
    19: "bad filter",
    20: "bad pattern",
    21: "cache full",
    22: "out of memory",
    23: "bad pin record",
}
NUMBERS: Final[dict[bytes, int]] = {text.encode(): number for number, text in REFUSALS.items()}
OUT_OF_MEMORY: Final = 22

_REFUSAL = re.compile(rb"E: line ([1-9][0-9]*): ([a-z ]+)\n")


class Refused(Exception):
    """A command that the program refused. It has changed nothing, and the session goes on.

    number       which refusal it is, from 1 to 23: a key of `REFUSALS`
    text         its words, as "bad version"
    command      the line of the command, without its body
    line         where the fault is, counted in the command: 1 is the line of the command itself, and the first line of its body is 2
    body_line    where the fault is, counted in the body from 1: the line of a file that was the body; None for the line of the command
    script_line  where the fault is, counted from the first line that the session wrote, those of its own frames among them"""

    def __init__(self, line: int, number: int, text: str, command: str, script_line: int = 0) -> None:
        super().__init__(line, number, text, command, script_line)
        self.line = line
        self.number = number
        self.text = text
        self.command = command
        self.script_line = script_line

    @property
    def body_line(self) -> int | None:
        return self.line - 1 if self.line > 1 else None

    def __str__(self) -> str:
        shown = self.command if len(self.command) <= 80 else self.command[:77] + "..."
        place = "" if self.line == 1 else ", line %d of its body" % (self.line - 1)
        return "%s%s: %s" % (shown, place, self.text)


class Ended(Exception):
    """The program has ended: it was killed, it met one of its limits, or it can't go on.

    line    the line that it wrote to standard error, as "dctrl-cache: write failed"; empty where it wrote none
    status  its exit status; where a signal ended it, minus the number of the signal"""

    def __init__(self, line: str, status: int) -> None:
        super().__init__(line, status)
        self.line = line
        self.status = status

    def __str__(self) -> str:
        how = "with status %d" % self.status if self.status >= 0 else "by signal %d" % -self.status
        return "the program ended %s%s" % (how, ": " + self.line if self.line else "")


class UnexpectedAnswer(Exception):
    """An answer that isn't of the form that its command has. The program is another one, or of another version."""


class BodyError(ValueError):
    """A text that no body can hold, since one of its lines would end it: a line of one dot. `line` counts from 1."""

    def __init__(self, line: int) -> None:
        super().__init__("line %d: a line of one dot would end the body" % line)
        self.line = line


def refusal_in(answer: bytes) -> tuple[int, int] | None:
    """The line of the script and the number of a refusal, where an answer reads as one; else None."""
    found = _REFUSAL.fullmatch(answer)
    if found is None or found.group(2) not in NUMBERS:
        return None
    return int(found.group(1)), NUMBERS[found.group(2)]
