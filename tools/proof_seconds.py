"""The processor seconds of each proof that runs below a process, as /proc tells them.

`rt ci` prints no times. Each of its proofs is a process of `rattle` whose words name the crate; so while it runs all processes
below it are looked at once a second, and the last that was seen of each counts. A process loses less than a second by that."""

import os
import threading
from collections.abc import Iterator

TICK = os.sysconf("SC_CLK_TCK")
# Seconds between two looks.
PAUSE = 1.0
PROOF, TESTS, EDITS = "proof", "tests", "must-fail"
# A process, with when it began: a number comes again when one has ended.
Process = tuple[int, str]
# A crate, and the kind of check.
Checked = tuple[str, str]


class Watch(threading.Thread):
    """Looks at the processes below one until it is stopped. `seconds` then has those of each crate and kind of check."""

    def __init__(self, top: int) -> None:
        super().__init__(daemon=True)
        self.top, self.ended = top, threading.Event()
        self.seen: dict[Process, tuple[Checked, int]] = {}
        self.start()

    def run(self) -> None:
        while not self.ended.wait(PAUSE):
            for process, began, ticks in below(self.top):
                checked = what_is_checked(words_of(process))
                if checked:
                    self.seen[process, began] = checked, ticks

    def stop(self) -> dict[Checked, float]:
        """Ends the watch, and returns the seconds by crate and kind."""
        self.ended.set()
        self.join()
        found: dict[Checked, float] = {}
        for (name, kind), ticks in self.seen.values():
            found[name, kind] = found.get((name, kind), 0) + ticks / TICK
        return found


def below(top: int) -> Iterator[tuple[int, str, int]]:
    """Yields the processes below one, each with when it began and the ticks of processor that it has used by itself."""
    known: dict[int, tuple[str, int]] = {}
    children: dict[int, list[int]] = {}
    for name in os.listdir("/proc"):
        if name.isdigit():
            try:
                with open("/proc/%s/stat" % name, encoding="utf-8", errors="replace") as file:
                    fields = file.read().rpartition(")")[2].split()
            except OSError:
                continue
            process, parent = int(name), int(fields[1])
            known[process] = fields[19], int(fields[11]) + int(fields[12])
            children.setdefault(parent, []).append(process)
    left = children.get(top, [])
    while left:
        process = left.pop()
        yield (process, *known[process])
        left += children.get(process, [])


def words_of(process: int) -> list[str]:
    try:
        with open("/proc/%d/cmdline" % process, encoding="utf-8", errors="replace") as file:
            return file.read().split("\0")
    except OSError:
        return []


def what_is_checked(words: list[str]) -> Checked | None:
    """Returns the crate that a process checks, and what of it; nothing for any other process."""
    if os.path.basename(words[0] if words else "") != "rattle" or "--crate-name" not in words or "--crate-checked" in words:
        return None
    name = words[words.index("--crate-name") + 1]
    if "--test" in words:
        return name, TESTS
    # A proof leaves what it has proved; an edit's check leaves nothing.
    return name, PROOF if "-o" in words else EDITS
