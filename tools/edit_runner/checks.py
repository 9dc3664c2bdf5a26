"""Runs `rt check` and reads what it says."""

import dataclasses
import os
import re
import signal
import subprocess
import tempfile
import threading
import time

PROVED, REFUSED, NO_VERDICT = range(3)

# What a check of some functions alone ends with, and what it says of a name that no function has.
SOME = re.compile(r"only=\d+ proved=\d+")
NO_FUNCTION = re.compile(r"rattle: error: .* function `([^`]+)`")
VERDICT = re.compile(r"(fn|impl) (\S+): (.*)")
# What antt says where it could not read a text, and where a proof names what an edit took away.
UNREAD = r"is not in scope|has no field|is no name|operand is missing|expected the end|cannot continue"
GONE = r"has no field|is not in scope|has no `|was not admitted"


@dataclasses.dataclass
class Answer:
    """What a check came to: its status, its lines, its verdict on each function and impl, and what it cost in seconds."""

    status: int
    lines: list
    cpu: float
    wall: float

    def __post_init__(self):
        self.verdicts = {(it[1], it[2]): it[3] for it in map(VERDICT.fullmatch, self.lines) if it}

    def fault(self):
        """Returns the line that says best why there was no verdict."""
        return next((it for it in self.lines if "error" in it), self.lines[0])[:200]

    def unread(self, changed):
        """Returns the line that says that antt could not read a text of src/ or specs/ or of a changed file, or "".
        An edit that only makes a statement false reads well."""
        for line in self.lines:
            at = re.match(r"(?:\./)?(\S+?):\d+:\d+: error: (?:(`[^`]*`): )?(.*)", line)
            if at and (at[1] in changed or at[1].startswith(("src/", "specs/"))):
                if not at[2] or re.search(UNREAD, re.sub(r"`[^`]*`", "", at[3])):
                    return line[:200]
        return ""

    def blames_names(self, crate, function):
        """Returns whether the function's own proof files fail only on names that an edit took away."""
        folder = f"proofs/{function.removeprefix(crate + '::').replace('::', '/')}/"
        said = [it for it in self.lines if re.match(rf"(?:\./)?{re.escape(folder)}\S+:\d+:\d+: error", it)]
        by_search = "did not prove" in self.verdicts.get(("fn", function), "")
        return bool(said) and not by_search and all(re.search(GONE, it) for it in said)

    def unknown(self):
        """Returns the name that a check of some functions found no function for, if that ended it."""
        found = next(filter(None, map(NO_FUNCTION.search, self.lines)), None) if self.status == NO_VERDICT else None
        return found[1] if found else None


def is_by_itself(verdict):
    """Returns whether a verdict refuses a function for itself, and not for what it calls."""
    own = ("not proved", "no proof: expected ", "no proof: it has ")
    return verdict.startswith(own) and "it waits for" not in verdict


class OutOfTime(Exception):
    """The minutes of a run were over before a check had ended."""


class Checks:
    """Runs checks from several threads, and can end all of them, or those that have only so much time."""

    def __init__(self):
        self.running, self.is_stopped, self.is_over, self.lock = {}, False, False, threading.Lock()

    def run(self, folder, jobs=1, only=(), is_timed=False):
        """Checks the crate in a folder, or only these functions of it and what they call."""
        return self.call(folder, "check", "--jobs", str(jobs), *[word for it in only for word in ("--only", it)], is_timed=is_timed)

    def call(self, folder, *words, is_timed=False):
        """Runs a command of rt, and takes its answer for that of a check."""
        began = time.time()
        with tempfile.TemporaryFile("w+", errors="replace") as out:
            with self.lock:
                if self.is_stopped:
                    raise RuntimeError("stopped")
                if is_timed and self.is_over:
                    raise OutOfTime
                how = {"cwd": folder, "stdin": subprocess.DEVNULL, "stdout": out, "stderr": subprocess.STDOUT}
                # A process group of its own, to be ended by, and not a session: Linux shares the processors out among
                # sessions (sched(7), autogroup), so that a check with one of its own would not be nice to others.
                child = subprocess.Popen(["rt", *words], process_group=0, **how)
                self.running[child.pid] = is_timed
            _, ended, used = os.wait4(child.pid, 0)
            with self.lock:
                del self.running[child.pid]
            child.returncode = os.waitstatus_to_exitcode(ended)
            if is_timed and self.is_over and child.returncode < 0:
                raise OutOfTime
            out.seek(0)
            lines = out.read().split("\n")
        return Answer(status_of(child.returncode, lines), lines, used.ru_utime + used.ru_stime, time.time() - began)

    def end_timed(self):
        """Ends the checks that have only so much time, and lets no other of them begin."""
        with self.lock:
            self.is_over = True
            self.kill(pid for pid, is_timed in self.running.items() if is_timed)

    def stop(self):
        with self.lock:
            self.is_stopped = True
            self.kill(self.running)

    def kill(self, processes):
        for it in processes:
            try:
                os.killpg(it, signal.SIGKILL)
            except ProcessLookupError:
                pass


def status_of(code, lines):
    last = next((it for it in reversed(lines) if it.startswith(("logic=", "only="))), "")
    is_some = bool(SOME.fullmatch(last))
    if code == 0 and (last.startswith("logic=proved") or is_some):
        return PROVED
    if code == 1 and (last.startswith("logic=not-proved") or is_some):
        return REFUSED
    return NO_VERDICT
