#!/usr/bin/env python3
"""Prints what the program takes beside apt-cache, grep-dctrl and python-apt, on one list and on 2, 5 and 10 times of it.

    bench/table.py PROGRAM [--list PACKAGES] [--times 1,2,5,10] [--results FILE] [--chart FILE]

docs/PERFORMANCE.md says what each row means. Without --list a list of 60,000 stanzas is made. Each time is the least of some rounds, in
each of which every program is asked once, so that a machine that is busy is busy for all; what takes long has fewer rounds. A program that
isn't installed has no column of numbers. The results are written as JSON too, and as a chart; bench/report.py puts them into a document."""

import argparse
import json
import os
import re
import shutil
import subprocess
import sys
import tempfile
import time

import chart
import report
from answers import Session, commands
from apt_folder import AptFolder
from grown import Grown, renamed
from list_edits import script_of
from lists import made_list
from processes import peak_of, process, processors

# A row has so many rounds, but none begins once it has taken so many seconds.
ROUNDS = 3
PATIENCE = 12
ASKED_ONCE = 100
# How many bytes of names a process of apt-cache is given.
NAMES_OF_A_CALL = 1_000_000
SYSTEM_PYTHON = "/usr/bin/python3"
HERE = os.path.dirname(os.path.abspath(__file__))
PACKAGES = ["apt", "dctrl-tools", "python3-apt"]


def calls(names):
    """Names in parts that a call can have as its words."""
    part, size = [], 0
    for name in names:
        if size + len(name) > NAMES_OF_A_CALL:
            yield part
            part, size = [], 0
        part.append(name)
        size += len(name) + 9
    yield part


class Peers:
    """The other programs, on a list that is all they know."""

    def __init__(self, packages, folder):
        self.packages = packages
        self.apt = AptFolder(folder, {"main": packages}) if shutil.which("apt-cache") and shutil.which("apt-get") else None
        self.has_grep = shutil.which("grep-dctrl") is not None
        self.has_python = self.apt is not None and os.path.exists(SYSTEM_PYTHON) and subprocess.run(
            [SYSTEM_PYTHON, "-c", "import apt_pkg"], stderr=subprocess.DEVNULL, check=False).returncode == 0

    def apt_cache(self, *words):
        """A process of apt-cache, over the caches that it keeps."""
        return process(["apt-cache", *words], self.apt.environment)

    def apt_cache_anew(self):
        """A process of apt-cache that makes its caches."""
        self.apt.forget()
        return self.apt_cache("-qq", "gencaches")

    def apt_cache_of_all(self, query, names):
        return sum(self.apt_cache(query, *part)[0] for part in calls(names))

    def grep(self, *words):
        return process(["grep-dctrl", *words, self.packages], statuses=(0, 1))

    def python_anew(self, *words):
        """A process that opens the caches that were taken away."""
        self.apt.forget()
        return process([SYSTEM_PYTHON, os.path.join(HERE, "python_apt.py"), *words], self.apt.environment)

    def python_choosing(self, *words):
        """The time of the choosing alone, in a process that has opened its cache."""
        return float(subprocess.run([SYSTEM_PYTHON, os.path.join(HERE, "python_apt.py"), *words], env=self.apt.environment,
                                    stdout=subprocess.PIPE, check=True).stdout)


class Table:
    """The rows: what is measured, at how many times the list, and what each program takes."""

    def __init__(self):
        self.rows = []
        # The bytes of the list at each size, and how long each row of times took to measure.
        self.sizes = {}
        self.spent = []

    def time(self, what, times, ways):
        """Goes each way once a round, and keeps the least times."""
        start, rounds = time.monotonic(), []
        while not rounds or len(rounds) < ROUNDS and time.monotonic() - start < PATIENCE:
            rounds.append({name: way() for name, way in ways.items()})
        self.spent.append((time.monotonic() - start, what, times, len(rounds)))
        self.add(what, times, {name: min(row[name] for row in rounds) for name in ways}, "s")

    def add(self, what, times, taken, unit, **more):
        self.rows.append({"what": what, "times": times, "unit": unit, "taken": taken, **more})
        print("\n".join(report.lines(self.rows[-1], self.sizes)), flush=True)

    def show_longest(self):
        """The rows that took the longest to measure."""
        for seconds, what, times, rounds in sorted(self.spent, reverse=True)[:5]:
            print("  %5.1f s in %d rounds: %s at %d times" % (seconds, rounds, what, times))


class Measuring:
    """The measurements of one list."""

    def __init__(self, table, program, grown, folder):
        self.table = table
        self.program = program
        self.grown = grown
        self.times = grown.times
        self.words = ["-l", "main=" + grown.path]
        self.peers = Peers(grown.path, folder)
        self.query = os.path.join(folder + ".query")
        with open(self.query, "wb") as file:
            file.write(b"pkgnames no-such-name\n")

    def with_peers(self, ours, apt=None, grep=None, python=None):
        """The ways of the programs that are there."""
        ways = {"dctrl-cache": ours}
        for name, way, there in (("apt-cache", apt, self.peers.apt), ("grep-dctrl", grep, self.peers.has_grep), ("python-apt", python, self.peers.has_python)):
            if way is not None and there:
                ways[name] = way
        return ways

    def ready(self):
        """From nothing to the first answer, and the peaks of that."""
        peaks = {}

        def keep(name, way):
            def gone():
                seconds, peak = way()
                peaks[name] = max(peak, peaks.get(name, 0))
                return seconds
            return gone

        ways = self.with_peers(lambda: process([self.program, *self.words, self.query]), self.peers.apt_cache_anew,
                               lambda: self.peers.grep("-c", ""), self.peers.python_anew)
        self.table.time("ready", self.times, {name: keep(name, way) for name, way in ways.items()})
        # The helper's own memory hides what grep-dctrl takes.
        peaks.pop("grep-dctrl", None)
        self.table.sizes[str(self.times)] = os.path.getsize(self.grown.path)
        self.table.add("peak memory", self.times, peaks, "MB")

    def session(self, whole):
        """What is asked of a session that runs."""
        session = Session(self.program, self.words)
        names = session.ask(b"pkgnames\n").decode().split()
        one = "bash" if "bash" in names else names[len(names) // 2]
        if self.peers.apt:
            self.peers.apt_cache("-qq", "gencaches")
        self.of_all(session, names, ("policy", "showpkg", "depends", "rdepends") if whole else ("policy",), whole)
        self.of_one(session, one, ("policy", "show", "showpkg", "depends", "rdepends") if whole else ("policy",))
        self.edited(session, one)
        self.table.add("peak memory of the session", self.times, {"dctrl-cache": peak_of(session.running.pid)}, "MB")
        session.close()

    def of_all(self, session, names, queries, whole):
        if whole:
            self.table.time("pkgnames", self.times, self.with_peers(lambda: session.time(b"pkgnames\n"), lambda: self.peers.apt_cache("pkgnames")[0]))
        for query in queries:
            script = commands(query, names)
            python = self.peers.python_choosing if query == "policy" else None
            self.table.time("%s of all names" % query, self.times, self.with_peers(
                lambda: session.time(script), lambda: self.peers.apt_cache_of_all(query, names), None, python))
        self.table.time("unmet", self.times, self.with_peers(lambda: session.time(b"unmet\n"), lambda: self.peers.apt_cache("unmet")[0]))

    def of_one(self, session, name, queries):
        for query in queries:
            script = ("%s %s\n" % (query, name)).encode() * ASKED_ONCE
            grep = (lambda: self.peers.grep("-P", "-X", name)[0]) if query == "show" else None
            python = (lambda: self.peers.python_choosing(name)) if query == "policy" else None
            self.table.time("%s of one name" % query, self.times, self.with_peers(
                lambda: session.time(script) / ASKED_ONCE, lambda: self.peers.apt_cache(query, name)[0], grep, python))

    def edited(self, session, name):
        text = session.ask(b"show --no-all-versions %s\n" % name.encode()).strip(b"\n")
        script = b"put main\n%s\n.\npolicy %s\n" % (text, name.encode()) * ASKED_ONCE
        self.table.time("one edit, and policy of one name", self.times, self.with_peers(
            lambda: session.time(script) / ASKED_ONCE, lambda: self.peers.apt_cache_anew()[0] + self.peers.apt_cache("policy", name)[0],
            None, lambda: self.peers.python_anew(name)[0]))

    def lists(self):
        """Lists that come to a session as bodies: the first, then one of other names or the same again beside it, which goes again."""
        text = self.grown.text.rstrip(b"\n") + b"\n"
        start, spent = time.monotonic(), {}
        for which, second in {"another": renamed(text, 2), "the same": text}.items():
            rows = ("a list comes", "%s list comes beside it" % which, "%s list goes again" % which)
            scripts = (script_of([("add-list", b"one", [text])]), script_of([("add-list", b"other", [second])]), b"drop-list other\n")
            for _ in range(ROUNDS):
                session = Session(self.program, [])
                for row, script in zip(rows, scripts):
                    spent.setdefault(row, []).append(session.time(script))
                session.close()
        self.table.spent.append((time.monotonic() - start, "lists that come and go", self.times, ROUNDS))
        comes = min(spent["a list comes"])
        for row, seconds in spent.items():
            more = {} if row == "a list comes" else {"comes": comes}
            self.table.add(row, self.times, {"dctrl-cache": min(seconds)}, "s", **more)


def read_words():
    asked = argparse.ArgumentParser(description=__doc__, formatter_class=argparse.RawDescriptionHelpFormatter)
    asked.add_argument("program")
    asked.add_argument("--list")
    asked.add_argument("--times", default="1,2,5,10")
    asked.add_argument("--results")
    asked.add_argument("--chart")
    return asked.parse_args()


def list_text(path):
    if path is None:
        return made_list()
    with open(path, "rb") as file:
        return file.read()


def versions():
    """The other programs, by the packages that have them."""
    if shutil.which("dpkg-query") is None:
        return []
    told = subprocess.run(["dpkg-query", "-W", "-f", "${db:Status-Status} ${Package} ${Version}\n", *PACKAGES], stdout=subprocess.PIPE,
                          stderr=subprocess.DEVNULL, check=False, text=True).stdout
    return [line.partition(" ")[2] for line in told.splitlines() if line.startswith("installed ")]


def main():
    words = read_words()
    program, table = os.path.abspath(words.program), Table()
    count, load = processors()
    start = time.monotonic()
    print("%d processors, load %.1f at the start" % (count, load))
    with tempfile.TemporaryDirectory() as folder:
        os.chmod(folder, 0o755)
        text = list_text(words.list)
        grown = Grown(text, os.path.join(folder, "Packages"))
        print(report.head())
        for times in map(int, words.times.split(",")):
            grown.grow(times)
            measuring = Measuring(table, program, grown, os.path.join(folder, "apt%d" % times))
            measuring.ready()
            measuring.session(times == 1)
            if times == 1:
                measuring.lists()
            shutil.rmtree(os.path.join(folder, "apt%d" % times), ignore_errors=True)
    seconds, load_then = time.monotonic() - start, processors()[1]
    print("load %.1f at the end; it took %d s, most of them:" % (load_then, seconds))
    table.show_longest()
    if words.results:
        with open(words.results, "w", encoding="ascii") as file:
            json.dump({"processors": count, "load": [load, load_then], "seconds": seconds, "stanzas": len(re.findall(rb"^Package:", text, re.M | re.I)),
                       "versions": versions(), "sizes": table.sizes, "rows": table.rows}, file, indent=1)
    if words.chart:
        chart.write(table.rows, words.chart)


if __name__ == "__main__":
    sys.exit(main())
