#!/usr/bin/env python3
"""Measures how the program reads a Packages list and answers `pkgnames`, beside grep-dctrl and apt-cache.

    bench/lists.py PROGRAM [PACKAGES]

Three ways are measured in one run: the list by `-l`; the same list as the body of an `add-list` on standard input; and,
where they are installed, `grep-dctrl -c ''` and `apt-cache gencaches` on the same file. The times are the least of some
rounds, in each of which every way is run once, so that a machine that is busy is busy for all. apt-cache has a folder
of its own for its lists, its status and its caches, so that it reads this list alone, and its caches are taken away before
each round. Without PACKAGES a list of 60,000 stanzas is made. A peak of memory below that of this script, some 15 MB, isn't
seen: a process that is started begins with it.

The limits are printed beside the numbers. Nothing is refused by them: a busy machine passes them at times."""

import os
import shutil
import subprocess
import sys
import tempfile
import time

from apt_folder import AptFolder

ROUNDS = 7


def made_list():
    """The text of 60,000 stanzas."""
    stanzas = []
    for number in range(60000):
        stanzas.append("Package: package-%d\nVersion: 1.%d-1\nArchitecture: amd64\nMaintainer: A Developer <a@example.org>\n"
                       "Installed-Size: %d\nDepends: libc6 (>= 2.34), package-%d | package-%d (<< 2~)\nProvides: virtual-%d (= 1)\n"
                       "Filename: pool/main/p/package-%d.deb\nSize: %d\nDescription: package number %d\n It is one of many.\n .\n"
                       " Its text goes on for some lines, as those of real packages do.\nSection: utils\nPriority: optional\nSHA256: %064x\n\n"
                       % (number, number % 50, number % 9999, number // 2, number // 3, number % 500, number, number, number, number * 7919))
    return "".join(stanzas).encode()


def write_files(words, packages, script):
    """Writes the list, and a script that adds it as a body and asks for the names."""
    if words:
        with open(words[0], "rb") as file:
            text = file.read()
    else:
        text = made_list()
    with open(packages, "wb") as file:
        file.write(text)
    with open(script, "wb") as file:
        file.write(b"add-list main packages\n" + text + (b"" if text.endswith(b"\n") else b"\n") + b".\npkgnames\n")


def in_a_process_of_its_own(work, *words):
    """Does work in another process, so that its memory isn't taken for that of the programs."""
    child = os.fork()
    if child == 0:
        work(*words)
        os._exit(0)
    _, status = os.waitpid(child, 0)
    if status != 0:
        raise SystemExit("the files could not be written")


class Way:
    """A command that is measured: its words, its standard input, and what is done before each run."""

    def __init__(self, words, script="/dev/null", before=None, environment=None):
        self.words = words
        self.script = script
        self.before = before
        self.environment = environment
        self.times = []
        self.peaks = []

    def run(self):
        """One run: its time in seconds, and its peak memory in bytes."""
        if self.before:
            self.before()
        with open(self.script, "rb") as given, open("/dev/null", "wb") as answers:
            start = time.monotonic()
            running = subprocess.Popen(self.words, stdin=given, stdout=answers, env=self.environment)
            _, status, usage = os.wait4(running.pid, 0)
            self.times.append(time.monotonic() - start)
        running.returncode = os.waitstatus_to_exitcode(status)
        if status != 0:
            raise SystemExit("%s: status %d" % (" ".join(self.words), running.returncode))
        self.peaks.append(usage.ru_maxrss * 1024)

    def time(self):
        return min(self.times)

    def peak(self):
        return max(self.peaks)


def peers(packages, folder):
    """The ways of the programs that are installed."""
    found = {}
    if shutil.which("grep-dctrl"):
        found["grep-dctrl -c ''"] = Way(["grep-dctrl", "-c", "", packages])
    else:
        print("grep-dctrl isn't installed")
    if shutil.which("apt-cache") and shutil.which("apt-get"):
        apt = AptFolder(os.path.join(folder, "apt"), {"main": packages})
        found["apt-cache gencaches"] = Way(["apt-cache", "-qq", "gencaches"], before=apt.forget, environment=apt.environment)
    else:
        print("apt-cache isn't installed")
    return found


def show(ways, size):
    """Prints the ways, and the ratios with their limits."""
    for name, way in ways.items():
        print("%-20s %6.0f ms, peak memory %6.1f MB, %.2f times the text"
              % (name, way.time() * 1000, way.peak() / 1e6, way.peak() / size))
    by_file, by_body = ways["-l"], ways["body"]
    rows = [("peak memory by -l to the text", by_file.peak() / size, 6)]
    if "grep-dctrl -c ''" in ways:
        rows.append(("time by -l to grep-dctrl -c ''", by_file.time() / ways["grep-dctrl -c ''"].time(), 4.5))
    rows.append(("time as body to -l", by_body.time() / by_file.time(), 1.3))
    if "apt-cache gencaches" in ways:
        rows.append(("time by -l to apt-cache gencaches", by_file.time() / ways["apt-cache gencaches"].time(), 1.6))
    for name, ratio, limit in rows:
        print("%-34s %5.2f  (at most %s)" % (name, ratio, limit))


def main(words):
    program = os.path.abspath(words[0])
    with tempfile.TemporaryDirectory() as folder:
        packages, script, query = (os.path.join(folder, name) for name in ("Packages", "body", "query"))
        in_a_process_of_its_own(write_files, words[1:], packages, script)
        with open(query, "wb") as file:
            file.write(b"pkgnames\n")
        os.chmod(folder, 0o755)
        size = os.path.getsize(packages)
        print("%d bytes" % size)
        ways = {"-l": Way([program, "-l", "main=" + packages, query]), "body": Way([program], script)}
        ways.update(peers(packages, folder))
        for _ in range(ROUNDS):
            for way in ways.values():
                way.run()
        show(ways, size)


if __name__ == "__main__":
    main(sys.argv[1:])
