#!/usr/bin/env python3
"""Measures what queries take in a session that runs, beside processes of apt-cache on the same lists.

    bench/answers.py PROGRAM [--status STATUS] NAME=PACKAGES...

The session has read the lists; apt-cache has made its caches. A query's time in the session goes from the first byte that is written
to it to the last that it answers, and ends where a line that is no command is refused behind it. What either prints is read over a
pipe and let go. The times are the least of some rounds, in each of which the session and apt-cache are asked once, so that a machine that is busy
is busy for both. Of one name each round asks many times. The limits are printed beside the ratios. Nothing is refused by them: a busy
machine passes them at times."""

import argparse
import os
import subprocess
import sys
import tempfile
import threading
import time

from apt_folder import AptFolder

ROUNDS = 5
ASKED_ONCE = 200

# The most bytes of a line, its newline not counted.
LONGEST_LINE = 1 << 20

ONE = "bash"

# The most bytes that are read of a pipe at once.
PIECE = 1 << 20


class Session:
    """The program, which is asked line by line."""

    def __init__(self, program, words):
        self.running = subprocess.Popen([program, *words], stdin=subprocess.PIPE, stdout=subprocess.PIPE, bufsize=0)
        self.lines = 0

    def pieces(self, script):
        """What commands answer, piece by piece, up to the refusal of a line behind them that is no command."""
        text = script + b"frob\n"
        self.lines += text.count(b"\n")
        end = b"E: line %d: unknown command\n" % self.lines
        writing = threading.Thread(target=self.running.stdin.write, args=(text,))
        writing.start()
        tail = b""
        while tail != end:
            piece = os.read(self.running.stdout.fileno(), PIECE)
            if not piece:
                raise SystemExit("the program ended early")
            yield piece
            tail = (tail + piece[-len(end) :])[-len(end) :]
        writing.join()

    def ask(self, script):
        """What commands answer."""
        told = b"".join(self.pieces(script))
        return told[: told.rindex(b"E: line ")]

    def time(self, script):
        """The time that commands take. What they answer is let go."""
        start = time.monotonic()
        for _ in self.pieces(script):
            pass
        return time.monotonic() - start

    def close(self):
        self.running.stdin.close()
        self.running.wait()


class Peer:
    """apt-cache, a process for each question."""

    def __init__(self, environment):
        self.environment = environment

    def time(self, *words):
        """The time that a process takes. What it prints is let go."""
        start = time.monotonic()
        with subprocess.Popen(["apt-cache", *words], env=self.environment, stdout=subprocess.PIPE, stderr=subprocess.DEVNULL, bufsize=0) as running:
            while os.read(running.stdout.fileno(), PIECE):
                pass
        return time.monotonic() - start


def commands(query, names):
    """A query of many names, in as few lines as it takes."""
    lines, line = [], query
    for name in names:
        if len(line) + 1 + len(name) > LONGEST_LINE:
            lines.append(line)
            line = query
        line += " " + name
    return "".join(line + "\n" for line in [*lines, line]).encode()


def least(ways):
    """The least times of some ways, each of which is gone once a round."""
    times = [[way() for way in ways] for _ in range(ROUNDS)]
    return [min(column) for column in zip(*times)]


def tell(what, ours, theirs, limit):
    print("%-40s %9.5f s, apt-cache %9.5f s, ratio %8.5f  (at most %g)" % (what, ours, theirs, ours / theirs, limit))


def of_all(session, peer, names):
    for query in ("policy", "showpkg", "depends", "rdepends"):
        script = commands(query, names)
        ours, theirs = least((lambda: session.time(script), lambda: peer.time(query, *names)))
        tell("%s of %d names" % (query, len(names)), ours, theirs, 0.5)
    ours, theirs = least((lambda: session.time(b"unmet\n"), lambda: peer.time("unmet")))
    tell("unmet", ours, theirs, 0.1)


def of_one(session, peer, name):
    for query in ("policy", "show", "showpkg", "depends"):
        script = b"%s %s\n" % (query.encode(), name.encode())
        ours, theirs = least((lambda: session.time(script * ASKED_ONCE) / ASKED_ONCE, lambda: peer.time(query, name)))
        tell("%s %s" % (query, name), ours, theirs, 0.01)


def edited(session, peer, apt, list_name, name):
    """One stanza is put again, and its policy asked for; apt-cache makes its caches anew."""
    text = session.ask(b"show --no-all-versions %s\n" % name.encode())
    script = b"put %s\n%s\n.\npolicy %s\n" % (list_name.encode(), text.strip(b"\n"), name.encode())

    def again():
        apt.forget()
        return peer.time("gencaches") + peer.time("policy", name)

    ours, theirs = least((lambda: session.time(script * ASKED_ONCE) / ASKED_ONCE, again))
    tell("one stanza put, and its policy", ours, theirs, 0.001)


def main():
    asked = argparse.ArgumentParser(description=__doc__, formatter_class=argparse.RawDescriptionHelpFormatter)
    asked.add_argument("program")
    asked.add_argument("--status")
    asked.add_argument("lists", nargs="+", metavar="NAME=PACKAGES")
    words = asked.parse_args()
    files = dict(word.split("=", 1) for word in words.lists)
    given = [part for word in words.lists for part in ("-l", word)] + (["--status", words.status] if words.status else [])
    with tempfile.TemporaryDirectory() as folder:
        os.chmod(folder, 0o755)
        apt = AptFolder(os.path.join(folder, "apt"), files, words.status)
        peer = Peer(apt.environment)
        session = Session(os.path.abspath(words.program), given)
        names = session.ask(b"pkgnames\n").decode().split()
        of_all(session, peer, names)
        one = ONE if ONE in names else names[0]
        of_one(session, peer, one)
        edited(session, peer, apt, next(iter(files)), one)
        session.close()


if __name__ == "__main__":
    sys.exit(main())
