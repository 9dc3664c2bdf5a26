"""The page of what is typed here in the place of other programs: each command of its column is run on a small archive and has to end
as the page says, without a refusal. Where apt-cache and grep-dctrl are there, their commands are run beside it."""

import os
import re
import shutil
import subprocess

from apt_root import AptRoot, has_apt, installed, stanza
from harness import finished

TOP = os.path.join(os.path.dirname(os.path.abspath(__file__)), "..", "..")
PAGE = os.path.join(TOP, "docs", "COMING-FROM.md")
MANUAL_PAGE = os.path.join(TOP, "man", "dctrl-cache-apt.1")
BINARIES = os.path.join(TOP, "python", "bin")

MAIN = "".join((
    stanza("hello", "2.10-3", "Section: devel", "Depends: libc6 (>= 2.34)", "Description: a greeting, no editor"),
    stanza("libc6", "2.36-9", "Section: libs", "Description: C library"),
    stanza("libicu72", "72.1-3", "Source: icu", "Section: libs", "Depends: libc6", "Description: Unicode"),
    stanza("icu-devtools", "72.1-3", "Source: icu", "Section: devel", "Depends: libicu72", "Description: tools"),
    stanza("mutt", "2.2.9-1", "Section: net", "Depends: libicu72, libc6 (>= 2.34)", "Recommends: mta", "Description: mail"),
    stanza("exim4", "4.96-15", "Section: net", "Provides: mta", "Depends: libc6", "Description: mails"),
))
UPDATES = stanza("hello", "2.10-4", "Section: devel", "Depends: libc6 (>= 2.34)", "Description: a greeting")
STATUS = (installed("libc6", "2.36-9") + installed("mutt", "2.2.9-1", "Depends: libicu72, libc6 (>= 2.34)")
          + "Package: sl\nStatus: deinstall ok config-files\nVersion: 5.02-1\nArchitecture: amd64\n\n")
UPLOAD = stanza("hello", "2.12-1", "Depends: libc6 (>= 2.40)")


def contents(path):
    with open(path, encoding="utf-8") as file:
        return file.read()


def rows_of(text, heading):
    """The rows of the table under a heading, each the texts of its cells."""
    part = re.split(r"^## %s\n" % re.escape(heading), text, flags=re.M)[1].split("\n## ")[0]
    lines = [line for line in part.split("\n") if line.startswith("|")][2:]
    return [[cell.strip().replace("\\|", "|") for cell in re.split(r"(?<!\\)\|", line)[1:-1]] for line in lines]


def code(cell):
    """The command of a cell, where it is one; nothing for words."""
    found = re.fullmatch(r"`([^`]*)`", cell)
    return found.group(1) if found else None


def statuses(cell):
    """The status here, and the one there."""
    found = re.fullmatch(r"([0-9]+)(?:, there ([0-9]+))?", cell)
    return (int(found.group(1)), int(found.group(2) or found.group(1))) if found else (None, None)


class Archive:
    """A made root, files of the same lists in a folder of their own, and programs on the path that know where they are."""

    def __init__(self, tests, root):
        self.tests, self.root = tests, root
        root.add_release("stable", {"main": MAIN}, ".gz")
        root.add_release("stable-updates", {"main": UPDATES}, ".gz")
        root.status(STATUS)
        self.folder = os.path.join(root.holder.name, "here")
        self.binaries = os.path.join(root.holder.name, "bin")
        self.image = os.path.join(root.holder.name, "image")
        os.mkdir(self.folder)
        os.mkdir(self.binaries)
        os.symlink(root.folder, self.image)
        for name, text in (("Packages", MAIN), ("hello.control", UPLOAD)):
            with open(os.path.join(self.folder, name), "w", encoding="utf-8") as file:
                file.write(text)
        subprocess.run(["xz", "-k", "Packages"], cwd=self.folder, check=True)
        os.symlink(tests.program, os.path.join(self.binaries, "dctrl-cache"))
        self.add_program("dctrl-cache-apt", 'exec "$0.py" --root %s "$@"' % self.image)
        self.add_program("dctrl-cache-try", 'case " $* " in *" -l "*) exec "$0.py" "$@";; esac; exec "$0.py" --root %s "$@"' % self.image)

    def add_program(self, name, words):
        """A program that calls ours with the made root."""
        path = os.path.join(self.binaries, name)
        with open(path, "w", encoding="utf-8") as file:
            file.write("#!/bin/bash\n" + words.replace('"$0.py"', os.path.join(BINARIES, name)) + "\n")
        os.chmod(path, 0o755)

    def environment(self):
        made = {**self.root.settings(), "DCTRL_CACHE": self.tests.program, "PATH": self.binaries + ":" + os.environ["PATH"]}
        return {**made, "PYTHONDONTWRITEBYTECODE": "1"}

    def run(self, words):
        """The status, the output and the errors of words of a shell."""
        return finished(["bash", "-c", words.replace("/srv/image", self.image)], cwd=self.folder, env=self.environment(),
                        stdin=subprocess.DEVNULL)


def is_refusal(output, errors, status):
    """Whether a run was refused anything. Errors stand beside the status of an unknown name alone."""
    return re.search(rb"^E: line [0-9]+: ", output, re.M) is not None or (errors != b"" and status != 100)


def test_rows(tests, archive, heading, there_too):
    """The rows of a table. The commands of the programs in `there_too` are run as well."""
    for there, here, status in rows_of(contents(PAGE), heading):
        command, (wanted, wanted_there) = code(here), statuses(status)
        what = "%s: %s" % (heading, here)
        tests.same(what, (command is None, status == "-"), (here.startswith("none"), here.startswith("none")))
        if command is not None:
            got = archive.run(command)
            tests.same(what, (got[0], is_refusal(got[1], got[2], got[0])), (wanted, False))
        beside = code(there)
        if command is not None and beside is not None and beside.split()[0] in there_too:
            tests.same("%s, where the page comes from: %s" % (heading, there), archive.run(beside)[0], wanted_there)


SESSION = """import sys
sys.path.insert(0, sys.argv[1])
from dctrl_cache import Session, apt_lists
system = apt_lists(sys.argv[2])
for line in sys.stdin.read().split("\\n")[:-1]:
    with Session(sys.argv[3]) as session:
        if "apt_lists(" not in line:
            system.load(session)
        if '"main"' in line:
            session.add_list("main", "packages", "")
        print(type(eval(line)).__name__)
"""


def test_sessions(tests, archive):
    """The rows of python-apt: each is a call of the module that gives a value of the type that the page says."""
    rows = [(here, gives) for _, here, gives in rows_of(contents(PAGE), "python-apt")]
    calls = [(code(here), code(gives)) for here, gives in rows if code(here) is not None]
    tests.same("rows of python-apt without a counterpart", [gives for here, gives in rows if here.startswith("none")],
               ["-"] * (len(rows) - len(calls)))
    lines = "".join(call.replace("/srv/image", archive.image) + "\n" for call, _ in calls)
    words = ["/usr/bin/python3", "-c", SESSION, os.path.join(TOP, "python"), archive.image, tests.program]
    got = finished(words, input=lines.encode(), env=archive.environment())
    tests.same("the calls of the module", (got[0], got[1].decode().split(), got[2]), (0, [gives for _, gives in calls], b""))


def manual_rows(text):
    """The rows of the same table in the manual page: what is typed there, and here."""
    part = text.split('.SH "COMING FROM OTHER PROGRAMS"\n')[1].split("\n.SH ")[0]
    plain = re.sub(r"\\&", "", part).replace("\\-", "-").replace("\\(aq", "'").replace("\\e", "\\").replace("\\(ha", "^")
    return re.findall(r"^\.TP\n\.B \"?(.*?)\"?\n(.*)$", plain.replace('\\(dq', '"'), re.M)


def test_manual_rows(tests):
    """The manual page has the rows of apt-cache and of grep-dctrl on the page whose commands are of dctrl-cache-apt, and no others."""
    page = [(code(there), code(here)) for heading in ("apt-cache", "grep-dctrl") for there, here, _ in rows_of(contents(PAGE), heading)]
    wanted = [pair for pair in page if None not in pair and pair[1].startswith("dctrl-cache-apt ")]
    tests.same("the rows of the manual page", manual_rows(contents(MANUAL_PAGE)), wanted)


def test_coming_from(tests):
    test_manual_rows(tests)
    if not has_apt() or not os.access("/usr/bin/python3", os.X_OK):
        tests.skip("what is typed in the place of other programs", "apt isn't installed")
        return
    peers = {name for name in ("apt-cache", "grep-dctrl") if shutil.which(name)}
    with AptRoot() as root:
        archive = Archive(tests, root)
        test_rows(tests, archive, "apt-cache", peers)
        test_rows(tests, archive, "grep-dctrl", peers)
        test_rows(tests, archive, "dose-debcheck", ())
        test_sessions(tests, archive)
