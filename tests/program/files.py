"""Lists that are loaded from files, by -l and --status."""

import gzip
import lzma
import os
import time

from harness import Files, finished

# One byte more than a file may have.
TOO_MANY = 4294967296

ONE = b"Package: a\nVersion: 1\n"
TWO = b"Package: c\nVersion: 1\n\nPackage: b\nVersion: 1:2-3\nDepends: a (>= 1) | x\nDescription: b\n more\n .\n"
STATUS = (b"Package: s\nStatus: install ok installed\nVersion: 1\n\n"
          b"Package: gone\nStatus: deinstall ok config-files\nVersion: 1_0\n")
LONG = b"x" * 1048577

# A text, the line of its fault as a packages list, and the words of the fault.
FAULTS = [
    (b"oops\n", 1, b"not a control line"),
    (b" x\n" + ONE, 1, b"not a control line"),
    (ONE + b"# a comment\n", 3, b"not a control line"),
    # The dot that ends a body of a script ends no file.
    (ONE + b".\n", 3, b"not a control line"),
    (ONE + b"\n x: y\n", 4, b"not a control line"),
    (ONE + b"package: b\n", 3, b"field given twice"),
    (ONE + b"\n\n\nVersion: 1\nX: y\n", 6, b"required field missing"),
    (b"Package: a\nVersion:\n", 1, b"required field missing"),
    (b"Package: a!\nVersion: 1\n", 1, b"bad name"),
    (b"Package: a\nVersion: 1_0\n", 2, b"bad version"),
    (ONE + b"Depends: b [amd64]\n", 3, b"bad relation field"),
    (ONE + b"Provides:\n b (>=\n 1)\n", 3, b"bad relation field"),
    (ONE + LONG, 3, b"line too long"),
    # Of several, the one of the least line is told.
    (ONE + b"oops\n" + LONG, 3, b"not a control line"),
    (ONE + LONG + b"\noops\n", 3, b"line too long"),
    (b"Package: a!\nVersion: 1_0\nDepends: |\n", 1, b"bad name"),
    (b"Package: a\nDepends: |\nVersion: 1_0\n", 2, b"bad relation field"),
    # On one line it is the one that comes first in the manual's list.
    (b"Package: a!\n", 1, b"required field missing"),
    (b"Package: a!\noops\n", 2, b"not a control line"),
]
STATUS_FAULTS = [
    (ONE, 1, b"required field missing"),
    (STATUS + b"\nPackage: t\nStatus: install ok odd\nVersion: 1\n", 9, b"required field missing"),
    (b"Package: t\nStatus: install ok installed\n", 1, b"required field missing"),
    (b"Package: t\nStatus: install ok installed\nVersion: 1-\n", 3, b"bad version"),
]


def test_lists(tests):
    """Lists are read in order, and then the script is run."""
    with Files() as files:
        one, two = files.write("one", ONE), files.write("two", TWO)
        status, empty = files.write("status", STATUS), files.write("empty", b"")
        cut = files.write("cut", TWO[:-1])
        first = "main=" + one
        rows = [
            ("a list", ["-l", first], b"pkgnames\n", (0, b"a\n", b"")),
            ("two lists", ["-l", first, "-l", "sid=" + two], b"pkgnames\n", (0, b"a\nb\nc\n", b"")),
            ("a list of nothing", ["-l", "main=" + empty], b"pkgnames\ndrop-list main\n", (0, b"", b"")),
            ("no last newline", ["-l", "main=" + cut], b"pkgnames\n", (0, b"b\nc\n", b"")),
            ("what is live of a status file", ["--status", status], b"pkgnames\n", (0, b"s\n", b"")),
            ("the name of the status list", ["--status", status], b"remove status s 1\npkgnames\n", (0, b"", b"")),
            ("edits of a loaded list", ["-l", first], b"put main\nPackage: z\nVersion: 1\n.\nremove main a 1-0\npkgnames\n",
             (0, b"z\n", b"")),
            ("lines count from the script's first", ["-l", first], b"add-list main packages\n.\nfrob\n",
             (1, b"E: line 1: list already present\nE: line 3: unknown command\n", b"")),
            ("one status list at most", ["--status", status], b"add-list dpkg status\n.\nadd-list status status\n.\n",
             (1, b"E: line 1: a status list is already present\nE: line 3: list already present\n", b"")),
        ]
        for what, words, script, wanted in rows:
            tests.same(what, tests.run(words, script), wanted)


def test_names_and_files(tests):
    """NAME=FILE is cut at its first `=`."""
    with Files() as files:
        one, equals = files.write("one", ONE), files.write("a=b", ONE)
        missing, folder = files.path("missing"), files.folder.name
        tests.same("a file with = in its name", tests.run(["-l", "main=" + equals], b"pkgnames\n"), (0, b"a\n", b""))
        tests.fails("no =", ["-l", "main"], b"main: not NAME=FILE")
        tests.fails("no word", ["-l", ""], b": not NAME=FILE")
        tests.fails("a bad name", ["-l", "m!=" + one], one.encode() + b": bad name")
        tests.fails("no name", ["-l", "=" + one], one.encode() + b": bad name")
        tests.fails("no file", ["-l", "main="], b": cannot read")
        tests.fails("a missing file", ["-l", "main=" + missing], missing.encode() + b": cannot read")
        tests.fails("a folder", ["-l", "main=" + folder], folder.encode() + b": cannot read")
        tests.fails("a missing status file", ["--status", missing], missing.encode() + b": cannot read")
        tests.fails("a folder as status file", ["--status", folder], folder.encode() + b": cannot read")
        tests.fails("a name twice", ["-l", "m=" + one, "-l", "m=" + one], one.encode() + b": list already present")
        status = files.write("status", STATUS)
        tests.fails("the name of the status list", ["-l", "status=" + one, "--status", status],
                    status.encode() + b": list already present")


def test_files_that_cannot_be_read(tests):
    """A file that opens and fails when it is read, one without leave, and one that is a pipe."""
    if os.path.exists("/proc/self/mem"):
        tests.fails("a file whose reading fails", ["-l", "m=/proc/self/mem"], b"/proc/self/mem: cannot read")
    else:
        tests.skip("a file whose reading fails", "there is no /proc/self/mem")
    with Files() as files:
        closed = files.write("closed", ONE)
        os.chmod(closed, 0)
        if os.access(closed, os.R_OK):
            tests.skip("a file without leave", "this user may read all files")
        else:
            tests.fails("a file without leave", ["-l", "m=" + closed], closed.encode() + b": cannot read")
    reader, writer = os.pipe()
    os.write(writer, TWO)
    os.close(writer)
    got = tests.run(["-l", "m=/dev/fd/%d" % reader], b"pkgnames\n", pass_fds=[reader])
    os.close(reader)
    tests.same("a pipe as file", got, (0, b"b\nc\n", b""))


def test_large_files(tests):
    """A file that is known to be too large is refused before it is read; one of a byte less is read, and has its fault."""
    with Files() as files:
        large = files.write("large", b"")
        os.truncate(large, TOO_MANY)
        start = time.monotonic()
        tests.fails("a file that is too large", ["-l", "m=" + large], large.encode() + b": cannot read")
        tests.same("it is refused by its size", time.monotonic() - start < 1, True)
        tests.fails("a status file that is too large", ["--status", large], large.encode() + b": cannot read")


def test_compressed_files(tests):
    """A compressed list is refused at its first line, and comes through a pipe."""
    with Files() as files:
        for name, pack in (("gzip", gzip.compress), ("xz", lzma.compress)):
            path = files.write(name, pack(TWO))
            tests.fails("a list by %s" % name, ["-l", "m=" + path], path.encode() + b": line 1: not a control line")
        path = files.write("Packages.xz", lzma.compress(TWO))
        script = "echo pkgnames | \"$0\" -l m=<(xz -dc %s)" % path
        tests.same("a list through a pipe of bash", finished(["bash", "-c", script, tests.program]), (0, b"b\nc\n", b""))


def test_faults_of_files(tests):
    """The line of the fault is told, and the script is not run."""
    with Files() as files:
        for number, (text, line, words) in enumerate(FAULTS):
            path = files.write("faulty%d" % number, text)
            tests.fails("a list with %r" % text[:40], ["-l", "m=" + path], b"%s: line %d: %s" % (path.encode(), line, words))
        for number, (text, line, words) in enumerate(STATUS_FAULTS):
            path = files.write("odd%d" % number, text)
            tests.fails("a status file with %r" % text[:40], ["--status", path],
                        b"%s: line %d: %s" % (path.encode(), line, words))


def test_the_first_fault(tests):
    """Of several faults the first is told: the words, each -l in its order, the status file, the script."""
    with Files() as files:
        one, faulty, missing = files.write("one", ONE), files.write("faulty", b"oops\n"), files.path("missing")
        cannot, line = missing.encode() + b": cannot read", faulty.encode() + b": line 1: not a control line"
        none = files.path("none")
        rows = [
            ("two values of -l", ["-l", "nope", "-l", "m=" + missing], b"nope: not NAME=FILE"),
            ("the same turned round", ["-l", "m=" + missing, "-l", "nope"], cannot),
            ("a faulty file before a missing one", ["-l", "m=" + faulty, "-l", "n=" + missing], line),
            ("a missing file before a faulty one", ["-l", "m=" + missing, "-l", "n=" + faulty], cannot),
            ("a list before the status file", ["--status", missing, "-l", "m=" + faulty], line),
            ("the status file before the script", [none, "--status", missing, "-l", "m=" + one], cannot),
            ("a list before the script", [none, "-l", "m=" + faulty], line),
            ("the script behind a good list", [none, "-l", "m=" + one], none.encode() + b": cannot read"),
            ("a file before its name", ["-l", "m!=" + missing], cannot),
            ("a name before its text", ["-l", "m!=" + faulty], faulty.encode() + b": bad name"),
            ("a text before its name given twice", ["-l", "m=" + one, "-l", "m=" + faulty], line),
        ]
        for what, words, errors in rows:
            tests.fails(what, words, errors)
        status, output, errors = tests.run(["-x", "-l", "nope", none])
        tests.same("the words before the lists", (status, output, b"not NAME=FILE" in errors), (2, b"", False))


def test_files_and_bodies(tests):
    """A list by -l and the same list as a body give the same names and take the same edits."""
    questions = b"pkgnames\npkgnames a\nremove m a 1-0\npkgnames\nput m\nPackage: zz\nVersion: 1\n.\npkgnames\n"
    texts = [b"", b"\n \n\t\n", ONE, TWO, TWO + b"\n\n" + ONE, ONE + b"\n" + ONE, TWO.rstrip(b"\n") + b"\n \t\n" + ONE]
    texts.append(b"\n".join(b"Package: p%d\nVersion: %d\nX:\n  y\n" % (number % 700, number) for number in range(2000)))
    with Files() as files:
        for number, text in enumerate(texts):
            path = files.write("list%d" % number, text)
            body = b"add-list m packages\n" + text + b".\n"
            # Comments take the place of the body's lines, so that the questions stand on the same lines.
            filler = b"#\n" * body.count(b"\n")
            by_file = tests.run(["-l", "m=" + path], filler + questions)
            tests.same("the text %r as file and as body" % text[:40], by_file, tests.run([], body + questions))
            tests.same("the added stanza of %r" % text[:40], by_file[1].endswith(b"zz\n"), True)


def test_files(tests):
    test_lists(tests)
    test_names_and_files(tests)
    test_files_that_cannot_be_read(tests)
    test_large_files(tests)
    test_compressed_files(tests)
    test_faults_of_files(tests)
    test_the_first_fault(tests)
    test_files_and_bodies(tests)
