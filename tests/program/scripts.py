"""Scripts, where they come from, what they write, and the exit status."""

import os
import subprocess

from harness import LIST, PATIENCE, Files


def test_statuses(tests):
    rows = [
        ("an empty script", b"", (0, b"", b"")),
        ("names", LIST + b"pkgnames\n", (0, b"bar\nfoo\n", b"")),
        ("no last newline", LIST + b"pkgnames f", (0, b"foo\n", b"")),
        ("accepted edits", LIST + b"mark foo 1\npin foo version 1* 900\ntarget main\ndrop-list main\n", (0, b"", b"")),
        ("a refused command", b"frob\npkgnames\n", (1, b"E: line 1: unknown command\n", b"")),
        ("a refusal among answers", LIST + b"pkgnames f\nunmark foo\npkgnames b\n",
         (1, b"foo\nE: line 9: no such mark\nbar\n", b"")),
        ("carriage returns", b"pkgnames\r\n", (1, b"E: line 1: unknown command\n", b"")),
        ("a body cut short", b"add-list m packages\nPackage: a\n", (1, b"E: line 2: body has no end\n", b"")),
        ("bytes that are no text", b"pkgnames \xff\n\xff\x00\n", (1, b"E: line 2: unknown command\n", b"")),
        ("a line that is too long", b"x" * 1048577 + b"\npkgnames\n", (1, b"E: line 1: line too long\n", b"")),
    ]
    for what, script, wanted in rows:
        tests.same(what, tests.run([], script), wanted)


def test_files_of_scripts(tests):
    """A script by its name is run, and standard input is left alone."""
    with Files() as files:
        names = files.write("names.script", LIST + b"pkgnames\n")
        tests.same("a script by its name", tests.run([names], b"frob\n"), (0, b"bar\nfoo\n", b""))
        tests.same("a script behind --", tests.run(["--", names], b"frob\n"), (0, b"bar\nfoo\n", b""))
        tests.same("standard input by its name", tests.run(["/dev/stdin"], LIST + b"pkgnames\n"), (0, b"bar\nfoo\n", b""))
        missing = files.path("missing")
        tests.fails("a script that is not there", [missing], missing.encode() + b": cannot read")
        below = os.path.join(names, "x")
        tests.fails("a script below a file", [below], below.encode() + b": cannot read")
        tests.fails("a script without a name", [""], b": cannot read")
        tests.fails("a folder", [files.folder.name], b"read failed")
        tests.same("a dash is the name of a file", tests.run(["-"], b"pkgnames\n", cwd=files.folder.name),
                   (2, b"", b"dctrl-cache: -: cannot read\n"))


def test_standard_input_that_fails(tests):
    """Standard input is a folder, which can't be read."""
    with Files() as files:
        folder = os.open(files.folder.name, os.O_RDONLY)
        try:
            tests.same("a folder as standard input", tests.run([], None, stdin=folder),
                       (2, b"", b"dctrl-cache: read failed\n"))
        finally:
            os.close(folder)


def test_standard_input_that_would_block(tests):
    """Standard input is set not to wait, and has half a command: the run doesn't wait for the rest."""
    reader, writer = os.pipe()
    os.set_blocking(reader, False)
    os.write(writer, LIST + b"pkgnames\npkgn")
    status, output, errors = tests.run([], None, stdin=reader)
    os.close(reader)
    os.close(writer)
    tests.same("standard input that would block", (status, output, errors), (2, b"bar\nfoo\n", b"dctrl-cache: read failed\n"))


def run_in_parts(program, parts):
    """A run whose script comes in parts: its status, its output, and the most memory that it had before the last part, in bytes."""
    with subprocess.Popen([program], stdin=subprocess.PIPE, stdout=subprocess.PIPE) as running:
        for part in parts[:-1]:
            running.stdin.write(part)
        running.stdin.flush()
        with open("/proc/%d/status" % running.pid, encoding="ascii") as status:
            peak = next(int(line.split()[1]) * 1024 for line in status if line.startswith("VmHWM:"))
        running.stdin.write(parts[-1])
        running.stdin.close()
        output = running.stdout.read()
        return running.wait(PATIENCE), output, peak


def test_bodies_that_are_not_kept(tests):
    """A body that can only be refused is read over: it takes no memory, and its end is found."""
    some = b"Package: a\nVersion: 1\n\n" * 1000
    rows = [
        (b"add-list m! packages\n", b"line 1: bad name"),
        (b"add-list m\n", b"line 1: bad arguments"),
        (b"put m\n", b"line 1: no such list"),
        (b"prefs x\n", b"line 1: bad arguments"),
        (b"add-list m packages\n" + b"x" * 1048577 + b"\n", b"line 2: line too long"),
    ]
    for head, refusal in rows:
        count = head.count(b"\n") + 2000 * some.count(b"\n") + 2
        status, output, peak = run_in_parts(tests.program, [head] + [some] * 2000 + [b".\nfrob\n"])
        wanted = b"E: %s\nE: line %d: unknown command\n" % (refusal, count)
        tests.same("a body behind %r" % head[:20], (status, output), (1, wanted))
        tests.same("the memory for a body behind %r" % head[:20], peak < 2000 * len(some) // 2, True)


def test_scripts(tests):
    test_statuses(tests)
    test_files_of_scripts(tests)
    test_standard_input_that_fails(tests)
    test_standard_input_that_would_block(tests)
    test_bodies_that_are_not_kept(tests)
