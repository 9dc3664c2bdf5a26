"""Writers that take nothing, stop taking, or take slowly."""

import os
import socket
import subprocess
import time

from harness import LIST, PATIENCE

WRITE_FAILED = (2, b"dctrl-cache: write failed\n")


def many_names(count):
    """A script whose answer is longer than a pipe holds, and that answer."""
    names = [b"package-%06d" % number for number in range(count)]
    stanzas = b"\n".join(b"Package: %s\nVersion: 1\n" % name for name in names)
    return b"add-list m packages\n" + stanzas + b".\npkgnames\n", b"".join(name + b"\n" for name in names)


def test_full_device(tests):
    """An answer that a full device does not take; without an answer there is nothing to fail."""
    rows = [
        ("an answer", LIST + b"pkgnames\n", WRITE_FAILED),
        ("a refusal", b"frob\n", WRITE_FAILED),
        ("a long answer", many_names(30000)[0], WRITE_FAILED),
        ("no answer", LIST + b"mark foo 1\n", (0, b"")),
        ("an answer of nothing", b"pkgnames\n", (0, b"")),
    ]
    for what, script, wanted in rows:
        with open("/dev/full", "wb") as full:
            status, _, errors = tests.run([], script, full)
        tests.same("a full device: " + what, (status, errors), wanted)


def test_errors_that_cannot_be_told(tests):
    """The exit status stands where standard error takes nothing."""
    with open("/dev/full", "wb") as full:
        status, output, _ = tests.run(["-l", "nope"], stderr=full)
    tests.same("standard error on a full device", (status, output), (2, b""))


def test_closed_pipe(tests):
    reader, writer = os.pipe()
    os.close(reader)
    with os.fdopen(writer, "wb") as closed:
        status, _, errors = tests.run([], LIST + b"pkgnames\n", closed)
    tests.same("a closed pipe", (status, errors), WRITE_FAILED)


def test_reader_that_stops(tests):
    """The reader takes one line of a long answer, and closes the pipe."""
    script, answer = many_names(30000)
    with subprocess.Popen([tests.program], stdin=subprocess.PIPE, stdout=subprocess.PIPE, stderr=subprocess.PIPE) as running:
        running.stdin.write(script)
        running.stdin.close()
        first = running.stdout.readline()
        running.stdout.close()
        errors = running.stderr.read()
        tests.same("a reader that stops", (first, running.wait(PATIENCE), errors), (answer[:15],) + WRITE_FAILED)


def test_slow_reader(tests):
    """A reader that waits gets every byte."""
    script, answer = many_names(30000)
    with subprocess.Popen([tests.program], stdin=subprocess.PIPE, stdout=subprocess.PIPE, stderr=subprocess.PIPE) as running:
        running.stdin.write(script)
        running.stdin.close()
        time.sleep(0.2)
        taken = []
        for _ in range(5):
            taken.append(os.read(running.stdout.fileno(), 4096))
            time.sleep(0.02)
        taken.append(running.stdout.read())
        tests.same("a slow reader", (b"".join(taken) == answer, running.wait(PATIENCE), running.stderr.read()), (True, 0, b""))


def test_writer_that_would_block(tests):
    """A pipe that is set not to wait, and is full: the run doesn't wait for it."""
    script, answer = many_names(30000)
    reader, writer = os.pipe()
    os.set_blocking(writer, False)
    status, _, errors = tests.run([], script, writer)
    os.close(writer)
    taken = b""
    with os.fdopen(reader, "rb") as pipe:
        taken = pipe.read()
    tests.same("a writer that would block", (status, errors), WRITE_FAILED)
    tests.same("it has a part of the answer", (0 < len(taken) < len(answer), answer.startswith(taken)), (True, True))


def test_one_write_a_refusal(tests):
    """Each refusal comes in one piece: a socket that keeps pieces apart shows each line as one."""
    ours, its = socket.socketpair(socket.AF_UNIX, socket.SOCK_SEQPACKET)
    with ours, its:
        status, _, errors = tests.run([], b"frob\n" * 3 + b"pkgnames\nunmark foo\n", its.fileno())
        its.close()
        pieces = []
        while True:
            piece = ours.recv(4096)
            if not piece:
                break
            pieces.append(piece)
    wanted = [b"E: line %d: unknown command\n" % number for number in (1, 2, 3)] + [b"E: line 5: no such mark\n"]
    tests.same("the pieces of refusals", (status, errors, pieces), (1, b"", wanted))


def test_writers(tests):
    test_full_device(tests)
    test_errors_that_cannot_be_told(tests)
    test_closed_pipe(tests)
    test_reader_that_stops(tests)
    test_slow_reader(tests)
    test_writer_that_would_block(tests)
    test_one_write_a_refusal(tests)
