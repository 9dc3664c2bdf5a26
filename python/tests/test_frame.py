"""How answers are told apart: whatever the data are, however much is written before it is read, and when the program ends."""

import os
import resource
import signal
import threading
import time

import pytest

from dctrl_cache import REFUSALS, Ended, Refused, Session

MAIN = "Package: foo\nVersion: 1\n"
MANY = 100_000


def lines_so_far(session):
    """How many lines the session has written: an unknown command tells its own line, and has one more behind it."""
    with pytest.raises(Refused) as caught:
        session.run("frob")
    return caught.value.script_line + 1


def test_many_before_any_is_read(session):
    """All questions are written before the first answer is looked at."""
    session.add_list("main", "packages", MAIN)
    answers = [session.submit("policy foo" if number % 2 else "pkgnames f") for number in range(MANY)]
    policy = b"foo:\n  Installed: (none)\n  Candidate: 1\n  Version table:\n     1 500\n        500 main\n"
    assert [answer.result() for answer in answers] == [b"foo\n", policy] * (MANY // 2)


def test_large_answers_before_any_is_read(session):
    """Answers of more than any pipe holds, to questions that are written at once."""
    body = "".join("Package: p%05d\nVersion: 1\n\n" % number for number in range(20_000))
    session.add_list("main", "packages", body)
    names = b"".join(b"p%05d\n" % number for number in range(20_000))
    answers = session.submit_many(["pkgnames"] * 50 + [("put main", "Package: a\nVersion: 1\n"), "pkgnames a", "pkgnames a a"])
    assert [answer.result() for answer in answers[:50]] == [names] * 50
    assert (answers[50].result(), answers[51].result()) == (b"", b"a\n")
    with pytest.raises(Refused):
        answers[52].result()


def test_order_of_results(session):
    """Results may be asked for in any order, and more than once."""
    answers = [session.submit("mark a 1"), session.submit("frob"), session.submit("unmark a"), session.submit("unmark a")]
    for _ in range(2):
        for place, number in ((3, 16), (1, 1)):
            with pytest.raises(Refused) as caught:
                answers[place].result()
            assert caught.value.number == number
        assert answers[2].result() == answers[0].result() == b""
    assert all(answer.done() for answer in answers)


def test_faked_frames(session):
    """A line of a stanza that reads as the end of an answer, or as a refusal, is a line of a stanza."""
    stanza = "Package: foo\nVersion: 1\nN: Unable to locate package end-0123456789abcdef0123456789abcdef\nE: line 7: bad name\n"
    session.add_list("main", "packages", stanza)
    for line in ("show foo", "grep-dctrl -P foo"):
        assert session.run(line) == stanza.encode() + b"\n"
    for name in ("N", "E"):
        assert session.run("grep-dctrl -s %s -P foo" % name) == stanza.split("\n")[2 if name == "N" else 3].encode() + b"\n"
    assert session.show("foo")[0]["E"] == "line 7: bad name"


@pytest.mark.parametrize("text", [REFUSALS[number] for number in (1, 2, 4, 8, 19, 20, 22)])
@pytest.mark.parametrize("form", ["-s E", "-n -s Note"])
def test_faked_refusals(session, text, form):
    """A stanza that foresees the line of the filter which prints it isn't taken for a refusal."""
    session.add_list("main", "packages", "")
    foreseen = lines_so_far(session) + 8
    line = "E: line %d: %s" % (foreseen, text)
    session.put("main", "Package: foo\nVersion: 1\n%s\nNote: %s\n" % (line, line))
    assert session.run("grep-dctrl %s -P foo" % form) == line.encode() + b"\n"
    # It was foreseen: what is refused on that line would have been told so.
    assert lines_so_far(session) == foreseen + 1 + (4 if text == REFUSALS[22] else 2) + 2


def test_refused_filters(session):
    """A filter that is refused is, whatever it would print."""
    for words, number in (("-s E (", 19), ("-nsE --rx [", 20), ("-n -s Note '", 2)):
        for ask in (session.run, lambda line: session.submit(line).result(60)):
            with pytest.raises(Refused) as caught:
                ask("grep-dctrl " + words)
            assert caught.value.number == number


def test_refused_filter_at_the_end(session):
    """What a filter answered is decided before the input ends."""
    answer = session.submit("grep-dctrl (")
    assert session.close() == 1
    with pytest.raises(Refused):
        answer.result()


def test_names_of_frames_are_fresh(session, tmp_path):
    """No two ends of answers are alike."""
    stub, heard = tmp_path / "stub", tmp_path / "heard"
    stub.write_text("#!/bin/sh\ntee %s | sed -un 's/^policy \\(end-\\)/N: Unable to locate package \\1/p'\n" % heard)
    stub.chmod(0o755)
    with Session(stub) as other:
        for answer in [other.submit("") for _ in range(50)]:
            assert answer.result() == b""
    names = [line for line in heard.read_text().split("\n") if line]
    assert len(set(names)) == 50 and all(len(name) >= len("policy end-") + 32 for name in names)


def ended_within(seconds, call):
    """Makes a call that raises Ended in this time."""
    start = time.monotonic()
    with pytest.raises(Ended) as caught:
        call()
    assert time.monotonic() - start < seconds
    return caught.value


@pytest.mark.parametrize("moment", ["before", "between", "after"])
def test_killed(session, moment):
    """A program that is killed: what isn't answered raises, nothing waits for ever."""
    session.add_list("main", "packages", MAIN)
    if moment == "before":
        os.kill(session.pid, signal.SIGKILL)
        time.sleep(0.2)
    if moment == "between":
        # It answers none of those that the pipe holds.
        os.kill(session.pid, signal.SIGSTOP)
    try:
        answers = [session.submit("policy foo") for _ in range(500 if moment == "between" else 20_000)]
    except Ended:
        assert moment == "before"
        answers = []
    if moment == "between":
        os.kill(session.pid, signal.SIGKILL)
    if moment == "after":
        answers[-1].result()
        os.kill(session.pid, signal.SIGKILL)
    for answer in answers[-1:] if moment == "between" else []:
        ended_within(60, lambda: answer.result(60))
    assert ended_within(60, lambda: session.run("pkgnames")).status == -signal.SIGKILL
    assert str(ended_within(60, session.close)) == "the program ended by signal 9"


def test_killed_while_it_is_written_to(session):
    """A program that stops in the middle of a body, with a writer that waits for it."""
    os.kill(session.pid, signal.SIGSTOP)
    threading.Timer(0.5, os.kill, (session.pid, signal.SIGKILL)).start()
    ended_within(60, lambda: session.add_list("main", "packages", "Package: a\nVersion: 1\n\n" * 200_000))


def test_timeout(session):
    """A wait for an answer can have an end."""
    os.kill(session.pid, signal.SIGSTOP)
    answer = session.submit("pkgnames")
    with pytest.raises(TimeoutError):
        answer.result(0.1)
    assert not answer.done()
    os.kill(session.pid, signal.SIGCONT)
    assert answer.result(60) == b""


def test_its_own_line(program, tmp_path):
    """The line on standard error and the status are told: of a list that can't be read, and of words that are wrong."""
    with pytest.raises(Ended) as caught:
        Session([program, "-l", "main=%s" % (tmp_path / "nowhere")]).run("pkgnames")
    assert (caught.value.line, caught.value.status) == ("dctrl-cache: %s: cannot read" % (tmp_path / "nowhere"), 2)
    assert str(caught.value) == "the program ended with status 2: " + caught.value.line
    with pytest.raises(OSError):
        Session(tmp_path / "nowhere")
    with pytest.raises(Ended) as caught:
        Session("/bin/true").run("pkgnames")
    assert (caught.value.line, caught.value.status) == ("", 0)
    for limits in ({"memory": 0}, {"cpu": 0}, {"memory": -1}):
        with pytest.raises(ValueError):
            Session(program, **limits)
    path = tmp_path / "Packages"
    path.write_text(MAIN)
    with Session([program, "-l", "main=%s" % path]) as session:
        assert session.pkgnames() == ["foo"]


def test_with(program):
    """The end of a block ends the program: by itself, or at once where the block raised."""
    with Session(program) as session:
        assert session.pkgnames() == []
    assert session.close() == 0
    with pytest.raises(ZeroDivisionError):
        with Session(program) as session:
            answer = session.submit("pkgnames")
            os.kill(session.pid, signal.SIGSTOP)
            raise ZeroDivisionError
    with pytest.raises(Ended):
        session.run("pkgnames")
    assert answer.done()


def test_threads(session):
    """Several threads use one session: each gets its own answers."""
    wrong = []

    def work(name):
        for number in range(200):
            session.add_list("%s%d" % (name, number), "packages", "Package: %s%d\nVersion: 1\n" % (name, number))
            if session.pkgnames("%s%d" % (name, number))[0] != "%s%d" % (name, number):
                wrong.append((name, number))

    threads = [threading.Thread(target=work, args=(name,)) for name in "abcd"]
    for thread in threads:
        thread.start()
    for thread in threads:
        thread.join()
    assert wrong == [] and len(session.pkgnames()) == 800


LARGE = "".join("Package: p%06d\nVersion: 1\nDepends: q%06d\nDescription: %s\n\n" % (number, number, "x" * 200) for number in range(60_000))


def test_limit_of_memory(program):
    """Past the limit a list is refused, and the session goes on with what it has; without one there is room."""
    with Session(program, memory=60_000_000) as session:
        session.add_list("main", "packages", MAIN)
        for _ in range(3):
            with pytest.raises(Refused) as caught:
                session.add_list("large", "packages", LARGE)
            assert (caught.value.number, caught.value.text) == (22, "out of memory")
            assert session.pkgnames() == ["foo"]
        answers = session.submit_many([("add-list large packages", LARGE), "pkgnames", "policy foo"])
        with pytest.raises(Refused):
            answers[0].result()
        assert answers[1].result() == b"foo\n"
        soft, hard = resource.prlimit(session.pid, resource.RLIMIT_AS)
        assert (soft, hard) == (60_000_000, 60_000_000)
    with Session(program) as session:
        session.add_list("large", "packages", LARGE)
        assert len(session.pkgnames()) == 60_000


def test_limit_of_time(program):
    """Past the limit the kernel ends the program."""
    with pytest.raises(Ended) as caught:
        with Session(program, cpu=1) as session:
            session.add_list("large", "packages", LARGE)
            for answer in session.submit_many(["unmet"] * 200):
                answer.result()
    assert caught.value.status in (-signal.SIGXCPU, -signal.SIGKILL)
