"""There may be no memory for the question whose answer ends another. A program that refuses such questions stands for one without."""

import sys

import pytest

from dctrl_cache import Ended, Refused, Session, UnexpectedAnswer

# It prints the words of `say`, and refuses the questions behind those commands that the word names.
STUB = """#!%s
import sys
lost, refuses, number = sys.argv[1].split(","), False, 0
for line in sys.stdin:
    number += 1
    if line.startswith("policy end-"):
        text = "E: line %%d: out of memory" %% number if refuses else "N: Unable to locate package " + line.split()[1]
        print(text, flush=True)
    elif line.startswith("say "):
        print(line[4:].rstrip("\\n").replace("@", str(number + 1)), flush=True)
    elif line.startswith("lack "):
        print("E: line %%d: out of memory" %% number, flush=True)
    refuses = line.split()[-1:] and line.split()[-1] in lost or lost == ["all"]
""" % sys.executable


@pytest.fixture
def stub(tmp_path):
    path = tmp_path / "stub"
    path.write_text(STUB)
    path.chmod(0o755)
    return str(path)


def test_one_by_one(stub):
    """The end of each answer is asked for again."""
    with Session([stub, "two,four"]) as session:
        for word in ("one", "two", "three", "four", "five"):
            assert session.run("say " + word) == word.encode() + b"\n"
            assert session.run("edit " + word) == b""


def test_together(stub):
    """The end of a later answer shows that one before it was refused."""
    with Session([stub, "one,two,four"]) as session:
        answers = session.submit_many(["say one", "edit two", "lack two", "say three", "say four", "edit four", "say five"])
        assert answers[0].result() == b"one\n"
        assert answers[1].result() == b""
        with pytest.raises(Refused) as caught:
            answers[2].result()
        assert (caught.value.number, caught.value.script_line) == (22, 5)
        assert [answer.result() for answer in answers[3:]] == [b"three\n", b"four\n", b"", b"five\n"]


def test_at_the_end(stub):
    """The last ends are refused, and the input ends."""
    with Session([stub, "one,two"]) as session:
        answers = session.submit_many(["say zero", "say one", "say two"])
    assert [answer.result() for answer in answers] == [b"zero\n", b"one\n", b"two\n"]
    session = Session([stub, "one,two"])
    session.submit("say one")
    assert session._channel.submit_last("say two").result() == b"two\n"
    session.close()


def test_a_text_that_reads_so(stub):
    """A text that reads as the refusal of an end is a text where the end comes; where it doesn't come, nobody can tell."""
    faked = "E: line @: out of memory"
    with Session([stub, "none"]) as session:
        assert session.run("say " + faked) == b"E: line 2: out of memory\n"
        got = [answer.result() for answer in session.submit_many(["say " + faked, "say x"])]
        assert (got[0].startswith(b"E: line "), got[0].endswith(b": out of memory\n"), got[1]) == (True, True, b"x\n")
    with Session([stub, "memory"]) as session:
        answers = session.submit_many(["say " + faked, "say x", "say y"])
        for answer in answers[:2]:
            with pytest.raises(UnexpectedAnswer):
                answer.result()
        assert answers[2].result() == b"y\n"


def test_no_memory_for_any(stub):
    """A program that has no memory for any question is ended."""
    session = Session([stub, "all"])
    with pytest.raises(Ended):
        session.run("say one")
    with pytest.raises(Ended):
        session.run("say one")
    with pytest.raises(Ended):
        session.close()
