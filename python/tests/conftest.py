"""What the tests of the module share: the program, and a session with it."""

import os
import signal
import sys

import pytest

TOP = os.path.abspath(os.path.join(os.path.dirname(__file__), "..", ".."))
sys.path.insert(0, os.path.join(TOP, "python"))
sys.path.insert(0, os.path.dirname(__file__))

from dctrl_cache import Session  # noqa: E402

PROGRAM = os.environ.get("DCTRL_CACHE", os.path.join(TOP, "crates", "dctrl_cache", "out", "dctrl_cache"))


@pytest.fixture
def program():
    """The path of the program."""
    return PROGRAM


@pytest.fixture
def session():
    """A session that is closed at the end of the test, if it isn't yet."""
    made = Session(PROGRAM)
    yield made
    made.kill()


# A test that takes longer, in seconds, has failed.
PATIENCE = 300


def _late(*_):
    raise AssertionError("the test takes too long")


@pytest.fixture(autouse=True)
def _in_time():
    """A test that hangs fails."""
    signal.signal(signal.SIGALRM, _late)
    signal.alarm(PATIENCE)
    yield
    signal.alarm(0)
