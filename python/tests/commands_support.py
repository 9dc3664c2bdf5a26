"""What the tests of the commands share: the programs, made roots, and runs of them."""

import os
import subprocess
import sys

TOP = os.path.join(os.path.dirname(os.path.abspath(__file__)), "..", "..")
PROGRAM = os.environ.get("DCTRL_CACHE") or os.path.join(TOP, "crates", "dctrl_cache", "out", "dctrl_cache")
APT_COMMAND = os.path.join(TOP, "python", "bin", "dctrl-cache-apt")
TRY_COMMAND = os.path.join(TOP, "python", "bin", "dctrl-cache-try")
sys.path[:0] = [path for path in (os.path.join(TOP, "python"), os.path.join(TOP, "tests", "program")) if path not in sys.path]

from apt_root import PACKERS, PROGRAMS, AptRoot, installed, packed, stanza  # noqa: E402

__all__ = ["APT_COMMAND", "AptRoot", "PACKERS", "PROGRAM", "PROGRAMS", "TOP", "TRY_COMMAND", "ask", "environment", "installed", "packed",
           "run",
           "stanza", "try_change"]


def environment(**settings):
    """The environment of a run, with the program that is tried."""
    made = {**os.environ, "DCTRL_CACHE": PROGRAM, **settings}
    return {name: value for name, value in made.items() if value is not None}


def run(words, script=b"", **settings):
    """The status, the output and the errors of a command."""
    got = subprocess.run(words, input=script, stdout=subprocess.PIPE, stderr=subprocess.PIPE, timeout=120, env=environment(**settings),
                         check=False)
    return got.returncode, got.stdout, got.stderr


def ask(root, words, script=b"", **settings):
    """The status, the output and the errors of dctrl-cache-apt in a made root."""
    return run([APT_COMMAND, "--root", root.folder, *words], script, **settings)


def try_change(words, **settings):
    """The status, the output and the errors of dctrl-cache-try."""
    return run([TRY_COMMAND, *words], **settings)
