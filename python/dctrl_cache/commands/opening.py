"""What the commands begin with: the program, the files of lists, and progress on a terminal."""

import os
import shutil
import subprocess
import sys
import time

from .trials import Fault

# How long loading may take before its progress is shown, in seconds.
PATIENCE = 1.0
_UNPACKERS = {".gz": "gzip", ".xz": "xz", ".lzma": "xz", ".bz2": "bzip2", ".lz4": "lz4", ".zst": "zstd"}


def find_program(script: str) -> str:
    """The program: the one that DCTRL_CACHE names, the one beside a script, or the one on the path."""
    named = os.environ.get("DCTRL_CACHE")
    beside = os.path.join(os.path.dirname(os.path.realpath(script)), "dctrl-cache")
    program = named or (beside if os.access(beside, os.X_OK) else "dctrl-cache")
    found = shutil.which(program)
    if found is None:
        raise Fault("%s: cannot be run" % program)
    return found


def read_list(path: str) -> bytes:
    """The text of a list, which may be packed. Fault where it can't be read or unpacked whole."""
    tool = next((tool for ending, tool in _UNPACKERS.items() if path.endswith(ending)), None)
    try:
        with open(path, "rb") as file:
            if tool is None:
                return file.read()
            got = subprocess.run([tool, "-q", "-dc"], stdin=file, stdout=subprocess.PIPE, stderr=subprocess.PIPE, check=False)
    except OSError as error:
        raise Fault("%s: %s" % (tool if error.filename == tool else path, error.strerror)) from None
    if got.returncode != 0:
        said = got.stderr.decode("utf-8", "replace").strip().split("\n")[0]
        raise Fault("%s: cannot be unpacked: %s" % (path, said))
    return got.stdout


class Progress:
    """Says on a terminal which list is being read, once that has taken a while."""

    def __init__(self) -> None:
        self._start = time.monotonic()
        self._is_shown = False
        self._wanted = os.isatty(2)

    def __call__(self, text: str) -> None:
        if self._wanted and time.monotonic() - self._start > PATIENCE:
            sys.stderr.write("\r\033[K%s" % text[:78])
            sys.stderr.flush()
            self._is_shown = True

    def end(self) -> None:
        """Takes the line away."""
        if self._is_shown:
            sys.stderr.write("\r\033[K")
            sys.stderr.flush()
            self._is_shown = False
