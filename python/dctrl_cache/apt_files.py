"""The files that apt keeps: lists in whatever form, without the stanzas of other architectures; and what Release files say."""

import bz2
import gzip
import lzma
import os
import re
import shutil
import subprocess
from collections.abc import Callable
from typing import Final

from .script import to_text

APT_HELPER: Final = "/usr/lib/apt/apt-helper"
ENDINGS: Final = (".lz4", ".gz", ".xz", ".zst", ".bz2", ".lzma")

_UNPACK: Final[dict[str, Callable[[bytes], bytes]]] = {
    ".gz": gzip.decompress, ".xz": lzma.decompress, ".lzma": lzma.decompress, ".bz2": bz2.decompress}
_TOOLS: Final = {".lz4": "lz4", ".zst": "zstd"}
_ARCHITECTURE = re.compile(rb"^architecture:[ \t]*(\S*)", re.IGNORECASE | re.MULTILINE)
_BLANK = re.compile(rb"^[ \t]*\n", re.MULTILINE)


class AptFault(Exception):
    """A file of apt's, or a setting, that is wrong.

    path  the file, or the name of the setting
    line  the line of the fault in the file, unpacked where it is packed, from 1; None where it is the whole file
    text  what is wrong"""

    def __init__(self, path: str, line: int | None, text: str) -> None:
        super().__init__(path, line, text)
        self.path = path
        self.line = line
        self.text = text

    def __str__(self) -> str:
        return "%s: %s%s" % (self.path, "" if self.line is None else "line %d: " % self.line, self.text)


def plain_name(path: str) -> str:
    """The path of a list as it would be if it weren't packed."""
    for ending in ENDINGS:
        if path.endswith(ending):
            return path[:-len(ending)]
    return path


def read_list(path: str) -> bytes:
    """The text of a file, unpacked. AptFault where it can't be read, or is cut."""
    ending = path[len(plain_name(path)):]
    try:
        if ending in _TOOLS:
            return _unpacked_by_tool(path, _TOOLS[ending])
        with open(path, "rb") as file:
            data = file.read()
    except FileNotFoundError:
        raise AptFault(path, None, "there is no such file") from None
    except OSError:
        raise AptFault(path, None, "cannot read") from None
    try:
        return _UNPACK[ending](data) if ending else data
    except (OSError, EOFError, lzma.LZMAError, ValueError) as error:
        raise AptFault(path, None, "cannot be unpacked: %s" % error) from None


def _unpacked_by_tool(path: str, tool: str) -> bytes:
    """The text of a file in a form that Python doesn't know. The program for the form says where a file is cut, that of apt not always."""
    with open(path, "rb") as file:
        file.read(1)
    words = [tool, "-q", "-dc", "--", path] if shutil.which(tool) else [APT_HELPER, "cat-file", path]
    got = subprocess.run(words, stdin=subprocess.DEVNULL, stdout=subprocess.PIPE, stderr=subprocess.PIPE)
    if got.returncode != 0:
        said = to_text(got.stderr).splitlines()
        raise AptFault(path, None, "cannot be unpacked: %s" % (said[0] if said else words[0]))
    return got.stdout


def without_others(text: bytes, architecture: str) -> bytes:
    """The text in which stanzas of other architectures are blank lines, so that all lines keep their numbers."""
    own = (architecture.encode(), b"all", b"")
    usual = sum(text.count(b"\nArchitecture: %s\n" % name) for name in own[:2])
    if text.lower().count(b"\narchitecture:") == usual and not text[:13].lower().startswith(b"architecture:"):
        return text
    pieces, start = [], 0
    for end in [found.start() for found in _BLANK.finditer(text)] + [len(text)]:
        stanza = text[start:end]
        is_other = any(found.group(1) not in own for found in _ARCHITECTURE.finditer(stanza))
        pieces.append(b"\n" * stanza.count(b"\n") if is_other else stanza)
        start = end
    return b"".join(pieces)


def read_release(prefix: str) -> dict[str, str]:
    """The fields of the Release file of a list, by their names in small letters; none where there is no such file."""
    for name in ("InRelease", "Release"):
        try:
            with open(prefix + name, encoding="utf-8", errors="surrogateescape") as file:
                lines = file.read().splitlines()
        except OSError:
            continue
        fields: dict[str, str] = {}
        for line in lines:
            if line.startswith("-----BEGIN PGP SIGNATURE"):
                break
            key, colon, body = line.partition(":")
            if colon and key[:1].isalpha():
                fields[key.lower()] = body.strip()
        return fields
    return {}


def is_true(text: str) -> bool:
    """Whether apt takes a word for yes."""
    word = text.strip().lower()
    return word in ("yes", "true", "with", "on", "enable") or (word.lstrip("-").isdigit() and int(word) != 0)


def preference_files(main: str, parts: str) -> list[str]:
    """The files of preferences that there are, in the order in which apt reads them."""
    files = [main] if os.path.isfile(main) else []
    try:
        names = sorted(os.listdir(parts), key=os.fsencode)
    except OSError:
        return files
    for name in names:
        is_taken = re.fullmatch("[A-Za-z0-9_.-]+", name) and not name.startswith(".") and (name.endswith(".pref") or "." not in name)
        if is_taken and os.path.isfile(os.path.join(parts, name)):
            files.append(os.path.join(parts, name))
    return files
