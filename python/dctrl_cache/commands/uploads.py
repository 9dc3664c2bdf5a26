"""The stanzas of an upload: of packages, of a .changes file, or of control text."""

import os
import re
import subprocess
from collections.abc import Iterator

from ..script import to_text
from .trials import Fault, Upload

_BLANK = re.compile(rb"[ \t\r]*$")
_FIELD = re.compile(rb"^(Package|Version|Architecture)[ \t]*:(.*)$", re.IGNORECASE | re.MULTILINE)
_LISTED = re.compile(r"^(?:Checksums-Sha256|Files):[ \t]*$((?:\n[ \t].*)*)", re.IGNORECASE | re.MULTILINE)


def _read(path: str) -> bytes:
    try:
        with open(path, "rb") as file:
            return file.read()
    except OSError as error:
        raise Fault("%s: %s" % (path, error.strerror)) from None


def _paragraphs(text: bytes) -> Iterator[tuple[int, bytes]]:
    """The stanzas of a text, each with the number of its first line."""
    lines: list[bytes] = []
    number = start = 0
    for number, line in enumerate(text.split(b"\n"), 1):
        if _BLANK.match(line):
            if lines:
                yield start, b"\n".join(lines) + b"\n"
            lines = []
        else:
            start = start if lines else number
            lines.append(line)
    if lines:
        yield start, b"\n".join(lines) + b"\n"


def _fields(text: bytes) -> dict[str, str]:
    return {to_text(name).lower(): to_text(body).strip() for name, body in _FIELD.findall(text)}


def control_stanzas(text: bytes, origin: str) -> list[tuple[Upload, str]]:
    """The stanzas of a control text, and the architecture of each. One without a package or a version is a fault."""
    found = []
    for line, stanza in _paragraphs(text):
        fields = _fields(stanza)
        for name in ("Package", "Version"):
            if not fields.get(name.lower()):
                raise Fault("%s: line %d: required field missing: %s" % (origin, line, name))
        found.append((Upload(fields["package"], fields["version"], stanza, origin, line), fields.get("architecture", "all")))
    if not found:
        raise Fault("%s: there is no stanza in it" % origin)
    return found


def _package_file(path: str) -> list[tuple[Upload, str]]:
    """The stanza of a package, by dpkg-deb(1)."""
    try:
        got = subprocess.run(["dpkg-deb", "-f", path], stdin=subprocess.DEVNULL, stdout=subprocess.PIPE, stderr=subprocess.PIPE,
                             check=False)
    except OSError as error:
        raise Fault("dpkg-deb: %s" % error.strerror) from None
    if got.returncode != 0:
        said = to_text(got.stderr).strip().split("\n")[-1]
        raise Fault("%s: %s" % (path, said or "not a package"))
    return control_stanzas(got.stdout, path)


def packages_of_changes(path: str) -> list[str]:
    """The packages that a .changes file names, beside it; those of the installer of Debian have lists of their own."""
    text = to_text(_read(path)).replace("\r", "")
    found = _LISTED.search(text)
    if found is None:
        raise Fault("%s: it lists no files" % path)
    names = [line.split()[-1] for line in found.group(1).split("\n") if line.strip()]
    packages = [os.path.join(os.path.dirname(path), name) for name in names if name.endswith(".deb")]
    if not packages:
        raise Fault("%s: it lists no packages" % path)
    return packages


def stanzas_of(path: str) -> list[tuple[Upload, str]]:
    """The stanzas of a file of an upload, and the architecture of each."""
    if path.endswith(".changes"):
        return [pair for package in packages_of_changes(path) for pair in _package_file(package)]
    if path.endswith(".deb"):
        if not os.path.exists(path):
            raise Fault("%s: there is no such file" % path)
        return _package_file(path)
    return control_stanzas(_read(path), path)
