"""dctrl-cache-try: what an upload or a removal would leave unmet."""

import json
import os
import subprocess
import sys
from collections.abc import Callable
from dataclasses import asdict, dataclass, field

from ..errors import Ended, Refused
from ..script import to_bytes
from ..session import Session
from .opening import Progress, find_program, read_list
from .quick import write_out
from .trials import Change, Fault, Trial, Upload, remove, upload
from .rows import Unmet
from .uploads import stanzas_of

VERSION = "0.1.0"
USAGE = """\
Usage: dctrl-cache-try [OPTION]... upload LIST FILE...
       dctrl-cache-try [OPTION]... remove LIST NAME...

Tries a change of an archive in memory, and prints the dependencies that
nothing meets afterwards and that something met before. Nothing is changed.

upload puts packages into a list; older versions of the same packages leave
it. FILE is a package (.deb), a .changes file beside its packages, or a text
of control stanzas. remove takes out all binaries of a source; NAME is a
source, or, where LIST has no such source, a package.

  -l NAME=FILE           reads a packages list, in the place of those of apt
      --root DIR         reads the lists of apt of the system below DIR
      --only LIST        reads this list of apt alone; it may be given again
      --without LIST     leaves a list of apt out; it may be given again
      --installed        reads what is installed too
      --architecture A   takes the packages of this architecture (and `all`)
  -i, --important        looks at Depends and Pre-Depends alone
      --all              prints what is met afterwards too, behind a minus
      --json             prints the rows as JSON
      --strict           ends where a list has a fault
  -h, --help             prints this
  -V, --version          prints the version

It looks at direct dependencies alone: whether a package can be installed
together with all that it needs, conflicts among that, dose-debcheck(1) tells.

The status is 0 where nothing more is unmet, 1 where something is, and 2 where
the words or a file are wrong.
"""


@dataclass
class Call:
    """What a call asks for."""

    action: str = ""
    list_name: str = ""
    names: list[str] = field(default_factory=list)
    files: list[tuple[str, str]] = field(default_factory=list)
    root: str = ""
    only: list[str] = field(default_factory=list)
    without: list[str] = field(default_factory=list)
    installed: bool = False
    architecture: str = ""
    important: bool = False
    all: bool = False
    json: bool = False
    strict: bool = False


_FLAGS = {"--installed": "installed", "-i": "important", "--important": "important", "--all": "all", "--json": "json", "--strict": "strict"}


def _take_value(call: Call, option: str, value: str) -> None:
    if not value:
        raise Fault("%s: it has no value" % option)
    if option == "-l":
        name, equals, path = value.partition("=")
        if not equals or not name or not path:
            raise Fault("%s: not NAME=FILE" % value)
        call.files.append((name, path))
    elif option in ("--only", "--without"):
        (call.only if option == "--only" else call.without).append(value)
    else:
        setattr(call, option[2:], value)


def read_call(words: list[str]) -> Call:
    """The options and the words of a call. Options may stand anywhere before the first file or name."""
    call, place = Call(), 0
    plain: list[str] = []
    while place < len(words) and len(plain) < 2:
        word = words[place]
        place += 1
        option, equals, value = word.partition("=")
        if word == "-l" or option in ("--root", "--only", "--without", "--architecture"):
            if word == "-l" or not equals:
                option, value, place = word, (words[place] if place < len(words) else ""), place + 1
            _take_value(call, option, value)
        elif word in _FLAGS:
            setattr(call, _FLAGS[word], True)
        elif word.startswith("-") and len(word) > 1:
            raise Fault("%s: unknown option" % word)
        else:
            plain.append(word)
    call.names = words[place:]
    _check(call, plain)
    return call


def _check(call: Call, plain: list[str]) -> None:
    if not plain:
        raise Fault("upload or remove is missing; dctrl-cache-try --help tells more")
    if plain[0] not in ("upload", "remove"):
        raise Fault("%s: neither upload nor remove" % plain[0])
    if len(plain) < 2:
        raise Fault("%s: no list is named" % plain[0])
    call.action, call.list_name = plain
    if not call.names:
        raise Fault("%s: %s" % (call.action, "no file is named" if call.action == "upload" else "no source or package is named"))
    if call.files and (call.root or call.only or call.without or call.installed):
        raise Fault("-l: --root, --only, --without and --installed are for the lists of apt")


def _said_architecture() -> str:
    """The architecture of the machine, by dpkg."""
    try:
        got = subprocess.run(["dpkg", "--print-architecture"], stdout=subprocess.PIPE, stderr=subprocess.DEVNULL, check=False)
    except OSError:
        return ""
    return got.stdout.decode().strip()


def _load_files(session: Session, call: Call, say: Callable[[str], None]) -> tuple[str, str]:
    """Reads the lists of -l. Returns the name of the list that is changed, and the architecture."""
    progress = Progress()
    for name, path in call.files:
        progress("reading %s" % path)
        try:
            session.add_list(name, "packages", read_list(path))
        except Refused as refused:
            place = "%s: line %d: " % (path, refused.body_line) if refused.body_line else "%s: " % name
            if call.strict or not refused.body_line:
                raise Fault(place + refused.text) from None
            say(place + refused.text + ": the list is left out")
    progress.end()
    if call.list_name not in [name for name, _ in call.files]:
        raise Fault("%s: no list has this name" % call.list_name)
    return call.list_name, call.architecture or _said_architecture()


def _taken(call: Call, architecture: str, say: Callable[[str], None]) -> list[Upload]:
    """The stanzas of an upload that are of the architecture."""
    taken = []
    for path in call.names:
        for stanza, of in stanzas_of(path):
            if of in (architecture, "all") or not architecture:
                taken.append(stanza)
            else:
                say("%s: %s is left out: it is of %s, and the list of %s" % (stanza.origin, stanza.package, of, architecture))
    return taken


def lines_of(found: list[Unmet], sign: str) -> list[str]:
    """Rows in the layout of `unmet`, with a sign before each line."""
    lines: list[str] = []
    heading = None
    for row in found:
        if (row.package, row.version) != heading:
            heading = row.package, row.version
            lines.append("%sPackage %s version %s has an unmet dep:" % (sign, row.package, row.version))
        lines.append("%s %s: %s" % (sign, row.field, row.clause))
    return lines


def shown(change: Change, *, both: bool, as_json: bool) -> bytes:
    """What is printed of a change."""
    if as_json:
        rows = {"unmet": [asdict(row) for row in change.unmet]}
        if both:
            rows["met"] = [asdict(row) for row in change.met]
        return to_bytes(json.dumps(rows, indent=2) + "\n")
    lines = lines_of(change.unmet, "+" if both else "")
    if both:
        lines += lines_of(change.met, "-")
    return to_bytes("".join(line + "\n" for line in lines))


def _run(call: Call, script: str, say: Callable[[str], None]) -> tuple[int, bytes]:
    with Session(find_program(script)) as session:
        if call.files:
            list_name, architecture = _load_files(session, call, say)
        else:
            from .apt_lists import load_for_trial
            list_name, architecture = load_for_trial(session, call, say)
        trial = Trial(session, important=call.important)
        if call.action == "upload":
            upload(session, list_name, _taken(call, architecture, say))
        else:
            remove(session, list_name, call.names)
        change = trial.change()
    return (1 if change.unmet else 0), shown(change, both=call.all, as_json=call.json)


def main(script: str, words: list[str]) -> int:
    """Runs the command, and returns its exit status. `script` is the path of the program."""
    def say(text: str) -> None:
        sys.stderr.write("dctrl-cache-try: %s\n" % text)

    if words[:1] in (["--help"], ["-h"]):
        return write_out(USAGE.encode())
    if words[:1] in (["--version"], ["-V"]):
        return write_out(b"dctrl-cache-try %s\n" % VERSION.encode())
    try:
        status, output = _run(read_call(words), script, say)
    except (Fault, Refused, Ended) as fault:
        say(str(fault))
        return 2
    if write_out(output) != 0:
        say("write failed")
        return 2
    return status


