"""Edits of lists, for the program and for the probe, which stands in crates/probe and knows the parts of the program alone.

An edit is a tuple: `add-list`, the name of a list and its stanzas; `put`, a name and a stanza; or `remove`, a name, a package and a version.
`script_of` writes edits as commands of the program, and `lines_of` as lines of the probe, whose words are hexadecimal. `rt run` in
crates/probe builds the probe. The variable PROBE of the environment names another."""

import os
import pathlib

BUILT = pathlib.Path(__file__).resolve().parent.parent / "crates/probe/out/probe"
PROBE = pathlib.Path(os.environ.get("PROBE") or BUILT).resolve()
BLANK_LINE = "0a"


def need_probe():
    """Ends the measuring where there is no probe."""
    if not PROBE.exists():
        raise SystemExit("%s is missing: build it with `rt run` in crates/probe" % PROBE)


# Lines of the probe

def hexadecimal(text):
    """The digits of bytes, or of a text in which surrogates stand for what isn't UTF-8."""
    return (text.encode("utf-8", "surrogateescape") if isinstance(text, str) else text).hex()


def added(name, stanzas):
    """The line that adds a list."""
    return f"add-list\t{hexadecimal(name)}\tpackages\tplain\t{BLANK_LINE.join(map(hexadecimal, stanzas))}\n"


def dropped(name):
    return f"drop-list\t{hexadecimal(name)}\n"


def put(name, stanza):
    return f"put\t{hexadecimal(name)}\tpackages\t{hexadecimal(stanza)}\n"


def removed(name, package, version):
    return f"remove\t{hexadecimal(name)}\t{hexadecimal(package)}\t{hexadecimal(version)}\n"


LINES = {"add-list": added, "put": put, "remove": removed}


def lines_of(edits):
    """Edits as lines of the probe, in ASCII."""
    return "".join(LINES[word](*words) for word, *words in edits).encode("ascii")


# Commands of the program

COMMANDS = {
    "add-list": lambda name, stanzas: b"add-list %s packages\n%s.\n" % (name, b"\n".join(stanzas)),
    "put": lambda name, stanza: b"put %s\n%s.\n" % (name, stanza),
    "remove": lambda name, package, version: b"remove %s %s %s\n" % (name, package, version),
}


def script_of(edits):
    """Edits as commands of the program."""
    return b"".join(COMMANDS[word](*words) for word, *words in edits)
