"""The program: lists of files, a script, an exit status."""

from control import PACKAGES, STATUS, TextFault
from session import TEXTS, Session
from state import Refused


class Failed(Exception):
    """The line that ends the program."""


def read(name):
    try:
        with open(name, "rb") as file:
            return file.read()
    except OSError as fault:
        raise Failed(name + b": cannot read") from fault


def load(session, name, kind, file):
    """Reads a list from a file."""
    text = read(file)
    try:
        session.load(name, kind, text)
    except Refused as refused:
        raise Failed(file + b": " + TEXTS[refused.number].encode()) from refused
    except TextFault as fault:
        raise Failed(file + b": line %d: " % fault.line + TEXTS[fault.cause].encode()) from fault


def loaded(words):
    """A session with the lists of the words, and the words that are left."""
    session = Session()
    lists, status, rest = [], [], []
    words = list(words)
    while words:
        word = words.pop(0)
        if word in (b"-l", b"--status"):
            if not words:
                raise Failed(word + b": a value is missing")
            (lists if word == b"-l" else status).append(words.pop(0))
        else:
            rest.append(word)
    for word in lists:
        name, equals, file = word.partition(b"=")
        if not equals:
            raise Failed(word + b": not NAME=FILE")
        load(session, name, PACKAGES, file)
    for file in status:
        load(session, b"status", STATUS, file)
    return session, rest


def answer(words, script):
    """The status, the output and the errors of a run. The script is what stands on standard input, unless a word names one."""
    try:
        session, rest = loaded(words)
        output = session.run(read(rest[0]) if rest else script())
    except Failed as failed:
        return 2, b"", b"dctrl-cache: " + failed.args[0] + b"\n"
    return (1 if session.refused else 0), output, b""
