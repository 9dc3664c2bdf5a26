"""The words of dctrl-cache-apt: its options, and which word of a command is wrong."""

import re
from dataclasses import dataclass, field

QUERIES = frozenset(("pkgnames", "show", "depends", "rdepends", "unmet", "policy", "showpkg", "grep-dctrl"))
BODIES = frozenset(("add-list", "put", "prefs"))
EDITS = BODIES | {"drop-list", "remove", "mark", "unmark", "pin", "unpin", "target"}
# Queries whose words are names of packages.
OF_NAMES = frozenset(("show", "depends", "rdepends", "policy", "showpkg"))

_OPTIONS: dict[str, frozenset[str]] = {
    "pkgnames": frozenset(("--all-names",)),
    "show": frozenset(("-a", "--all-versions", "--no-all-versions")),
    "depends": frozenset(("-i", "--important", "--installed")),
    "rdepends": frozenset(("--installed",)),
    "unmet": frozenset(("-i", "--important")),
    "policy": frozenset(),
    "showpkg": frozenset(),
}
# How many words a command has that are no options: the least and the greatest number.
_COUNTS = {"pkgnames": (0, 1), "unmet": (0, 0), "show": (1, None), "depends": (1, None), "rdepends": (1, None), "showpkg": (1, None),
           "policy": (0, None), "drop-list": (1, 1), "remove": (3, 3), "mark": (2, 2), "unmark": (1, 1), "pin": (4, 4), "unpin": (3, 3),
           "target": (1, 1)}
_NAME = re.compile(r"[A-Za-z0-9][A-Za-z0-9+._-]*\Z")
_VERSION = re.compile(r"(?:[0-9]+:)?[0-9A-Za-z.+~:-]+\Z")
_PRIORITY = re.compile(r"[+-]?[0-9]+\Z")


class WordsError(ValueError):
    """Words of a call that are wrong; the text says which and why."""


@dataclass
class Call:
    """What a call asks for.

    mode    "command", "script", "lists", "serve", "ask", "names", "help" or "version"
    words   the command and its words
    socket  where a session is served or asked"""

    mode: str = ""
    root: str = ""
    only: list[str] = field(default_factory=list)
    without: list[str] = field(default_factory=list)
    installed_only: bool = False
    strict: bool = False
    json: bool = False
    socket: str = ""
    words: list[str] = field(default_factory=list)


_WITH_VALUE = {"--root": "no folder is named", "--only": "no list is named", "--without": "no list is named",
               "--serve": "no socket is named", "--ask": "no socket is named"}


def _take_value(call: Call, option: str, value: str) -> None:
    if not value:
        raise WordsError("%s: %s" % (option, _WITH_VALUE[option]))
    if option == "--root":
        call.root = value
    elif option == "--only":
        call.only.append(value)
    elif option == "--without":
        call.without.append(value)
    else:
        call.mode, call.socket = option[2:], value


def _take_option(call: Call, word: str) -> None:
    if word in ("--lists", "--help", "--version"):
        call.mode = word[2:]
    elif word in ("-h", "-V"):
        call.mode = "help" if word == "-h" else "version"
    elif word == "--keep-names":
        call.mode = "names"
    elif word in ("--installed-only", "--strict", "--json"):
        setattr(call, word[2:].replace("-", "_"), True)
    else:
        raise WordsError("%s: unknown option" % word)


def read_call(words: list[str]) -> Call:
    """The options, which stand before the command, and the command."""
    call, place = Call(), 0
    while place < len(words):
        word = words[place]
        place += 1
        if word == "--":
            break
        option, equals, value = word.partition("=")
        if option in _WITH_VALUE:
            if not equals:
                value, place = (words[place] if place < len(words) else ""), place + 1
            _take_value(call, option, value)
        elif word.startswith("-") and len(word) > 1:
            _take_option(call, word)
        else:
            place -= 1
            break
    call.words = words[place:]
    if call.mode and call.mode not in ("ask", "names") and call.words:
        raise WordsError("%s: a word too many" % call.words[0])
    if call.mode == "ask" and not call.words:
        raise WordsError("--ask: no command is named")
    if not call.mode:
        call.mode = "command" if call.words else "script"
    _check(call)
    return call


def _check(call: Call) -> None:
    """Options that don't go together, and a command that can be none."""
    if call.installed_only and (call.only or call.without):
        raise WordsError("--installed-only: it leaves no list that --only or --without could name")
    if call.json and call.mode not in ("command", "ask", "lists"):
        raise WordsError("--json: it goes with a query that is given by words")
    if call.mode in ("command", "ask"):
        check_words(call.words)


def check_words(words: list[str]) -> None:
    """WordsError where words can be no command, whatever the lists are."""
    if not re.fullmatch("[a-z-]+", words[0]):
        raise WordsError("%s: unknown command" % words[0])
    for word in words[1:]:
        if "'" in word or "\n" in word:
            raise WordsError("%s: a word has no quotes and no line ends" % word)


def is_name(word: str) -> bool:
    return _NAME.match(word) is not None


def is_version(word: str) -> bool:
    """Whether a word is a version of deb-version(7)."""
    if _VERSION.match(word) is None or word.endswith("-"):
        return False
    upstream = word.partition(":")[2] if re.match(r"[0-9]+:", word) else word
    upstream, hyphen, revision = upstream.rpartition("-") if "-" in upstream else (upstream, "", "")
    return upstream[:1].isdigit() and (":" not in upstream or ":" in word) and ":" not in revision


def _plain(command: str, words: list[str]) -> list[str]:
    return [word for word in words if not (command in QUERIES and word.startswith("-"))]


def _wrong_argument(command: str, words: list[str]) -> str | None:
    """The first option that the query hasn't, or the first word that is too many."""
    if command in _OPTIONS:
        for word in words:
            if word.startswith("-") and word not in _OPTIONS[command]:
                return word
    plain, most = _plain(command, words), _COUNTS.get(command, (0, None))[1]
    if most is not None and len(plain) > most:
        return plain[most]
    if command in ("pin", "unpin") and len(words) > 1 and words[1] not in ("version", "release"):
        return words[1]
    return None


def wrong_word(command: str, words: list[str], text: str) -> str | None:
    """The word for which a command is refused with this text; None where it is none alone."""
    if text == "bad arguments":
        return _wrong_argument(command, words)
    plain = _plain(command, words)
    if text == "bad name":
        names = [word.partition("=")[0] if command == "show" else word for word in plain]
        if command in ("pin", "unpin"):
            names = [word for word in [names[0], names[2] if names[1] == "release" else ""] if word not in ("", "*")]
        elif command in ("mark", "unmark", "remove"):
            names = names[:1 if command != "remove" else 2]
        return next((name for name in names if not is_name(name)), None)
    if text == "bad version":
        versions = [word.partition("=")[2] for word in plain if "=" in word] if command == "show" else plain[-1:]
        versions = plain[2:3] if command in ("pin", "unpin", "remove") else versions
        return next((version for version in versions if not is_version(version)), None)
    if text in ("bad priority", "no such list"):
        return (plain[-1] if text == "bad priority" else plain[0]) if plain else None
    if text == "bad pattern":
        patterns = [words[place + 1] for place, word in enumerate(words[:-1]) if word == "--rx"]
        return patterns[0].removeprefix("--pattern=") if len(patterns) == 1 else None
    return None
