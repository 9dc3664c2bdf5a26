"""Answers to queries as JSON. Lists are named by their short names.

    pkgnames    an array of names
    show        an object: for each name an array of stanzas, which are objects of fields in their order
    depends, rdepends, policy, showpkg
                an object: for each name an object, or null where it isn't known
    policy      without names an object of the priorities of lists, and of versions that are pinned
    unmet       an array of versions, each with its relations that nothing meets
    grep-dctrl  an array of stanzas; with -c their number; with -n an array of lines"""

import json
from collections.abc import Callable
from dataclasses import asdict
from typing import Any

from .. import answers
from ..script import quoted, to_bytes, to_text
from ..session import Session
from .list_names import ListNames

_READERS: dict[str, Callable[[bytes], Any]] = {
    "show": answers.read_shown, "depends": answers.read_depends, "rdepends": answers.read_rdepends, "policy": answers.read_policy,
    "showpkg": answers.read_showpkg}


def json_answer(session: Session, command: str, words: list[str], lists: ListNames) -> bytes:
    """The answer to a query of the program's own words, as a line of JSON."""
    plain = [word for word in words if not word.startswith("-")]
    if command in _READERS and plain:
        value: Any = _of_names(session, command, words, plain, lists)
    else:
        line = b" ".join([to_bytes(command), *(quoted(word) for word in words)])
        value = _whole(command, words, session.run(line), lists)
    return to_bytes(json.dumps(value)) + b"\n"


def _of_names(session: Session, command: str, words: list[str], plain: list[str], lists: ListNames) -> dict[str, Any]:
    """The answers to the names, each asked for by itself."""
    options = [to_bytes(word) for word in words if word.startswith("-")]
    lines = [b" ".join([to_bytes(command), *options, quoted(word)]) for word in plain]
    found: dict[str, Any] = {}
    for word, answer in zip(plain, session.submit_many(lines)):
        value = _READERS[command](answer.result())
        if command == "show":
            found[word] = [dict(stanza) for stanza in value]
        else:
            found[word] = None if value is None else _with_short_names(asdict(value), lists)
    return found


def _whole(command: str, words: list[str], answer: bytes, lists: ListNames) -> Any:
    """The answer to a query without names."""
    if command == "pkgnames":
        return answers.read_names(answer)
    if command == "unmet":
        return [{"package": row.package, "version": row.version, "relations": [_relation(relation) for relation in row.relations]}
                for row in answers.read_unmet(answer)]
    if command == "policy":
        return _with_short_names(asdict(answers.read_priorities(answer)), lists)
    if "-c" in words:
        return answers.read_count(answer)
    if "-n" in words:
        return to_text(answer).split("\n")[:-1]
    return [dict(stanza) for stanza in answers.read_stanzas(answer, one_field=_shows_one_field(words))]


def _relation(relation: answers.Relation) -> dict[str, Any]:
    return {"field": relation.field, "alternatives": [str(alternative) for alternative in relation.alternatives]}


def _shows_one_field(words: list[str]) -> bool:
    """Whether the words of grep-dctrl show one field alone, so that no empty line is behind it."""
    shown = {name.lower() for place, word in enumerate(words[:-1]) if word == "-s" for name in words[place + 1].split(",")}
    return len(shown | ({"description"} if "-d" in words else set())) == 1


def _with_short_names(value: Any, lists: ListNames) -> Any:
    """A value in which each list has its short name."""
    if isinstance(value, dict):
        return {key: _named(key, inner, lists) for key, inner in value.items()}
    if isinstance(value, (list, tuple)):
        return [_with_short_names(inner, lists) for inner in value]
    return value


def _named(key: str, value: Any, lists: ListNames) -> Any:
    if key == "list":
        return lists.short(value)
    if key == "lists" and all(isinstance(name, str) for name in value):
        return [lists.short(name) for name in value]
    return _with_short_names(value, lists)
