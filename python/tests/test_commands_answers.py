"""Answers of dctrl-cache-apt: scripts at random as the program answers them, JSON, progress, and the policy of every name of this
machine."""

import json
import os
import random
import shutil
import subprocess

import pytest
from commands_support import APT_COMMAND, PROGRAM, AptRoot, ask, environment, installed, run, stanza

from dctrl_cache.commands import opening

pytestmark = pytest.mark.skipif(shutil.which("apt-cache") is None, reason="apt isn't installed")

LISTS = "/var/lib/apt/lists"
MAIN = "example.org_debian_dists_stable_main_binary-amd64_Packages"
LONG = b"x" * 1_048_577


@pytest.fixture(name="root", scope="module")
def fixture_root():
    with AptRoot() as made:
        text = stanza("foo", "1.0-1", "Depends: bar, missing | other", "Provides: virt") + stanza("bar", "2.0",
                                                                                                  "Description: E: line 3: bad name")
        made.add_release("stable", {"main": text})
        made.status(installed("foo", "1.0-1"))
        yield made


def pieces():
    """Commands of all forms, right and wrong, with bodies that are whole, too long and none."""
    body = b"Package: new\nVersion: 1\nDepends: foo (>= 2)\n"
    name = MAIN.encode()
    return [b"pkgnames\n", b"  pkgnames f\n", b"\n", b" \t\n", b"# put x\n", b"\t# put\n", b"show foo bar=9 nosuch\n", b"unmet\n",
            b"unmet -i\n",
            b"depends foo\n", b"rdepends bar virt\n", b"frob\n", b"'put' x\n", b"put\n", b"put\n.\n", b"put nosuch\n" + body + b".\n",
            b"put %s\n%s.\n" % (name, body), b"put '%s'\n%s.\n" % (name, body), b"put %s\nPackage: new\nDepends: x y\n.\n" % name,
            b"remove %s new 1\n" % name, b"remove %s foo 1.0-1\n" % name, b"add-list extra packages\n" + body + b".\n",
            b"drop-list extra\n",
            b"add-list extra packages notauto\n\n" + body + b"\n" + body.replace(b"new", b"other") + b".\n", b"put x\n%s\n.\n" % LONG,
            b"add-list %s\nPackage: a\n.\n" % LONG, b"%s\n" % LONG, b"prefs\nPackage: foo\nPin: version 1*\nPin-Priority: 5\n.\n",
            b"prefs\n.\n",
            b"grep-dctrl -P bar\n", b"grep-dctrl -c ''\n", b"show 'foo\n", b"show a b c\r\n", b"mark foo none\n", b"unmark foo\n",
            b"put x\n ..\n.\n",
            b"pkgnames %s\n" % LONG[:1_048_567], b"pkgnames %s\n" % LONG[:1_048_568], b"\0\n", b"show \xff\n", b". \n", b".\n"]


ENDS = [b"", b"pkgnames", b"put x\nPackage: a\n", b"add-list z packages\nPackage: a\nVersion: 1", b"put x\n%s\n" % LONG, b"put x",
        b"prefs\n.", LONG, b"# x"]


@pytest.mark.parametrize("seed", range(6))
def test_scripts_at_random(root, seed):
    """A script has the answers and the status that the program gives with the same lists by its own words."""
    luck = random.Random(seed)
    script = b"".join(luck.choice(pieces()) for _ in range(60)) + luck.choice(ENDS)
    words = [PROGRAM, "-l", "%s=%s" % (MAIN, root.list_file(MAIN)), "--status", root.path("var/lib/dpkg/status")]
    wanted = run(words, script)
    assert wanted[0] == 1 and wanted[1].count(b"\n") > 50
    assert ask(root, [], script) == wanted


@pytest.mark.parametrize("end", ENDS, ids=range(len(ENDS)))
def test_ends_of_scripts(root, end):
    words = [PROGRAM, "-l", "%s=%s" % (MAIN, root.list_file(MAIN)), "--status", root.path("var/lib/dpkg/status")]
    assert ask(root, [], b"pkgnames\n" + end) == run(words, b"pkgnames\n" + end)


def answer(root, *words):
    status, output, errors = ask(root, ["--json", *words])
    assert (status, errors, output.count(b"\n")) == (0, b"", 1)
    return json.loads(output)


def test_json(root):
    """Each query has a form of its own; lists have their short names."""
    lists = [{"list": "main", "priority": 500}, {"list": "status", "priority": 100}]
    assert answer(root, "pkgnames", "fo") == ["foo"]
    assert answer(root, "show", "bar", "nosuch") == {"bar": [{"Package": "bar", "Version": "2.0", "Architecture": "amd64",
                                                              "Description": "E: line 3: bad name"}], "nosuch": []}
    row = {"version": "1.0-1", "priority": 500, "is_installed": True, "lists": lists}
    assert answer(root, "policy", "foo", "nosuch") == {
        "foo": {"package": "foo", "installed": "1.0-1", "candidate": "1.0-1", "rows": [row]}, "nosuch": None}
    assert answer(root, "policy") == {"lists": lists, "pinned": []}
    assert [row["name"] for row in answer(root, "depends", "foo")["foo"]["dependencies"]] == ["bar", "missing", "other"]
    assert answer(root, "rdepends", "bar") == {"bar": {"package": "bar", "dependents": [{"package": "foo", "has_next": False}]}}
    relations = [{"field": "Depends", "alternatives": ["missing", "other"]}]
    assert answer(root, "unmet") == [{"package": "foo", "version": "1.0-1", "relations": relations}]
    assert answer(root, "showpkg", "foo")["foo"]["versions"] == [{"version": "1.0-1", "lists": ["main", "status"]}]
    assert answer(root, "grep-dctrl", "-s", "Package,Version", "-P", "bar") == [{"Package": "bar", "Version": "2.0"}]
    assert answer(root, "grep-dctrl", "-c", "-P", "-e", "^(foo|bar)$") == 3
    assert answer(root, "grep-dctrl", "-ns", "Package", "-F", "Status", "") == ["dpkg", "foo"]
    assert answer(root, "grep-dctrl", "-sPackage", "-P", "bar") == [{"Package": "bar"}]
    assert [entry["short"] for entry in answer(root, "--lists")] == ["main", "status"]


def test_json_of_what_is_refused(root):
    assert ask(root, ["--json", "show", "a b"]) == (1, b"", b"dctrl-cache-apt: show 'a b': bad name: a b\n")
    assert ask(root, ["--json", "show", "nosuch"]) == (100, b'{"nosuch": []}\n', b"E: No packages found\n")


def test_progress(monkeypatch, capsys):
    """A line on a terminal once reading has taken a while, and none where that is no terminal."""
    for is_terminal, patience, wanted in ((True, -1.0, "\r\x1b[Ka\r\x1b[Kb\r\x1b[K"), (True, 100.0, ""), (False, -1.0, "")):
        monkeypatch.setattr(opening.os, "isatty", lambda _number, is_terminal=is_terminal: is_terminal)
        monkeypatch.setattr(opening, "PATIENCE", patience)
        progress = opening.Progress()
        progress("a")
        progress("b")
        progress.end()
        assert capsys.readouterr().err == wanted


@pytest.mark.skipif(not os.path.isdir(LISTS) or not any("_Packages" in name for name in os.listdir(LISTS)), reason="apt has no lists here")
def test_every_name_of_this_machine():
    """The policy of each name that apt-cache knows is what apt-cache answers."""
    settings = environment(LC_ALL="C")
    names = subprocess.run(["apt-cache", "pkgnames"], stdout=subprocess.PIPE, env=settings, check=True).stdout.split()
    pieces_of_names = [names[start:start + 20_000] for start in range(0, len(names), 20_000)]
    wanted = b"".join(subprocess.run([b"apt-cache", b"policy", *piece], stdout=subprocess.PIPE, env=settings, check=True).stdout
                      for piece in pieces_of_names)
    status, output, errors = run([APT_COMMAND], b"".join(b"policy %s\n" % b" ".join(piece) for piece in pieces_of_names), LC_ALL="C")
    assert (status, errors) == (0, b"")
    assert output == wanted
    assert wanted.count(b"  Version table:\n") == len(names) > 0
