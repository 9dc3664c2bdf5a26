"""dctrl-cache-try: what uploads and removals leave unmet, compared with a reference of plain scripts; and its words."""

import json
import os
import random
import shutil
import subprocess

import pytest
import try_reference
from commands_support import TRY_COMMAND, AptRoot, installed, run, stanza, try_change

LISTS = "/var/lib/apt/lists"
MAIN = (stanza("app", "1.0", "Depends: libfoo1 (>= 1.0), missing", "Recommends: plug") + stanza("libfoo1", "1.0-1+b1",
                                                                                                "Source: foo (1.0-1)")
        + stanza("libfoo-dev", "1.0-1", "Source: foo", "Depends: libfoo1 (= 1.0-1+b1)") + stanza("foo", "2", "Source: other")
        + stanza("plug", "3") + stanza("user", "1", "Depends: foo"))
AFTER_FOO = b"""Package app version 1.0 has an unmet dep:
 Depends: libfoo1 (>= 1.0)
"""


@pytest.fixture(name="packages")
def fixture_packages(tmp_path):
    path = tmp_path / "Packages"
    path.write_text(MAIN, encoding="utf-8")
    return "main=%s" % path


def control(tmp_path, *stanzas):
    path = tmp_path / "control"
    path.write_text("\n".join(stanzas), encoding="utf-8")
    return str(path)


def test_removal_of_a_source(packages):
    """All binaries of a source go, whatever version stands behind its name; the package of that name is of another one, and stays."""
    assert try_change(["-l", packages, "remove", "main", "foo"]) == (1, AFTER_FOO, b"")


def test_removal_of_a_package(packages):
    """A name of which there is no source is a package."""
    assert try_change(["-l", packages, "remove", "main", "libfoo1"]) == (
        1, AFTER_FOO + b"Package libfoo-dev version 1.0-1 has an unmet dep:\n Depends: libfoo1 (= 1.0-1+b1)\n", b"")
    assert try_change(["-l", packages, "remove", "main", "other", "user"]) == (0, b"", b"")


def test_both_ways(packages):
    """With --all what is met, or has gone, is printed too."""
    got = try_change(["-l", packages, "--all", "remove", "main", "app", "foo"])
    assert got == (0, b"-Package app version 1.0 has an unmet dep:\n- Depends: missing\n", b"")
    got = try_change(["-l", packages, "--all", "remove", "main", "plug"])
    assert got == (1, b"+Package app version 1.0 has an unmet dep:\n+ Recommends: plug\n", b"")
    assert try_change(["-l", packages, "-i", "remove", "main", "plug"]) == (0, b"", b"")


def test_json(packages):
    row = {"package": "app", "version": "1.0", "field": "Recommends", "clause": "plug"}
    status, output, _ = try_change(["-l", packages, "--json", "remove", "main", "plug"])
    assert (status, json.loads(output)) == (1, {"unmet": [row]})
    status, output, _ = try_change(["-l", packages, "--json", "--all", "remove", "main", "app"])
    assert (status, json.loads(output)) == (0, {"unmet": [], "met": [{**row, "field": "Depends", "clause": "missing"}]})


def test_upload(packages, tmp_path):
    """An upload supersedes older versions, leaves newer ones, and takes the place of an equal one."""
    new = control(tmp_path, stanza("libfoo1", "1.1", "Source: foo"))
    assert try_change(["-l", packages, "upload", "main", new]) == (
        1, b"Package libfoo-dev version 1.0-1 has an unmet dep:\n Depends: libfoo1 (= 1.0-1+b1)\n", b"")
    other_names = control(tmp_path, stanza("libfoo1", "1.1", "X-Package: other", "Old-Version: 0", "Source: foo"))
    assert try_change(["-l", packages, "upload", "main", other_names]) == (
        1, b"Package libfoo-dev version 1.0-1 has an unmet dep:\n Depends: libfoo1 (= 1.0-1+b1)\n", b"")
    older = control(tmp_path, stanza("libfoo1", "0.9", "Depends: nosuch"))
    assert try_change(["-l", packages, "upload", "main", older]) == (
        1, b"Package libfoo1 version 0.9 has an unmet dep:\n Depends: nosuch\n", b"")
    equal = control(tmp_path, stanza("plug", "0:3", "Depends: nosuch"))
    assert try_change(["-l", packages, "upload", "main", equal]) == (
        1, b"Package plug version 0:3 has an unmet dep:\n Depends: nosuch\n", b"")
    met = control(tmp_path, stanza("missing", "1"), stanza("another", "2"))
    assert try_change(["-l", packages, "--all", "upload", "main", met]) == (
        0, b"-Package app version 1.0 has an unmet dep:\n- Depends: missing\n", b"")


def built_package(folder, name, version, *fields, architecture="all"):
    """A package, built by dpkg-deb."""
    tree = folder / ("tree-" + name)
    (tree / "DEBIAN").mkdir(parents=True)
    text = "Package: %s\nVersion: %s\nArchitecture: %s\nMaintainer: Jo <jo@example.org>\nDescription: a test\n%s" % (
        name, version, architecture, "".join(field + "\n" for field in fields))
    (tree / "DEBIAN" / "control").write_text(text, encoding="utf-8")
    path = folder / ("%s_%s_%s.deb" % (name, version, architecture))
    subprocess.run(["dpkg-deb", "--root-owner-group", "-b", str(tree), str(path)], stdout=subprocess.DEVNULL, check=True)
    return str(path)


needs_dpkg_deb = pytest.mark.skipif(shutil.which("dpkg-deb") is None, reason="there is no dpkg-deb")


@needs_dpkg_deb
def test_packages_and_changes(packages, tmp_path):
    """A package, and a .changes file, signed or not, with packages of several architectures."""
    package = built_package(tmp_path, "libfoo1", "1.1", "Source: foo (1.1)")
    said = b"Package libfoo-dev version 1.0-1 has an unmet dep:\n Depends: libfoo1 (= 1.0-1+b1)\n"
    assert try_change(["-l", packages, "upload", "main", package]) == (1, said, b"")
    other = built_package(tmp_path, "plug", "4", "Depends: nosuch", architecture="riscv64")
    text = "Format: 1.8\nSource: foo\nChecksums-Sha256:\n 00 1 foo_1.1.dsc\n 00 1 %s\n 00 1 x_1_amd64.udeb\n 00 1 %s\n" % (
        os.path.basename(package), os.path.basename(other))
    text += "Files:\n 00 1 x y z.deb\n"
    signature = "\n-----BEGIN PGP SIGNATURE-----\n\nAAAA\n-----END PGP SIGNATURE-----\n"
    for start, end in (("", ""), ("-----BEGIN PGP SIGNED MESSAGE-----\nHash: SHA512\n\n", signature)):
        changes = tmp_path / "foo_1.1.changes"
        changes.write_text(start + text + end, encoding="utf-8")
        left = b"dctrl-cache-try: %s: plug is left out: it is of riscv64, and the list of amd64\n" % other.encode()
        assert try_change(["-l", packages, "--architecture", "amd64", "upload", "main", str(changes)]) == (1, said, left)
        got = try_change(["-l", packages, "--architecture", "riscv64", "upload", "main", str(changes)])
        assert got == (1, said + b"Package plug version 4 has an unmet dep:\n Depends: nosuch\n", b"")


@pytest.mark.parametrize("words, said", [
    ([], "upload or remove is missing; dctrl-cache-try --help tells more"),
    (["frob", "main", "x"], "frob: neither upload nor remove"),
    (["remove"], "remove: no list is named"),
    (["remove", "main"], "remove: no source or package is named"),
    (["upload", "main"], "upload: no file is named"),
    (["-x"], "-x: unknown option"),
    (["-l", "main", "remove", "main", "x"], "main: not NAME=FILE"),
    (["-l", "main=/nowhere/P", "remove", "main", "x"], "/nowhere/P: No such file or directory"),
    (["-l", "main=/dev/null", "--root", "/", "remove", "main", "x"],
     "-l: --root, --only, --without and --installed are for the lists of apt"),
    (["-l", "main=/dev/null", "remove", "sid", "x"], "sid: no list has this name"),
    (["-l", "main=/dev/null", "remove", "main", "x"], "x: the list main has neither a source nor a package of this name"),
    (["-l", "main=/dev/null", "upload", "main", "/nowhere/x.deb"], "/nowhere/x.deb: there is no such file"),
    (["-l", "main=/dev/null", "upload", "main", "/nowhere/x.changes"], "/nowhere/x.changes: No such file or directory"),
    (["-l", "main=/dev/null", "upload", "main", "/dev/null"], "/dev/null: there is no stanza in it"),
])
def test_wrong_words(words, said):
    assert try_change(words) == (2, b"", b"dctrl-cache-try: %s\n" % said.encode())


@pytest.mark.parametrize("text, said", [
    ("Package: a\nVersion: 1\n\nPackage: b\n", "line 4: required field missing: Version"),
    ("Package: a\nVersion: 1\n\n\nPackage: b\nVersion: 1\nDepends: x y\n", "line 7: bad relation field"),
    ("Package: a\nVersion: 1_0\n", "line 2: bad version"),
])
def test_wrong_stanzas(packages, tmp_path, text, said):
    """A fault of a stanza is told by its line in the file."""
    path = control(tmp_path, text)
    assert try_change(["-l", packages, "upload", "main", path]) == (2, b"", b"dctrl-cache-try: %s: %s\n" % (path.encode(), said.encode()))


def test_lists_of_apt():
    """The lists are those of apt by default; what is installed offers nothing, but where that is asked for."""
    if shutil.which("apt-cache") is None:
        pytest.skip("apt isn't installed")
    with AptRoot() as root:
        root.add_release("stable", {"main": MAIN}, ".gz")
        root.status(installed("libfoo1", "1.0-1+b1"))
        start = ["--root", root.folder]
        assert try_change([*start, "remove", "main", "foo"]) == (1, AFTER_FOO, b"")
        assert try_change([*start, "--installed", "remove", "main", "foo"]) == (0, b"", b"")
        got = try_change([*start, "remove", "nosuch", "foo"])
        assert got == (2, b"", b"dctrl-cache-try: nosuch: no list has this name; dctrl-cache-apt --lists prints them\n")


def test_help():
    status, output, errors = run([TRY_COMMAND, "--help"])
    assert (status, errors) == (0, b"")
    assert b"direct dependencies alone" in output and b"dose-debcheck(1)" in output and b"conflicts" in output
    assert run([TRY_COMMAND, "--version"]) == (0, b"dctrl-cache-try 0.1.0\n", b"")


@pytest.mark.skipif(not os.path.isdir(LISTS) or not any("_Packages" in name for name in os.listdir(LISTS)), reason="apt has no lists here")
def test_as_the_reference(tmp_path):
    """Uploads and removals on some stanzas of this machine's lists; `try_reference.py 200` takes all of them."""
    luck = random.Random(5)
    texts = try_reference.some_of(try_reference.lists_of_apt(LISTS), luck, 1500)
    telling = try_reference.compare(try_reference.Lists(texts), luck, 10, str(tmp_path), lambda _text: None)
    assert telling >= 4
