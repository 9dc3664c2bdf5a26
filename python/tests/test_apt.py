"""The lists, classes, preferences and target of apt, on made folders. What is then answered is compared with what apt-cache answers."""

import gzip
import os
import re
import shutil
import sys

import pytest

from conftest import PROGRAM, TOP

sys.path.insert(0, os.path.join(TOP, "tests", "program"))

from apt_root import AptRoot, PACKERS, PROGRAMS, installed, packed, stanza  # noqa: E402
from dctrl_cache import AptFault, Preference, Refused, Session, apt_lists  # noqa: E402

pytestmark = pytest.mark.skipif(shutil.which("apt-cache") is None, reason="apt isn't installed")

FOO = stanza("foo", "1.0-1", "Depends: bar")
BAR = stanza("bar", "2.0")
NAMES = ["stable_main", "stable_contrib", "stable-backports_main", "experimental_main"]

# Preferences, and what is said of those that are left out. Each is compared with apt-cache.
PREFERENCES = [
    ("Package: foo\nPin: version 1.0*\nPin-Priority: 1001\n", []),
    ("# a comment\nPackage: foo\nExplanation: for a test\nPin: release a=experimental\nPin-Priority: 600\n", []),
    ("Package: *\nPin: release o=Example, n=stable-name\nPin-Priority: 700\n", []),
    ("Package: *\nPin: release stable*\nPin-Priority: 50\n", []),
    ("Package: *\nPin: release n=EXPERIMENTAL-NAME,l=Example archive\nPin-Priority: 900\n", []),
    ("Package: *\nPin: release n=stable-name,l=Other\nPin-Priority: 43\n", []),
    ("Package: *\nPin: release o=Other\nPin-Priority: 44\n\nPackage: *\nPin: release b=amd64,a=stable\nPin-Priority: 45\n", []),
    ("Package: *\nPin: release b=i386\nPin-Priority: 46\n\nPackage: *\nPin: release c=nosuch\nPin-Priority: 47\n", []),
    ("Package: *\nPin: release 12*\nPin-Priority: 42\n", []),
    ("Package: *\nPin: release v=12.1,c=contrib\nPin-Priority: 42\n", []),
    ("Package: *\nPin: release a=now\nPin-Priority: 999\n", []),
    ("Package: foo\nPin: release a=now\nPin-Priority: 999\n", []),
    ("Package: *\nPin: release a=st[a-c]bl?\nPin-Priority: 33\n", []),
    ("Package: *\nPin: release a=/^stable$/\nPin-Priority: 34\n", []),
    ("Package: *\nPin: release a=nosuch\nPin-Priority: 999\n", []),
    ("Package: *\nPin: origin example.org\nPin-Priority: 300\n", []),
    ("Package: *\nPin: origin \"example.org\"\nPin-Priority: 300\n\nPackage: foo\nPin: origin \"\"\nPin-Priority: 301\n", []),
    ("Package: bar:amd64 foo\nPin: version 2*\nPin-Priority: -5\n", []),
    ("Package: *\nPin: release a=stable\nPin-Priority: 10\n\nPackage: *\nPin: release a=stable\nPin-Priority: 20\n", []),
    ("Package: foo\n  bar\nPin: version\n 1.5-1\nPin-Priority: 7\n", []),
    ("Package: nosuch*\nPin: version 1\nPin-Priority: 5\n\nPackage: foo\nPin: version 1.0-1\nPin-Priority: 900\n", [(1, "bad name")]),
    ("Package: src:nosuch\nPin: version 1\nPin-Priority: 5\n", [(1, "bad name")]),
]


def common_lists(root):
    """Four lists of three releases, and one installed package."""
    root.add_release("stable", {"main": FOO + BAR, "contrib": stanza("baz", "1")}, ".gz")
    fields = "NotAutomatic: yes\nButAutomaticUpgrades: yes\n"
    root.add_release("stable-backports", {"main": stanza("foo", "1.5-1")}, ".xz", fields, signed=True)
    root.add_release("experimental", {"main": stanza("foo", "3.0-1")}, "", "NotAutomatic: yes\n")
    root.status(installed("foo", "1.5-1"))


def loaded(root, **words):
    """What apt has in a folder, a session with it, and what was left out."""
    system, faults = apt_lists(root.folder), []
    session = Session(PROGRAM)
    system.load(session, report=faults.append, **words)
    return system, session, faults


def policies(root, *names):
    """What the program answers to `policy`, with lists named as apt-cache names them, and what is left out."""
    system, session, faults = loaded(root)
    with session:
        text = b"".join(session.run("policy " + name) for name in names).decode()
    described = {entry.name: entry.description for entry in system.lists}
    return re.sub("(?m)^( +-?[0-9]+ )([^ \n]+)$", lambda row: row.group(1) + described.get(row.group(2), row.group(2)), text), faults


def as_apt_cache(root, *names):
    """The policies are those of apt-cache; what is left out."""
    wanted = root.apt_cache("policy", *names)
    assert (wanted[0], wanted[1] != b"") == (0, True)
    got, faults = policies(root, *names)
    assert got == wanted[1].decode()
    return faults


@pytest.mark.parametrize("ending", [*PACKERS, *PROGRAMS])
def test_packed_lists(ending):
    """Lists in each form that apt keeps them in, and one that isn't packed."""
    if packed(b"x", ending) is None:
        pytest.skip("there is no %s" % PROGRAMS[ending][0])
    with AptRoot() as root:
        root.add_release("stable", {"main": FOO + BAR}, ending)
        _, session, faults = loaded(root)
        assert (session.pkgnames(), faults) == (["bar", "dpkg", "foo"], [])
        session.close()
        assert as_apt_cache(root, "foo", "bar", "dpkg") == []


def test_packed_by_apt(monkeypatch, tmp_path):
    """Where there is no program for a form, that of apt unpacks it."""
    if packed(b"x", ".lz4") is None:
        pytest.skip("there is no lz4")
    with AptRoot() as root:
        root.add_release("stable", {"main": FOO + BAR}, ".lz4")
        system = apt_lists(root.folder)
        monkeypatch.setenv("PATH", str(tmp_path))
        assert system.lists[0].read("amd64") == (FOO + BAR).encode()


def test_lists():
    """The order of the lists, their names, classes, files, and what pins ask for."""
    with AptRoot() as root:
        common_lists(root)
        system = apt_lists(root.folder)
        lists = system.lists
        names = ["example.org_debian_dists_%s_binary-amd64_Packages" % name for name in NAMES]
        assert [entry.name for entry in lists] == names + ["status"]
        assert [entry.kind for entry in lists] == ["packages"] * 4 + ["status"]
        assert [entry.classification for entry in lists] == [None, None, "butauto", "notauto", None]
        status = root.path("var/lib/dpkg/status")
        paths = [root.list_file(name + ending) for name, ending in zip(names, (".gz", ".gz", ".xz", ""))]
        assert [entry.path for entry in lists] == paths + [status]
        described = ["http://example.org/debian %s/%s amd64 Packages" % tuple(name.split("_")) for name in NAMES]
        assert [entry.description for entry in lists] == described + [status]
        told = lists[1]
        assert (told.suite, told.codename, told.version, told.origin, told.label, told.component, told.architecture, told.site) == (
            "stable", "stable-name", "12.1", "Example", "Example archive", "contrib", "amd64", "example.org")
        assert (lists[4].suite, lists[4].origin) == ("now", "")
        assert (system.architecture, system.target, system.default_release, system.preferences) == ("amd64", None, "", ())
        assert as_apt_cache(root, "foo", "bar", "baz", "dpkg") == []


def test_short_names():
    """A list has a short name where no other has the same."""
    with AptRoot() as root:
        for suite in ("bookworm", "bookworm-updates", "bookworm-security"):
            root.add_release(suite, {"main": FOO})
        root.add_release("bookworm-backports", {"main": FOO, "contrib": BAR})
        system = apt_lists(root.folder)
        assert [entry.short for entry in system.lists] == ["main", "updates", "security", "backports", "backports-contrib", "status"]
        assert system.find("updates") is system.lists[1] is system.find(system.lists[1].name)
        with pytest.raises(KeyError):
            system.find("nosuch")
        root.add_release("trixie", {"main": FOO})
        lists = apt_lists(root.folder).lists
        assert [entry.short for entry in lists if entry.component == "main"][:2] == [lists[0].name, "updates"]
        assert lists[5].short == lists[5].name


def test_only_and_without():
    """Lists that are named are taken, or left."""
    with AptRoot() as root:
        common_lists(root)
        for words, wanted in [({"only": ["contrib"]}, ["baz"]), ({"only": ["contrib", "status"]}, ["baz", "dpkg", "foo"]),
                              ({"only": ["status"]}, ["dpkg", "foo"]), ({"without": ["contrib", "status"]}, ["bar", "foo"]),
                              ({"only": ["backports", "contrib"], "without": ["contrib"]}, ["foo"])]:
            _, session, faults = loaded(root, **words)
            assert (session.pkgnames(), faults) == (wanted, [])
            session.close()
        for words in ({"only": ["nosuch"]}, {"without": ["nosuch"]}):
            with pytest.raises(KeyError):
                loaded(root, **words)


@pytest.mark.parametrize("number", range(len(PREFERENCES)))
def test_preferences(number):
    """Records that the program takes count as they do with apt; the others are named, and left out."""
    text, refused = PREFERENCES[number]
    with AptRoot() as root:
        common_lists(root)
        path = root.write("etc/apt/preferences.d/test.pref" if number % 2 else "etc/apt/preferences", text)
        said = ["%s: line %d: %s: the record is left out" % (path, *row) for row in refused]
        assert [str(fault) for fault in as_apt_cache(root, "foo", "bar", "baz")] == said


def test_files_of_preferences():
    """The files that count, in their order."""
    with AptRoot() as root:
        common_lists(root)
        for name, version, priority in (("preferences", "1.0-1", 910), ("preferences.d/10-b", "1.0-1", 920),
                                        ("preferences.d/05.pref", "3.0-1", 930), ("preferences.d/00.bak", "3.0-1", 940)):
            root.write("etc/apt/" + name, "Package: foo\nPin: version %s\nPin-Priority: %d\n" % (version, priority))
        assert as_apt_cache(root, "foo") == []
        system = apt_lists(root.folder)
        assert [record.priority for record in system.preferences] == ["910", "930", "920"]
        assert system.preferences[0] == Preference(root.path("etc/apt/preferences"), 1, "foo", "version 1.0-1", "910")


def test_wrong_preferences():
    """Each record that is wrong is named with its file and its line; those that aren't stay."""
    text = ("Package: foo\nPin: version 1.0-1\nPin-Priority: 950\n\n"
            "Package: foo\nPin: version 1_0\nPin-Priority: 5\n\n# a line more\n"
            "Package: foo\nPin: odd 1\nPin-Priority: 5\n\nPackage: *\nPin: version 1\nPin-Priority: 5\n\nPackage: foo\nPin: version 1\n\n\n"
            "Package: foo\nPin: version 1\nPin-Priority: many\n\nPin: version 1\nPin-Priority: 5\n\n"
            "Package: c!\nPin: release a=stable\nPin-Priority: 5\n")
    rows = [(5, "bad version"), (10, "bad pin record"), (14, "bad pin record"), (18, "required field missing"), (22, "bad priority"),
            (26, "required field missing"), (29, "bad name")]
    with AptRoot() as root:
        common_lists(root)
        path = root.write("etc/apt/preferences", text)
        _, session, faults = loaded(root)
        wanted = [(path, line, said + ": the record is left out") for line, said in rows]
        assert [(fault.path, fault.line, fault.text) for fault in faults] == wanted
        assert [row.priority for row in session.policy("foo").rows if row.version == "1.0-1"] == [950]
        session.close()


@pytest.mark.parametrize("release", ["experimental", "stable", "stable-name", "a=stable,c=contrib", "12.1", "o=nosuch"])
def test_target(release):
    """The release that apt takes by default: of one list, of several, and one that isn't there."""
    with AptRoot() as root:
        common_lists(root)
        root.write("etc/apt/preferences", "Package: *\nPin: release a=stable\nPin-Priority: 400\n")
        root.write("etc/apt/apt.conf", 'APT::Default-Release "%s";\n' % release)
        assert as_apt_cache(root, "foo", "bar", "baz") == []
        system = apt_lists(root.folder)
        wanted = {"experimental": 3, "a=stable,c=contrib": 1}.get(release)
        assert system.target == (None if wanted is None else system.lists[wanted].name)
        count = {"12.1": 4, "o=nosuch": 0}.get(release, 2 if wanted is None else 1)
        assert (system.default_release, len(system.default_lists)) == (release, count)


def test_target_that_is_not_there():
    with AptRoot() as root:
        common_lists(root)
        root.write("etc/apt/apt.conf.d/10release", 'APT::Default-Release "nosuch";\n')
        with pytest.raises(AptFault) as caught:
            apt_lists(root.folder)
        assert str(caught.value) == "APT::Default-Release: no list is of the release nosuch"


@pytest.mark.parametrize("ending", ["", ".gz"])
@pytest.mark.parametrize("fields", ["", "NotAutomatic: yes\n"])
def test_wrong_list(ending, fields, capsys):
    """A list with a fault is named with its line and left out, or raises."""
    wrong = BAR + "Package: foo\nVersion: 1\nArchitecture: amd64\nDepends: bar [amd64]\n"
    with AptRoot() as root:
        root.add_release("other", {"main": FOO}, ".gz")
        root.add_release("stable", {"main": wrong}, ending, fields)
        path = root.list_file("example.org_debian_dists_stable_main_binary-amd64_Packages" + ending)
        _, session, faults = loaded(root)
        assert [(fault.path, fault.line, fault.text) for fault in faults] == [(path, 8, "bad relation field")]
        assert session.pkgnames() == ["dpkg", "foo"]
        session.close()
        with pytest.raises(AptFault) as caught:
            loaded(root, strict=True)
        assert str(caught.value) == path + ": line 8: bad relation field"
        with Session(PROGRAM) as session:
            taken = apt_lists(root.folder).load(session)
            assert [entry.name for entry in taken] == ["example.org_debian_dists_other_main_binary-amd64_Packages", "status"]
        assert capsys.readouterr().err == path + ": line 8: bad relation field\n"


def test_wrong_files():
    """Each file that can't be taken, and what is said of it."""
    with AptRoot() as root:
        root.add_release("stable", {"main": FOO + "\n.\n\n" + BAR}, "", "NotAutomatic: yes\n")
        path = root.list_file("example.org_debian_dists_stable_main_binary-amd64_Packages")
        assert [str(fault) for fault in loaded(root)[2]] == [path + ": line 7: not a control line"]
    for ending in (".gz", ".xz", ".bz2"):
        with AptRoot() as root:
            root.add_release("stable", {"main": FOO}, ending, packed_lists={"main": PACKERS[ending](FOO.encode() * 99)[:-9]})
            path = root.list_file("example.org_debian_dists_stable_main_binary-amd64_Packages" + ending)
            fault, = loaded(root)[2]
            assert (fault.path, fault.line, fault.text.startswith("cannot be unpacked: ")) == (path, None, True)
    with AptRoot() as root:
        root.add_release("stable", {"main": FOO})
        root.status("oops\n")
        assert [str(fault) for fault in loaded(root)[2]] == [root.path("var/lib/dpkg/status") + ": line 6: not a control line"]
        os.remove(root.path("var/lib/dpkg/status"))
        assert [str(fault) for fault in loaded(root)[2]] == [root.path("var/lib/dpkg/status") + ": there is no such file"]


def test_cut_lists_of_programs():
    """A list that is cut is said to be, in the forms for which there is a program."""
    for ending in PROGRAMS:
        whole = packed(FOO.encode() * 99, ending)
        if whole is None:
            continue
        with AptRoot() as root:
            root.add_release("stable", {"main": FOO}, ending, packed_lists={"main": whole[:-9]})
            fault, = loaded(root)[2]
            assert (fault.line, fault.text.startswith("cannot be unpacked: ")) == (None, True)


def test_folders_and_sources_that_are_wrong():
    with AptRoot() as root:
        root.write("etc/apt/sources.list", "oops\n")
        with pytest.raises(AptFault) as caught:
            apt_lists(root.folder)
        assert "sources" in caught.value.text and "sources.list" in caught.value.text
        for folder in (root.folder + "/nowhere", root.path("etc/apt/sources.list")):
            with pytest.raises(AptFault) as caught:
                apt_lists(folder)
            assert str(caught.value) == folder + ": not a folder that can be entered"
        os.mkdir(root.path('a"b'))
        with pytest.raises(AptFault) as caught:
            apt_lists(root.path('a"b'))
        assert caught.value.text == "a folder of this name cannot be told to apt"


def test_refused_lists(session):
    """What isn't a fault of a file is raised as it is refused."""
    with AptRoot() as root:
        common_lists(root)
        session.add_list("dpkg", "status", "")
        with pytest.raises(Refused) as caught:
            apt_lists(root.folder).load(session)
        assert caught.value.number == 13


def test_architectures():
    """Stanzas and lists of other architectures are left out, and lines count as in the files."""
    other = "Package: libx\nStatus: install ok installed\nVersion: 9\nArchitecture: i386\n\n"
    with AptRoot() as root:
        root.add_release("stable", {"main": FOO + BAR + "Package: libx\nArchitecture: all\nVersion: 3\n\n"})
        root.status(installed("libx", "2") + other)
        assert as_apt_cache(root, "libx", "foo") == []
        root.status(other + installed("libx", "2_"))
        assert [str(fault) for fault in loaded(root)[2]] == [root.path("var/lib/dpkg/status") + ": line 13: bad version"]


@pytest.mark.parametrize("field, is_left_out", [
    ("Architecture: i386", True), ("architecture:i386", True), ("ARCHITECTURE:\ti386", True), ("Architecture: all", False),
    ("architecture: amd64", False), ("Description: x\n Architecture: i386", False)])
def test_fields_of_architectures(field, is_left_out):
    """However the field is written. The lines behind it keep their numbers."""
    from dctrl_cache import apt_files
    for form in ("Package: a\n%s\n\nPackage: b\n", "%s\nPackage: a\n \t\nPackage: b\n", "Package: b\n\n%s\nPackage: a"):
        text = form % field
        got = apt_files.without_others(text.encode(), "amd64").decode()
        assert ("Package: a" not in got, "Package: b" in got) == (is_left_out, True)
        assert is_left_out or got == text
        assert got.split("\n").index("Package: b") == text.split("\n").index("Package: b")


def test_no_sources():
    """Without sources all lists of packages are taken, by the names of their files."""
    with AptRoot() as root:
        common_lists(root)
        wanted = policies(root, "baz")[0].replace("http://", "")
        os.remove(root.path("etc/apt/sources.list"))
        root.write("var/lib/apt/lists/example.org_debian_dists_stable_main_binary-i386_Packages", stanza("foo", "9"))
        assert policies(root, "baz") == (wanted, [])
        rows = [line for line in policies(root, "foo")[0].split("\n") if line.startswith("     ") and not line.startswith("      ")]
        assert rows == ["     3.0-1 1", "     1.0-1 500"]


def test_lists_that_no_source_names():
    """A file that lies in the folder of lists, and that no source names, is not taken."""
    with AptRoot() as root:
        common_lists(root)
        root.write("var/lib/apt/lists/example.org_debian_dists_old_main_binary-amd64_Packages", stanza("foo", "9"))
        os.remove(root.list_file("example.org_debian_dists_stable_contrib_binary-amd64_Packages.gz"))
        assert as_apt_cache(root, "foo", "bar") == []
        assert len(apt_lists(root.folder).lists) == 4


def test_flat_sources():
    """A source whose files stand in one folder has no component."""
    with AptRoot() as root:
        root.write("etc/apt/sources.list",
                   "deb [trusted=yes] http://example.net/flat_one ./\ndeb [trusted=yes] http://user@example.net:81/two/ sub/\n")
        for start, codename in (("example.net_flat%5fone_._", "one"), ("example.net:81_two_sub_", "two")):
            root.write("var/lib/apt/lists/%sPackages" % start, stanza("foo", "1" if codename == "one" else "2"))
            root.write("var/lib/apt/lists/%sRelease" % start, "Suite: flat\nCodename: %s\nNotAutomatic: yes\n" % codename)
        root.write("etc/apt/preferences", "Package: *\nPin: release n=two\nPin-Priority: 77\n")
        lists = apt_lists(root.folder).lists
        assert [(entry.codename, entry.component, entry.site, entry.classification) for entry in lists[:-1]] == [
            ("one", "", "example.net", "notauto"), ("two", "", "example.net", "notauto")]
        assert as_apt_cache(root, "foo") == []


def test_this_machine():
    """Without a folder, the system is that of the environment."""
    with AptRoot() as root:
        common_lists(root)
        settings = root.settings()
        before = os.environ.get("APT_CONFIG")
        os.environ["APT_CONFIG"] = settings["APT_CONFIG"]
        try:
            assert apt_lists() == apt_lists(root.folder)
        finally:
            del os.environ["APT_CONFIG"]
            if before is not None:
                os.environ["APT_CONFIG"] = before


def test_progress():
    """What is loaded can be shown."""
    with AptRoot() as root:
        common_lists(root)
        told = []
        with Session(PROGRAM) as session:
            apt_lists(root.folder).load(session, progress=lambda entry, count, of: told.append((entry.short, count, of)))
        assert [row[1:] for row in told] == [(count, 5) for count in range(5)]
        assert told[1][0] == "contrib"


def test_phased():
    """A phased update is told as any other is, without how far it is phased."""
    with AptRoot() as root:
        root.add_release("stable", {"main": stanza("foo", "1")})
        root.add_release("updates", {"main": stanza("foo", "2", "Phased-Update-Percentage: 10")})
        root.status(installed("foo", "1"))
        wanted = root.apt_cache("policy", "foo")[1].replace(b" (phased 10%)", b"").decode()
        assert policies(root, "foo") == (wanted, [])
        assert "  Candidate: 2\n" in wanted


def test_long_lines():
    """Lists are handed on as they are: long lines, and bytes that are no text."""
    body = b"Package: foo\nVersion: 1\nArchitecture: amd64\nDescription: " + b"x y" * 300_000 + b"\n \xff\xfe\x01 \\ & \t%s\n"
    with AptRoot() as root:
        root.add_release("stable", {"main": ""}, ".gz", packed_lists={"main": gzip.compress(body)})
        _, session, faults = loaded(root)
        assert (session.run("show foo") == body + b"\n", faults) == (True, [])
        session.close()
