"""dctrl-cache-apt on made folders. What it answers to `policy` is compared with what apt-cache answers there."""

import gzip
import os
import shutil
import subprocess

import pytest
from commands_support import APT_COMMAND, PACKERS, PROGRAM, PROGRAMS, AptRoot, ask, environment, installed, packed, run, stanza

pytestmark = pytest.mark.skipif(shutil.which("apt-cache") is None, reason="apt isn't installed")

FOO = stanza("foo", "1.0-1", "Depends: bar")
BAR = stanza("bar", "2.0")
POLICY = b"""foo:
  Installed: 1.5-1
  Candidate: 1.5-1
  Version table:
     3.0-1 1
          1 http://example.org/debian experimental/main amd64 Packages
 *** 1.5-1 100
        100 http://example.org/debian stable-backports/main amd64 Packages
        100 %s
     1.0-1 500
        500 http://example.org/debian stable/main amd64 Packages
"""
MAIN = "example.org_debian_dists_stable_main_binary-amd64_Packages"


@pytest.fixture(name="root")
def fixture_root():
    with AptRoot() as made:
        yield made


def common_lists(root):
    """Four lists of three releases, and one installed package."""
    root.add_release("stable", {"main": FOO + BAR, "contrib": stanza("baz", "1")}, ".gz")
    root.add_release("stable-backports", {"main": stanza("foo", "1.5-1")}, ".xz", "NotAutomatic: yes\nButAutomaticUpgrades: yes\n",
                     signed=True)
    root.add_release("experimental", {"main": stanza("foo", "3.0-1")}, "", "NotAutomatic: yes\n")
    root.status(installed("foo", "1.5-1"))


def check_as_apt_cache(root, words):
    """What is answered is what apt-cache does."""
    wanted = root.apt_cache(*words)
    assert (wanted[0], wanted[1] != b"") == (0, True), "apt-cache has an answer"
    assert ask(root, words)[:2] == wanted[:2]


@pytest.mark.parametrize("ending", [*PACKERS, *PROGRAMS])
def test_packed_lists(root, ending):
    """Lists in each form that apt keeps them in, and one that isn't packed."""
    if packed(b"x", ending) is None:
        pytest.skip("there is no %s" % PROGRAMS[ending][0])
    root.add_release("stable", {"main": FOO + BAR}, ending)
    assert ask(root, ["pkgnames"]) == (0, b"bar\ndpkg\nfoo\n", b"")
    check_as_apt_cache(root, ["policy", "foo", "bar", "dpkg"])


def test_answers(root):
    """Classes of lists, their order and their names."""
    common_lists(root)
    status = root.path("var/lib/dpkg/status")
    assert ask(root, ["policy", "foo"]) == (0, POLICY % status.encode(), b"")
    check_as_apt_cache(root, ["policy", "foo", "bar", "baz", "dpkg"])
    versions = ask(root, ["showpkg", "foo"])[1].split(b"\n")[2:5]
    paths = [root.list_file("example.org_debian_dists_%s_main_binary-amd64_Packages%s" % pair).encode()
             for pair in (("experimental", ""), ("stable-backports", ".xz"), ("stable", ".gz"))]
    assert versions == [b"3.0-1 (%s)" % paths[0], b"1.5-1 (%s) (%s)" % (paths[1], status.encode()), b"1.0-1 (%s)" % paths[2]]


def test_lists(root):
    """The table of lists: names, short ones and classes."""
    common_lists(root)
    told = ask(root, ["--lists"])[1].decode().split("\n")
    names = ["example.org_debian_dists_%s_binary-amd64_Packages%s" % pair for pair in
             (("stable_main", ""), ("stable_contrib", " (contrib)"), ("stable-backports_main", " (backports)"), ("experimental_main", ""))]
    assert told[:-1:4] == [*names, "status"]
    assert [line.strip() for line in told[1:18:4]] == ["packages", "packages", "packages butauto", "packages notauto", "status"]


@pytest.mark.parametrize("release", ["experimental", "stable", "stable-name", "a=stable,c=contrib", "12.1", "o=nosuch"])
def test_target(root, release):
    """The release that apt takes by default: of one list, of several, and one that no list is of."""
    common_lists(root)
    root.write("etc/apt/preferences", "Package: *\nPin: release a=stable\nPin-Priority: 400\n")
    root.write("etc/apt/apt.conf", 'APT::Default-Release "%s";\n' % release)
    check_as_apt_cache(root, ["policy", "foo", "bar", "baz"])


def test_target_that_is_not_there(root):
    common_lists(root)
    root.write("etc/apt/apt.conf.d/10release", 'APT::Default-Release "nosuch";\n')
    assert ask(root, ["policy"]) == (2, b"", b"dctrl-cache-apt: APT::Default-Release: no list is of the release nosuch\n")


@pytest.mark.parametrize("fields", ["", "NotAutomatic: no\n"])
def test_scripts(root, fields):
    """Standard input as a script: its lines count from the first, whatever stands before it."""
    script = ("policy bar\nfrob\nput %s\nPackage: bar\nVersion: 2.1\n.\npin bar version 2.0 999\n# x\npolicy bar\n"
              "put m\noops\n.\nput %s\nx\n.\n"
              % (MAIN, MAIN)).encode()
    row = b"     %s %d\n        500 http://example.org/debian stable/main amd64 Packages\n"
    first = b"bar:\n  Installed: (none)\n  Candidate: 2.0\n  Version table:\n" + row % (b"2.0", 500)
    second = b"bar:\n  Installed: (none)\n  Candidate: 2.0\n  Version table:\n" + row % (b"2.1", 500) + row % (b"2.0", 999)
    wanted = first + b"E: line 2: unknown command\n" + second + b"E: line 10: no such list\nE: line 14: not a control line\n"
    root.add_release("stable", {"main": FOO + BAR}, ".gz", fields)
    assert ask(root, [], script) == (1, wanted, b"")
    assert ask(root, [], b"") == (0, b"", b"")
    root.write("etc/apt/preferences", "Package: foo\nPin: version 1.0-1\nPin-Priority: 5\n")
    root.add_release("experimental", {"main": stanza("foo", "3.0-1")}, "", "NotAutomatic: yes\n")
    assert ask(root, [], script) == (1, wanted, b"")
    assert ask(root, ["policy", "a!"]) == (1, b"", b"dctrl-cache-apt: policy 'a!': bad name: a!\n")


def test_talk(root):
    """Each answer comes before the next command is written."""
    common_lists(root)
    with subprocess.Popen([APT_COMMAND, "--root", root.folder], stdin=subprocess.PIPE, stdout=subprocess.PIPE, bufsize=0,
                          env=environment()) as talk:
        for said, heard in ((b"pkgnames fo\n", b"foo\n"), (b"frob\n", b"E: line 2: unknown command\n"), (b"\npkgnames baz\n", b"baz\n")):
            talk.stdin.write(said)
            assert talk.stdout.read(len(heard)) == heard
        talk.stdin.close()
        assert (talk.stdout.read(), talk.wait(60)) == (b"", 1)


@pytest.fixture(name="words_root", scope="module")
def fixture_words_root():
    with AptRoot() as made:
        made.add_release("stable", {"main": FOO + BAR})
        yield made


@pytest.mark.parametrize("words, wanted", [
    (["pkgnames", "fo o"], (0, b"", b"")),
    (["pkgnames", ""], (0, b"bar\ndpkg\nfoo\n", b"")),
    (["pkgnames", "$(id)`id`;*\\\"#"], (0, b"", b"")),
    (["show", "a b"], (1, b"", b"dctrl-cache-apt: show 'a b': bad name: a b\n")),
    (["show", "-a", "bar=2.0-0"], (0, BAR.encode(), b"")),
    (["pin", "*", "release", "x", "5"], (0, b"", b"")),
    (["pkgnames", "a", "b"], (1, b"", b"dctrl-cache-apt: pkgnames a b: bad arguments: b\n")),
    (["prefs"], (1, b"", b"dctrl-cache-apt: prefs: body has no end: a command with a body is given in a script\n")),
    (["show", "it's"], (2, b"", b"dctrl-cache-apt: it's: a word has no quotes and no line ends\n")),
    (["show", "a\nfrob"], (2, b"", b"dctrl-cache-apt: a\nfrob: a word has no quotes and no line ends\n")),
    (["policy foo"], (2, b"", b"dctrl-cache-apt: policy foo: unknown command\n")),
    ([""], (2, b"", b"dctrl-cache-apt: : unknown command\n")),
    (["frob"], (1, b"", b"dctrl-cache-apt: frob: unknown command\n")),
    (["-x"], (2, b"", b"dctrl-cache-apt: -x: unknown option\n")),
    (["--lists", "x"], (2, b"", b"dctrl-cache-apt: x: a word too many\n")),
    (["policy", "-q", "foo"], (1, b"", b"dctrl-cache-apt: policy -q foo: bad arguments: -q\n")),
    (["show", "foo", "bar=1_0"], (1, b"", b"dctrl-cache-apt: show foo bar=1_0: bad version: 1_0\n")),
    (["remove", "nosuch", "foo", "1"], (1, b"", b"dctrl-cache-apt: remove nosuch foo 1: no such list: nosuch\n")),
    (["pin", "foo", "version", "1", "0"], (1, b"", b"dctrl-cache-apt: pin foo version 1 0: bad priority: 0\n")),
    (["grep-dctrl", "--rx", "a["], (1, b"", b"dctrl-cache-apt: grep-dctrl --rx 'a[': bad pattern: a[\n")),
    (["grep-dctrl", "-q", "a"], (2, b"", b"dctrl-cache-apt: grep-dctrl: -q: type -c, which prints how many stanzas there are, "
                                         b"and look whether that is 0\n")),
    (["grep-dctrl", "-S", "-X", "foo", "--count"], (0, b"1\n", b"")),
    (["--only", "nosuch", "pkgnames"], (2, b"", b"dctrl-cache-apt: --only: nosuch: no list has this name\n")),
    (["--only"], (2, b"", b"dctrl-cache-apt: --only: no list is named\n")),
    (["--only", "main", "pkgnames"], (0, b"bar\nfoo\n", b"")),
    (["--without", "main", "pkgnames"], (0, b"dpkg\n", b"")),
    (["--without", MAIN, "pkgnames"], (0, b"dpkg\n", b"")),
    (["--installed-only", "pkgnames"], (0, b"dpkg\n", b"")),
    (["--installed-only", "--only", "main", "pkgnames"],
     (2, b"", b"dctrl-cache-apt: --installed-only: it leaves no list that --only or --without could name\n")),
    (["--json", "pin", "foo", "version", "1", "5"], (2, b"", b"dctrl-cache-apt: --json: pin is no query\n")),
    (["drop-list", "main"], (0, b"", b"")),
])
def test_words(words_root, words, wanted):
    """Words are handed on as they are, and wrong ones are named."""
    assert ask(words_root, words) == wanted


def test_help_and_version():
    status, output, errors = run([APT_COMMAND, "--help"])
    assert (status, output.startswith(b"Usage: dctrl-cache-apt [OPTION]... COMMAND"), errors) == (0, True, b"")
    assert run([APT_COMMAND, "--version"]) == (0, b"dctrl-cache-apt 0.1.0\n", b"")


@pytest.mark.parametrize("words", [["--root"], ["--root", ""], ["--root=", "policy"]])
def test_no_folder_is_named(words):
    assert run([APT_COMMAND, *words]) == (2, b"", b"dctrl-cache-apt: --root: no folder is named\n")


def check_fault(root, tmp_path, errors, words=("pkgnames",), **settings):
    """The run ends with a line, and nothing is answered and left behind."""
    folder = tmp_path / "work"
    folder.mkdir(exist_ok=True)
    assert ask(root, list(words), TMPDIR=str(folder), **settings) == (2, b"", b"dctrl-cache-apt: " + errors + b"\n")
    assert os.listdir(folder) == []


@pytest.mark.parametrize("ending", ["", ".gz"])
@pytest.mark.parametrize("fields", ["", "NotAutomatic: yes\n"])
def test_wrong_list(root, tmp_path, ending, fields):
    """A list with a fault is named with the line and left out; with --strict it ends the run."""
    root.add_release("other", {"main": FOO}, ".gz")
    root.add_release("stable", {"main": BAR + "Package: foo\nVersion: 1\nArchitecture: amd64\nDepends: bar [amd64]\n"}, ending, fields)
    said = root.list_file(MAIN + ending).encode() + b": line 8: bad relation field"
    check_fault(root, tmp_path, said, words=["--strict", "pkgnames"])
    check_fault(root, tmp_path, said, words=["--strict"])
    left = b"dctrl-cache-apt: " + said + b": the list is left out\n"
    assert ask(root, ["pkgnames"]) == (0, b"dpkg\nfoo\n", left)
    assert ask(root, [], b"pkgnames\n") == (0, b"dpkg\nfoo\n", left)


def test_line_of_a_dot(root, tmp_path):
    root.add_release("stable", {"main": FOO + "\n.\n\n" + BAR}, "", "NotAutomatic: yes\n")
    check_fault(root, tmp_path, root.list_file(MAIN).encode() + b": line 7: not a control line", words=["--strict", "pkgnames"])


@pytest.mark.parametrize("ending", [".gz", ".lz4"])
def test_list_that_is_cut(root, ending):
    whole = packed(FOO.encode() * 99, ending) if ending != ".gz" else gzip.compress(FOO.encode() * 99)
    if whole is None:
        pytest.skip("there is no %s" % PROGRAMS[ending][0])
    root.add_release("stable", {"main": FOO}, ending, packed_lists={"main": whole[:-9]})
    path = root.list_file(MAIN + ending).encode()
    status, output, errors = ask(root, ["--strict", "pkgnames"])
    assert (status, output, errors.startswith(b"dctrl-cache-apt: " + path + b": cannot be unpacked: ")) == (2, b"", True)
    status, output, errors = ask(root, ["pkgnames"])
    assert (status, output, errors.endswith(b": the list is left out\n"), errors.count(b"\n")) == (0, b"dpkg\n", True, 1)


def test_wrong_status(root, tmp_path):
    root.add_release("stable", {"main": FOO})
    path = root.path("var/lib/dpkg/status").encode()
    root.status("oops\n")
    check_fault(root, tmp_path, path + b": line 6: not a control line", words=["--strict", "pkgnames"])
    os.remove(path)
    check_fault(root, tmp_path, path + b": there is no such file", words=["--strict", "pkgnames"])
    assert ask(root, ["pkgnames"]) == (0, b"foo\n", b"dctrl-cache-apt: " + path + b": there is no such file: the list is left out\n")


def test_nothing_to_run_or_to_read(root, tmp_path):
    root.add_release("stable", {"main": FOO})
    check_fault(root, tmp_path, b"/nowhere/dctrl-cache: cannot be run", DCTRL_CACHE="/nowhere/dctrl-cache")
    root.folder += "/nowhere"
    check_fault(root, tmp_path, root.folder.encode() + b": not a folder that can be entered")


def test_wrong_sources(root):
    root.write("etc/apt/sources.list", "oops\n")
    status, output, errors = ask(root, ["pkgnames"])
    assert (status, output, b"sources.list" in errors, b"apt's settings or sources cannot be read" in errors) == (2, b"", True, True)


def test_architectures(root):
    """Stanzas and lists of other architectures are left out, and lines count as in the files."""
    other = "Package: libx\nStatus: install ok installed\nVersion: 9\nArchitecture: i386\n\n"
    root.add_release("stable", {"main": FOO + BAR + "Package: libx\nArchitecture: all\nVersion: 3\n\n"})
    root.status(installed("libx", "2") + other)
    check_as_apt_cache(root, ["policy", "libx", "foo"])
    root.status(other + installed("libx", "2_"))
    errors = b"dctrl-cache-apt: %s: line 13: bad version\n" % root.path("var/lib/dpkg/status").encode()
    assert ask(root, ["--strict", "policy", "libx"]) == (2, b"", errors)


def test_no_sources(root):
    """Without sources all lists of packages are taken, by the names of their files."""
    common_lists(root)
    wanted = ask(root, ["policy", "baz"])[1].replace(b"http://", b"")
    os.remove(root.path("etc/apt/sources.list"))
    root.write("var/lib/apt/lists/example.org_debian_dists_stable_main_binary-i386_Packages", stanza("foo", "9"))
    assert ask(root, ["policy", "baz"]) == (0, wanted, b"")
    rows = [line for line in ask(root, ["policy", "foo"])[1].split(b"\n") if line.startswith(b"     ") and not line.startswith(b"      ")]
    assert rows == [b"     3.0-1 1", b"     1.0-1 500"]


def test_names_of_lists(root):
    """A text that looks like a row of another command stays as it is, and a list of the script keeps its name."""
    root.add_release("stable", {"main": stanza("foo", "1", "Description: x", "  500 " + MAIN, " 500 nosuch_list")})
    got = ask(root, [], b"add-list main packages\nPackage: foo\nVersion: 2\n.\nshow foo=1\npolicy foo\n")
    assert b"Description: x\n  500 %s\n 500 nosuch_list\n\n" % MAIN.encode() in got[1]
    assert b"     2 500\n        500 main\n" in got[1]


def test_short_names_in_scripts(root):
    """A short name of a list is one in a script, until the script has a list of that name."""
    root.add_release("stable", {"main": FOO + BAR})
    root.add_release("stable-updates", {"main": stanza("foo", "2")})
    script = (b"pkgnames\nremove main bar 2.0\npkgnames\nput updates\nPackage: new\nVersion: 1\n.\npkgnames\n"
              b"pin foo release 'updates' 7\npolicy foo\nadd-list main packages\nPackage: mine\nVersion: 1\n.\ndrop-list main\npkgnames\n"
              b"target updates\ndrop-list updates\npkgnames\n")
    policy = (b"foo:\n  Installed: (none)\n  Candidate: 1.0-1\n  Version table:\n     2 7\n"
              b"        500 http://example.org/debian stable-updates/main amd64 Packages\n"
              b"     1.0-1 500\n        500 http://example.org/debian stable/main amd64 Packages\n")
    wanted = b"bar\ndpkg\nfoo\n" + b"dpkg\nfoo\n" + b"dpkg\nfoo\nnew\n" + policy + b"dpkg\nfoo\nnew\n" + b"dpkg\nfoo\n"
    assert ask(root, [], script) == (0, wanted, b"")


def test_text_that_names_a_list(root):
    text = stanza("foo", "1", "Description: foo (status)", " 100 status")
    root.add_release("stable", {"main": text})
    assert ask(root, ["show", "foo"]) == (0, text.encode(), b"")
    assert ask(root, ["grep-dctrl", "-P", "foo"]) == (0, text.encode(), b"")


def test_words_of_a_filter(root):
    """The words of a filter mean to the program what they do on the command line, signs of the shell among them."""
    root.add_release("stable", {"main": FOO + BAR + stanza("qux", "1", "Note: -a b", "Depends: bar")})
    words = ["grep-dctrl", "-ns", "Package", "-F", "Depends", "--rx", "ba[rz]", "-a", "!", "(", "-P", "-X", "foo", "-o", "--pattern=-a c",
             ")"]
    assert ask(root, words) == (0, b"qux\n", b"")
    assert ask(root, [*words[:-2], "--pattern=-a b", ")"]) == (0, b"", b"")


def test_phased(root):
    """A phased update is told as any other is, without how far it is phased."""
    root.add_release("stable", {"main": stanza("foo", "1")})
    root.add_release("updates", {"main": stanza("foo", "2", "Phased-Update-Percentage: 10")})
    root.status(installed("foo", "1"))
    wanted = root.apt_cache("policy", "foo")[1].replace(b" (phased 10%)", b"")
    assert ask(root, ["policy", "foo"]) == (0, wanted, b"")
    assert b"  Candidate: 2\n" in wanted


@pytest.mark.parametrize("words, script", [(["show", "foo"], b""), ([], b"show foo\n")])
def test_long_lines(root, words, script):
    """Answers are handed on as they are: long lines, and bytes that are no text."""
    body = b"Package: foo\nVersion: 1\nArchitecture: amd64\nDescription: " + b"x y" * 300_000 + b"\n \xff\xfe\x01 \\ & \t%s\n"
    root.add_release("stable", {"main": ""}, packed_lists={"main": body})
    assert ask(root, words, script) == (0, body + b"\n", b"")


@pytest.fixture(name="many_root", scope="module")
def fixture_many_root():
    with AptRoot() as made:
        made.add_release("stable", {"main": "".join(stanza("foo%d" % number, "1") for number in range(20_000))})
        yield made


@pytest.mark.parametrize("words, script", [(["pkgnames"], b""), ([], b"pkgnames\n" * 3)])
def test_full_device(many_root, words, script):
    with open("/dev/full", "wb") as full:
        got = subprocess.run([APT_COMMAND, "--root", many_root.folder, *words], input=script, stdout=full, stderr=subprocess.PIPE,
                             env=environment(), check=False)
    assert (got.returncode, got.stderr) == (2, b"dctrl-cache-apt: write failed\n")


@pytest.mark.parametrize("words, script", [(["pkgnames"], b""), ([], b"pkgnames\n" * 3)])
def test_reader_that_stops(many_root, words, script):
    """A closed pipe ends it as it ends apt-cache: by the signal of pipes, without a word."""
    command = ["bash", "-c", '"$@" | head -n 1 | wc -l; echo ${PIPESTATUS[0]}', "bash"]
    wanted = run([*command, "apt-cache", "pkgnames"], **many_root.settings())
    assert wanted == (0, b"1\n141\n", b"")
    assert run([*command, APT_COMMAND, "--root", many_root.folder, *words], script) == wanted


def test_without_standard_input(many_root):
    got = run(["sh", "-c", '"$0" --root "$1" pkgnames dpk <&-', APT_COMMAND, many_root.folder])
    assert got == (0, b"dpkg\n", b"")


def test_nothing_is_found(root):
    """The status of a name that isn't known is that of apt-cache, query by query."""
    root.add_release("stable", {"main": FOO + BAR + stanza("prov", "1", "Provides: virt")})
    for query in ("show", "depends", "rdepends", "policy", "showpkg"):
        for names in (["nosuch"], ["nosuch", "bar"], ["nosuch", "other"], ["virt"], ["bar"], ["bar=9"] if query == "show" else ["bar"]):
            assert ask(root, [query, *names])[0] == root.apt_cache(query, *names)[0], (query, names)
    assert ask(root, ["show", "nosuch"]) == (100, b"N: Unable to locate package nosuch\n", b"E: No packages found\n")


def test_patterns_of_names(root):
    """A pattern stands for the names that apt-cache takes, and a name for that of this machine's architecture."""
    root.add_release("stable", {"main": FOO + BAR + stanza("food", "1", "Provides: foov") + stanza("x+y", "1")})
    for pattern in ("fo*", "fo?", "f[!x]o*", "[fb]??", "*", "x+*", "BA*"):
        wanted = root.apt_cache("policy", pattern)[1]
        got = ask(root, ["policy", pattern])[1]
        assert sorted(got.split(b":\n  Inst")) and blocks(got) == blocks(wanted), pattern
    for name in ("foo:amd64", "foo:any", "foo:native"):
        check_as_apt_cache(root, ["policy", name])
    assert ask(root, ["show", "bar:amd64=2.0"]) == (0, BAR.encode(), b"")
    assert ask(root, ["show", "no*"]) == (100, b"", b"N: Couldn't find any package by glob 'no*'\nE: No packages found\n")
    assert ask(root, ["policy", "no*"]) == (0, b"", b"N: Couldn't find any package by glob 'no*'\n")


def blocks(answer):
    """The answers to each name, in order of names."""
    made = []
    for line in answer.split(b"\n"):
        if line and not line.startswith(b" "):
            made.append([])
        if line:
            made[-1].append(line)
    return sorted(made)


def test_many_names(root):
    """Names that fill more than a line of the program."""
    names = ["p%06d-%s" % (number, "x" * 200) for number in range(6000)]
    root.add_release("stable", {"main": "".join(stanza(name, "1") for name in names)})
    assert sum(map(len, names)) > 1_048_576
    status, output, errors = ask(root, ["policy", "p*"])
    assert (status, errors, output.count(b"  Candidate: 1\n")) == (0, b"", 6000)


def test_program_of_the_tests():
    assert os.access(PROGRAM, os.X_OK), "DCTRL_CACHE names the program"
