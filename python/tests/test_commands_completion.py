"""The completion of bash, whose functions are called as bash calls them."""

import os
import shutil

import pytest
from commands_support import APT_COMMAND, TOP, TRY_COMMAND, AptRoot, run, stanza

pytestmark = pytest.mark.skipif(shutil.which("bash") is None, reason="there is no bash")

COMPLETION = os.path.join(TOP, "completion", "dctrl-cache")
# The words stand behind the name of the file; the last one is being completed.
CALL = """
source "$1" || exit
shift
COMP_WORDS=("$@") COMP_CWORD=$(($# - 1))
command=${1##*/}
function=$(complete -p "$command" | sed 's/.*-F \\([^ ]*\\) .*/\\1/')
"$function" "$1" "${COMP_WORDS[COMP_CWORD]}" "${COMP_WORDS[COMP_CWORD - 1]}"
[ ${#COMPREPLY[@]} = 0 ] || printf '%s\\n' "${COMPREPLY[@]}"
"""
OPTIONS = ["--ask", "--help", "--installed-only", "--json", "--lists", "--only", "--root", "--serve", "--strict", "--version", "--without"]
COMMANDS = ["depends", "grep-dctrl", "pkgnames", "policy", "rdepends", "show", "showpkg", "unmet"]
OF_FILTERS = ["--eq", "--ge", "--gt", "--le", "--lt", "--pattern=", "--rx", "-F", "-P", "-X", "-a", "-c", "-d", "-i", "-n", "-o", "-s",
              "-v"]


@pytest.fixture(name="cache", scope="module")
def fixture_cache(tmp_path_factory):
    return str(tmp_path_factory.mktemp("cache"))


def completed(words, cache):
    """What the last of some words can become, in order."""
    status, output, errors = run(["bash", "--norc", "-c", CALL, "bash", COMPLETION, *words], XDG_CACHE_HOME=cache, XDG_RUNTIME_DIR=None)
    assert (status, errors) == (0, b"")
    return sorted(output.decode().split("\n")[:-1])


@pytest.mark.parametrize("words, wanted", [
    (["p"], ["pkgnames", "policy"]),
    (["--"], OPTIONS),
    ([""], sorted(OPTIONS + COMMANDS)),
    (["frob"], []),
    (["show", "-"], ["--all-versions", "--no-all-versions", "-a"]),
    (["depends", "--i"], ["--important", "--installed"]),
    (["rdepends", "bash", "-"], ["--installed"]),
    (["unmet", "-"], ["--important", "-i"]),
    (["unmet", "b"], []),
    (["policy", "-"], []),
    (["pkgnames", "--"], ["--all-names"]),
    (["g"], ["grep-dctrl"]),
    (["grep-dctrl", "--l"], ["--le", "--lt"]),
    (["grep-dctrl", "-P", "bash", "-"], OF_FILTERS),
    (["grep-dctrl", "b"], []),
    (["--only", ""], []),
    (["--only", "main", "po"], ["policy"]),
    (["--only=main", "--json", "po"], ["policy"]),
])
def test_words(cache, words, wanted):
    """Commands and options."""
    assert completed([APT_COMMAND, *words], cache) == wanted


@pytest.fixture(name="root", scope="module")
def fixture_root():
    if shutil.which("apt-config") is None:
        pytest.skip("apt isn't installed")
    with AptRoot() as made:
        made.add_release("stable", {"main": "".join(stanza(name, "1") for name in ("foo", "foo-data", "fob", "bar"))}, ".gz")
        yield made


@pytest.mark.parametrize("words, wanted", [
    (["policy", "fo"], ["fob", "foo", "foo-data"]), (["show", "-a", "bar", "foo"], ["foo", "foo-data"]), (["depends", "x"], []),
    (["po"], ["policy"]),
    (["frob", "fo"], []), (["--only", "main", "policy", "ba"], ["bar"]),
])
def test_names(cache, root, words, wanted):
    """Names of packages of another system."""
    assert completed([APT_COMMAND, "--root", root.folder, *words], cache) == wanted


def test_names_behind_a_root(cache, root):
    """Bash may cut --root=DIR into three words."""
    for words in (["--root=" + root.folder, "policy", "foo-"], ["--root", "=", root.folder, "policy", "foo-"]):
        assert completed([APT_COMMAND, *words], cache) == ["foo-data"]


def test_folders(cache, root):
    folder = os.path.join(root.folder, "var/lib/d")
    for words in (["--root", folder], ["--root", "=", folder]):
        assert completed([APT_COMMAND, *words], cache) == [folder + "pkg"]


def test_files(cache, tmp_path):
    """The files of the program itself, and of uploads."""
    packages = tmp_path / "Packages"
    packages.write_text("", encoding="utf-8")
    whole = str(packages)
    start = whole[:-4]
    for words, wanted in [(["-"], ["--help", "--status", "--version", "-l"]), (["-l", "main"], []), (["-l", "main=" + start], [whole]),
                          (["-l", "main", "=", start], [whole]), (["--status", start], [whole]), ([start], [whole])]:
        assert completed(["dctrl-cache", *words], cache) == wanted, words
    assert completed([TRY_COMMAND, "upload", "main", start], cache) == [whole]
    assert completed([APT_COMMAND, "--ask", start], cache) == [whole]


@pytest.mark.parametrize("words, wanted", [
    (["u"], ["upload"]), ([""], ["remove", "upload"]), (["--js"], ["--json"]), (["-l", "main=x", "rem"], ["remove"]),
    (["remove", "ma"], []),
    (["--only", "x"], []),
])
def test_words_of_try(cache, words, wanted):
    assert completed([TRY_COMMAND, *words], cache) == wanted
