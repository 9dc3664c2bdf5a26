"""The Debian packages: what is in them, whether lintian finds them in order, and what they do where they are installed."""

import glob
import gzip
import os
import re
import shutil
import subprocess
import tempfile

from apt_root import AptRoot, stanza
from harness import LIST, finished

TOP = os.path.join(os.path.dirname(os.path.abspath(__file__)), "..", "..")
BUILD = os.path.join(TOP, "packaging", "build-deb")
INSTALL = os.path.join(TOP, "packaging", "install-files")

DOCUMENTS = "usr/share/doc/dctrl-cache/"
MODULE_DOCUMENTS = "usr/share/doc/python3-dctrl-cache/"
MODULE = "usr/lib/python3/dist-packages/"
PAGES = {"usr/share/man/man1/%s.gz" % os.path.basename(page) for page in glob.glob(os.path.join(TOP, "man", "*.1"))}
COMPLETIONS = {"usr/share/bash-completion/completions/" + name for name in ("dctrl-cache", "dctrl-cache-apt", "dctrl-cache-try")}
PROGRAMS = {"dctrl-cache", "dctrl-cache-apt", "dctrl-cache-try"}
UNITS = {"usr/lib/systemd/user/dctrl-cache-apt." + kind for kind in ("service", "socket")}
TEXTS = {DOCUMENTS + name for name in ("copyright", "changelog.gz", "MANUAL.md", "COMING-FROM.md", "differences/APT-CACHE.md",
                                    "differences/GREP-DCTRL.md", "differences/RELATIONS.md")}


def examples():
    return {name for name in os.listdir(os.path.join(TOP, "examples")) if os.path.isfile(os.path.join(TOP, "examples", name))}


def module_files():
    """The files of the module, by their paths in its folder."""
    found = files_below(os.path.join(TOP, "python"))
    return {name for name in found if name.startswith("dctrl_cache/") and (name.endswith(".py") or name.endswith("/py.typed"))}


def files_below(folder):
    """The files of a folder, by their paths in it."""
    return {os.path.relpath(os.path.join(place, name), folder) for place, _, names in os.walk(folder) for name in names}


def built(tests, folder):
    """The packages that are built in a new folder, that of the programs and that of the module; nothing where they can't be."""
    os.mkdir(folder)
    got = finished([BUILD, tests.program, folder])
    found = sorted(os.listdir(folder))
    names = [name.split("_")[0] for name in found]
    tests.same("the building of the packages", (got[0], names), (0, ["dctrl-cache", "python3-dctrl-cache"]))
    return [os.path.join(folder, name) for name in found] if len(found) == 2 else None


def test_contents(tests, package, folder, wanted, links=0):
    """The files of a package, some of which are links, their owner, and their sums."""
    name = os.path.basename(package)
    tests.same("the unpacking of " + name, finished(["dpkg-deb", "-x", package, folder])[0], 0)
    tests.same("the files of " + name, sorted(files_below(folder) ^ wanted), [])
    owners = {line.split()[1] for line in finished(["dpkg-deb", "-c", package])[1].split(b"\n") if line}
    tests.same("the owners of the files of " + name, owners, {b"root/root"})
    sums = finished(["dpkg-deb", "--ctrl-tarfile", package])[1]
    listed = finished(["tar", "-xO", "./md5sums"], input=sums)[1]
    checked = finished(["md5sum", "-c", "--quiet", "-"], input=listed, cwd=folder)
    tests.same("the sums of the files of " + name, (checked[:2], len(listed.splitlines())), ((0, b""), len(wanted) - links))


def test_files(tests, programs, module, folder):
    """What each of the two packages has."""
    wanted = {"usr/bin/" + name for name in PROGRAMS} | PAGES | COMPLETIONS | UNITS | TEXTS | {DOCUMENTS + "examples/" + name for name in examples()}
    test_contents(tests, programs, folder, wanted, links=2)
    tests.same("the manual pages of the package", len(PAGES), 3)
    wanted = {MODULE + name for name in module_files()} | {MODULE_DOCUMENTS + name for name in ("copyright", "changelog.gz")}
    test_contents(tests, module, folder + "-module", wanted)


def test_version(tests, package, folder):
    """The package, the programs and the pages have one version."""
    fields = finished(["dpkg-deb", "-f", package, "Package", "Version", "Maintainer", "Depends"])[1].decode()
    version = re.search("^Version: (.*)$", fields, re.M).group(1)
    tests.same("the package of the module", "python3-dctrl-cache (= %s)" % version in fields, True)
    tests.same("the fields of the package", (re.findall("^[A-Za-z]*", fields, re.M).count("Package"), "Maintainer: " in fields, "Depends: libc6" in fields),
               (1, True, True))
    programs = [finished([os.path.join(folder, "usr/bin", name), "--version"], env=with_module(folder)) for name in sorted(PROGRAMS)]
    words = [(output + errors).decode() for _, output, errors in programs]
    tests.same("the versions of the programs", words, ["%s %s\n" % (name, version) for name in sorted(PROGRAMS)])
    for page in sorted(PAGES):
        with gzip.open(os.path.join(folder, page), "rt") as text:
            tests.same("the version of %s" % page, '"dctrl-cache %s"' % version in text.read(), True)


def with_module(folder):
    """An environment in which the module of the other package is found."""
    environment = {name: value for name, value in os.environ.items() if name != "DCTRL_CACHE"}
    return {**environment, "PYTHONPATH": os.path.join(folder + "-module", MODULE), "PYTHONDONTWRITEBYTECODE": "1"}


def test_installed(tests, folder):
    """The programs of the folder run by themselves, and find each other."""
    binaries = os.path.join(folder, "usr/bin")
    tests.same("the installed program", finished([os.path.join(binaries, "dctrl-cache")], input=LIST + b"pkgnames\n"), (0, b"bar\nfoo\n", b""))
    examples_folder = os.path.join(folder, DOCUMENTS, "examples")
    with open(os.path.join(examples_folder, "upload.expected"), "rb") as file:
        wanted = file.read()
    tests.same("an installed example", finished([os.path.join(binaries, "dctrl-cache"), os.path.join(examples_folder, "upload.script")]), (0, wanted, b""))
    if shutil.which("apt-config") is None:
        tests.skip("the installed dctrl-cache-apt", "apt isn't installed")
        return
    environment = with_module(folder)
    with AptRoot() as root:
        root.add_release("stable", {"main": stanza("foo", "1")}, ".gz")
        words = ["dctrl-cache-apt", "--root", root.folder, "pkgnames", "fo"]
        tests.same("the installed dctrl-cache-apt", finished([os.path.join(binaries, words[0]), *words[1:]], env=environment), (0, b"foo\n", b""))
        environment["PATH"] = binaries + ":" + environment["PATH"]
        tests.same("dctrl-cache-apt on the path", finished(words, env=environment), (0, b"foo\n", b""))
        words = ["dctrl-cache-try", "--root", root.folder, "remove", "main", "foo"]
        tests.same("the installed dctrl-cache-try", finished(words, env=environment), (0, b"", b""))


def test_module(tests, folder):
    """The module that is installed talks to the program that is."""
    if not os.access("/usr/bin/python3", os.X_OK):
        tests.skip("the installed module", "there is no Python of Debian")
        return
    words = "from dctrl_cache import Session\nwith Session() as session:\n    session.add_list('main', 'packages', 'Package: a\\nVersion: 1\\n')\n" \
            "    print(session.pkgnames(), session.policy('a').candidate)\n"
    environment = {**os.environ, "PATH": os.path.join(folder, "usr/bin"), "PYTHONPATH": os.path.join(folder + "-module", MODULE),
                   "PYTHONDONTWRITEBYTECODE": "1"}
    tests.same("the installed module", finished(["/usr/bin/python3", "-c", words], env=environment, cwd=folder), (0, b"['a'] 1\n", b""))


def test_lintian(tests, package):
    if shutil.which("lintian") is None:
        tests.skip("the package by lintian", "it isn't installed")
        return
    said = finished(["lintian", "--allow-root", "--tag-display-limit", "0", package])
    errors = [line for line in said[1].decode().split("\n") if line.startswith("E:")]
    tests.same("what lintian finds wrong", (said[0], errors), (0, []))


def test_install_files(tests, folder):
    """What is installed without a package."""
    got = finished([INSTALL, tests.program, folder, "/usr/local"])
    tests.same("the installing of files", (got[0], got[2]), (0, b""))
    got = files_below(os.path.join(folder, "usr/local"))
    module = {name.removeprefix("lib/python3/dist-packages/") for name in got if name.startswith("lib/python3/")}
    tests.same("the module that is installed", module, module_files())
    tests.same("the programs that are installed", {name for name in got if name.startswith("bin/")}, {"bin/" + name for name in PROGRAMS})
    tests.same("the pages that are installed", sum(name.startswith("share/man/man1/") for name in got), 3)
    with open(os.path.join(folder, "usr/local/lib/systemd/user/dctrl-cache-apt.service"), encoding="utf-8") as file:
        tests.same("the program of the installed unit", "ExecStart=/usr/local/bin/dctrl-cache-apt --serve" in file.read(), True)
    environment = {name: value for name, value in os.environ.items() if name != "DCTRL_CACHE"}
    got = finished([os.path.join(folder, "usr/local/bin/dctrl-cache-apt"), "--version"], env={**environment, "PYTHONDONTWRITEBYTECODE": "1"})
    tests.same("the module is found below the same prefix", got[:2], (0, b"dctrl-cache-apt 0.1.0\n"))


def test_dpkg(tests, package, folder):
    """dpkg takes the package into a folder of its own."""
    if os.geteuid() != 0:
        tests.skip("the package by dpkg", "only the superuser may do that")
        return
    os.makedirs(os.path.join(folder, "var/lib/dpkg/updates"))
    os.makedirs(os.path.join(folder, "var/lib/dpkg/info"))
    for name in ("status", "available"):
        with open(os.path.join(folder, "var/lib/dpkg", name), "w", encoding="ascii"):
            pass
    words = ["dpkg", "--root", folder, "--force-depends", "--force-not-root", "--force-bad-path", "--log=/dev/null", "-i", package]
    status = finished(words)[0]
    with open(os.path.join(folder, "var/lib/dpkg/status"), encoding="utf-8") as file:
        text = file.read()
    tests.same("the package by dpkg", (status, "Status: install ok installed" in text), (0, True))
    got = finished([os.path.join(folder, "usr/bin/dctrl-cache"), "--status", os.path.join(folder, "var/lib/dpkg/status")], input=b"pkgnames\n")
    tests.same("the program that dpkg installed", got, (0, b"dctrl-cache\n", b""))


def test_package(tests):
    with tempfile.TemporaryDirectory() as work:
        test_install_files(tests, os.path.join(work, "files"))
        if shutil.which("dpkg-deb") is None:
            tests.skip("the package", "there is no dpkg-deb")
            return
        packages, again = built(tests, os.path.join(work, "one")), built(tests, os.path.join(work, "two"))
        if packages is None or again is None:
            return
        for one, two in zip(packages, again):
            tests.same("the same package again", subprocess.run(["cmp", one, two]).returncode, 0)
        folder = os.path.join(work, "tree")
        test_files(tests, *packages, folder)
        test_version(tests, packages[0], folder)
        test_installed(tests, folder)
        test_module(tests, folder)
        test_dpkg(tests, packages[0], os.path.join(work, "root"))
        for package in packages:
            test_lintian(tests, package)
