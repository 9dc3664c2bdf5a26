#!/usr/bin/env python3
"""Installs the Debian packages of the programs that the tests are compared with, or are made by, where apt-get may: the superuser
calls it, and it is there. Else it says which packages are missing. A test whose peer isn't there is skipped, so the status is 0
either way.

    tools/test_needs.py [--list]

With --list it says what is missing, and installs nothing."""

import os
import shutil
import subprocess
import sys

# Debian's own Python is the one that has the packages of Python.
SYSTEM_PYTHON = "/usr/bin/python3"

# A package, and the command or the module of Python by which it is seen.
NEEDS = [
    ("dctrl-tools", "grep-dctrl"),
    ("python3-apt", "import apt_pkg"),
    ("python3-pytest", "import pytest"),
    ("lintian", "lintian"),
    ("mandoc", "mandoc"),
    ("time", "/usr/bin/time"),
    ("gcc", "cc"),
]


def is_there(sign):
    if not sign.startswith("import "):
        return shutil.which(sign) is not None
    try:
        return subprocess.run([SYSTEM_PYTHON, "-c", sign], stderr=subprocess.DEVNULL).returncode == 0
    except OSError:
        return False


def missing(needs):
    return [package for package, sign in needs if not is_there(sign)]


def install(packages):
    """Installs packages; says why where it can't."""
    if shutil.which("apt-get") is None:
        return "there is no apt-get"
    if os.geteuid() != 0:
        return "only the superuser may install them"
    how = {"stdin": subprocess.DEVNULL, "stdout": subprocess.PIPE, "stderr": subprocess.STDOUT}
    how["env"] = {**os.environ, "DEBIAN_FRONTEND": "noninteractive"}
    for words in (["update"], ["install", "--yes", "--no-install-recommends", *packages]):
        # What apt-get says is of interest only where it fails; where the lists can't be fetched, those that are there may do.
        done = subprocess.run(["apt-get", "--quiet", *words], **how)
    return "apt-get failed: %s" % done.stdout.decode(errors="replace").strip()[-300:] if done.returncode else ""


def main(words):
    if words not in ([], ["--list"]):
        raise SystemExit(__doc__)
    wanted = missing(NEEDS)
    why = install(wanted) if wanted and not words else ""
    left = missing(NEEDS) if wanted and not words else wanted
    installed = [it for it in wanted if it not in left]
    if installed:
        print("installed: %s" % " ".join(installed))
    if left:
        print("missing: %s%s" % (" ".join(left), "; " + why if why else ""))
    if not wanted:
        print("all that the tests use is there")
    return 0


if __name__ == "__main__":
    sys.exit(main(sys.argv[1:]))
