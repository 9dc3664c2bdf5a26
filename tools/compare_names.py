#!/usr/bin/env python3
"""Compares the names that the program answers with those of apt-cache.

    tools/compare_names.py PROGRAM PACKAGES [PREFIX...]

The program reads a Packages list of amd64 by -l and answers `pkgnames`; apt-cache answers it from a folder of its own in
which that list is all it knows. By itself apt-cache leaves out the names that are only mentioned, as the program does. Its
order is its own, so both answers are sorted. Each PREFIX is asked for too. It is no part of the gate."""

import os
import subprocess
import sys
import tempfile

sys.path.insert(0, os.path.join(os.path.dirname(os.path.abspath(__file__)), "..", "bench"))

from apt_folder import AptFolder  # noqa: E402


def answer(words, script=b"", environment=None):
    """The lines that a program prints, sorted."""
    done = subprocess.run(words, input=script, env=environment, stdout=subprocess.PIPE, check=True)
    return sorted(done.stdout.split(b"\n")[:-1])


def show(prefix, ours, theirs):
    """Prints how the names of a prefix compare. Whether they are the same."""
    for name in sorted(set(ours) ^ set(theirs))[:20]:
        print("%s: only %s answers it" % (name.decode("utf-8", "replace"), "dctrl-cache" if name in ours else "apt-cache"))
    print("pkgnames %s: %d names, %d of apt-cache, %s"
          % (prefix, len(ours), len(theirs), "the same" if ours == theirs else "not the same"))
    return ours == theirs


def main(words):
    program, packages = os.path.abspath(words[0]), os.path.abspath(words[1])
    same = True
    with tempfile.TemporaryDirectory() as folder:
        os.chmod(folder, 0o755)
        apt = AptFolder(os.path.join(folder, "apt"), {"main": packages})
        for prefix in [""] + words[2:]:
            ours = answer([program, "-l", "main=" + packages], b"pkgnames '%s'\n" % prefix.encode())
            theirs = answer(["apt-cache", "-o", "APT::Cache::AllNames=0", "pkgnames"] + ([prefix] if prefix else []),
                            environment=apt.environment)
            same = show(prefix, ours, theirs) and same
    return 0 if same else 1


if __name__ == "__main__":
    sys.exit(main(sys.argv[1:]))
