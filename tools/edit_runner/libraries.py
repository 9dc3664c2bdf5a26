"""The built libraries of the crates below, for a copy of the repository in which edits are tried, so that no lower crate is proved again.

`rt check` keeps them in crates/NAME/out/rlib, with a stamp of what they were built from. `rt ci` in a clean clone leaves there what it
has built, without a stamp: `rt check` would build each again, which is to prove it again. So in the copy they get the stamp that
`rt check` wants, if they are newer than all that they were built from. Either all libraries are those of `rt ci` or none is, since one
fits only those that it was built over."""

import importlib.util
import os
import shutil
import sys

from .crate import PARTS, crates_of


def take(root, base, crates):
    """Gives the copy `base` the libraries below some crates, as they stand in `root`, and what checks kept of these crates. Returns those
    that have to be built, the lowest first."""
    below = crates_of(root)
    wanted = sorted({it for crate in crates for it in crate.below}, key=lambda it: len(below[it]))
    is_of_gate = bool(wanted) and all(is_fresh(root, it, below[it]) for it in wanted)
    for name in wanted:
        copy_if_there(f"{root}/crates/{name}/out/rlib", f"{base}/crates/{name}/out/rlib")
    # Of the lower crates `rt` needs that only to build a library again.
    for name in {*(it.name for it in crates), *([] if is_of_gate else wanted)}:
        copy_if_there(f"{root}/crates/{name}/out/incremental", f"{base}/crates/{name}/out/incremental")
    stamps = stamps_of(base) if wanted else {}
    for name in wanted if is_of_gate and stamps else ():
        with open(f"{base}/crates/{name}/out/rlib/stamp", "w", encoding="utf-8") as it:
            it.write(stamps[name])
    return [it for it in wanted if it in stamps and read(f"{base}/crates/{it}/out/rlib/stamp") != stamps[it]]


def is_fresh(root, name, below):
    """Returns whether the library of a crate is one that `rt ci` left, and newer than its sources and those of the crates below. The time
    is the folder's: its files may be second names of older ones."""
    place = f"{root}/crates/{name}/out/rlib"
    if os.path.exists(f"{place}/stamp") or not os.path.isfile(f"{place}/{name}.rlib/format"):
        return False
    built = os.stat(f"{place}/{name}.rlib").st_mtime
    files = [f"{root}/crates.txt", f"{root}/HANDLES"]
    for crate in (name, *below):
        for part in PARTS:
            files += [f"{at}/{it}" for at, _, names in os.walk(f"{root}/crates/{crate}/{part}") for it in names]
    return all(os.stat(it).st_mtime < built for it in files if os.path.exists(it))


def stamps_of(base):
    """Returns the stamp of each library as the kit's `rt` makes it; none where the kit has no such thing, and then `rt` builds them."""
    kit = os.path.dirname(os.path.realpath(shutil.which("rt") or ""))
    try:
        found = importlib.util.spec_from_file_location("rtlib", f"{kit}/rtlib.py")
        rtlib = sys.modules["rtlib"] = importlib.util.module_from_spec(found)
        found.loader.exec_module(rtlib)
        made, seen = rtlib.Crate.stamp, {}

        def stamp(crate):
            if crate.folder not in seen:
                seen[crate.folder] = made(crate)
            return seen[crate.folder]

        rtlib.Crate.stamp = stamp
        return {it.name: it.stamp() for it in rtlib.crates_below(base) if it.makes_rlib()}
    except (ImportError, OSError, AttributeError, SystemExit):
        return {}


def read(path):
    try:
        with open(path, encoding="utf-8") as it:
            return it.read()
    except FileNotFoundError:
        return ""


def copy_if_there(source, target):
    if os.path.isdir(source):
        shutil.copytree(source, target)
