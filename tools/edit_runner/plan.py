"""What of the edits is to be tried: those without a valid line of the ledger, the most wanted first, and a sample of the others."""

import hashlib
import re
import subprocess

from . import layout
from .ledger import NAME, key_of

SAMPLE = 10


def drawn(root, edits, count=SAMPLE):
    """Returns so many of the edits, drawn by the name of the commit: nobody picks them, and a run of the same commit tries the same."""
    commit = git(root, "rev-parse", "HEAD").strip()
    return sorted(edits, key=lambda it: hashlib.sha256(f"{commit} {it.label}".encode()).digest())[:count]


def rank(root, ledger, edits):
    """Gives those edits the lowest rank that have no line yet, or whose file or function has changed since the commit that wrote their
    line: there the contract may be too weak. The others are due only since something else of their crate has changed, or below it."""
    written = commits_of_lines(root)
    texts = {}

    def was(commit, path):
        if (commit, path) not in texts:
            texts[commit, path] = git(root, "show", f"{commit}:{path}")
        return texts[commit, path]

    for edit in edits:
        commit = written.get(key_of(edit))
        edit.rank = 1
        if key_of(edit) not in ledger.lines or not commit:
            edit.rank = 0
        elif file_of(edit) != was(commit, edit.file[len(root) + 1 :]) or has_changed(edit, lambda path: was(commit, path)):
            edit.rank = 0


def file_of(edit):
    with open(edit.file, encoding="utf-8", errors="replace") as it:
        return it.read()


def has_changed(edit, was):
    """Returns whether a function that the edit changes is another one than it was."""
    for function in filter(None, edit.functions):
        now = edit.crate.texts[function.path]
        before = was(f"crates/{edit.crate.name}/{function.path}")
        same = next((it for it in layout.functions(function.path, before) if it == function), None)
        if not same or before[same.start : same.end] != now[function.start : function.end]:
            return True
    return False


def commits_of_lines(root):
    """Returns the commit that last wrote each line of the ledger. A line that isn't committed yet counts as of the last commit."""
    found, commit = {}, ""
    for line in git(root, "blame", "--porcelain", "--", NAME).split("\n"):
        head = re.match(r"([0-9a-f]{40}) \d+ \d+", line)
        words = line[1:].split()
        if head:
            commit = "HEAD" if set(head[1]) == {"0"} else head[1]
        elif line.startswith("\t") and len(words) == 3:
            found[words[0], words[1]] = commit
    return found


def git(root, *words):
    """Returns what git prints, and nothing where it can't say: outside of a clone, or of a file that is not there."""
    try:
        done = subprocess.run(["git", "-C", root, *words], stdout=subprocess.PIPE, stderr=subprocess.DEVNULL)
    except OSError:
        return ""
    return done.stdout.decode(errors="replace") if done.returncode == 0 else ""
