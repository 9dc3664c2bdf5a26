"""Runs of a program with requests for memory refused, by a library that is preloaded. It needs a C compiler."""

import os
import subprocess

HERE = os.path.dirname(os.path.abspath(__file__))
PATIENCE = 600
SUBJECTS = (b"relation", b"text", b"store", b"index")


def library(folder):
    """The library that is preloaded, built in a folder."""
    path = os.path.join(folder, "refuse_nth.so")
    subprocess.run(["cc", "-shared", "-fPIC", "-O1", "-o", path, os.path.join(HERE, "refuse_nth.c"), "-ldl"], check=True)
    return path


def run(program, words, script, settings=None):
    """The status, the output and the errors of a run on a script."""
    environment = dict(os.environ, **(settings or {}))
    pipes = {"stdout": subprocess.PIPE, "stderr": subprocess.PIPE}
    done = subprocess.run([program] + words, input=script, env=environment, timeout=PATIENCE, check=False, **pipes)
    return done.returncode, done.stdout, done.stderr


def lines_of(lines, subject):
    """The lines of the probe of one subject: those behind the word, up to the next such word. Without that word all are."""
    if subject not in lines:
        return lines
    behind = lines[lines.index(subject) + 1:]
    ends = [at for at, line in enumerate(behind) if line in SUBJECTS]
    return behind[:ends[0]] if ends else behind
