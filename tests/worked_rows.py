"""Tests tools/worked_rows.py on the tables as they are, and with a row renamed or twice."""

import pathlib
import shutil
import subprocess
import sys
import tempfile

TOP = pathlib.Path(__file__).resolve().parent.parent
TOOL = TOP / "tools" / "worked_rows.py"
TABLES = TOP / "crates" / "ctl_rows" / "src" / "worked"


def call(folder):
    ran = subprocess.run([sys.executable, TOOL, folder], capture_output=True, text=True)
    return ran.returncode, ran.stdout.splitlines(), ran.stdout + ran.stderr


def change(folder, file, old, new):
    """Copies the tables to a folder, with one text changed for another."""
    shutil.copytree(TABLES, folder)
    path = folder / file
    text = path.read_text()
    assert text.count(old) == 1, old
    path.write_text(text.replace(old, new))


def run(tests):
    status, lines, told = call(TABLES)
    tests.expect("each worked row has a test", status == 0 and lines[-1].endswith(", 0 missing or twice"), told)
    with tempfile.TemporaryDirectory() as root:
        folder = pathlib.Path(root) / "renamed"
        change(folder, "rows.rt", "-- The lead of a row is dropped\n", "-- A lead\n")
        status, lines, told = call(folder)
        is_told = status == 1 and "The lead of a row is dropped\tMISSING" in lines
        tests.expect("a row that is missing", is_told, told)
        folder = pathlib.Path(root) / "twice"
        change(folder, "rows.rt", "-- The lead of a row is dropped\n", "-- Six versions, of which two are equal\n")
        status, lines, told = call(folder)
        is_told = status == 1 and lines[-1].endswith(", 2 missing or twice")
        tests.expect("a row that stands twice", is_told, told)
