"""The measuring beside other programs: that it ends, has each row for each program that is there, and draws them. What it measures is no test."""

import json
import os
import shutil
import sys
import xml.etree.ElementTree

from apt_root import stanza
from harness import Files, finished

TOP = os.path.join(os.path.dirname(os.path.abspath(__file__)), "..", "..")
TABLE = os.path.join(TOP, "bench", "table.py")
REPORT = os.path.join(TOP, "bench", "report.py")
sys.path.insert(0, os.path.join(TOP, "bench"))

import report  # noqa: E402
from grown import Grown  # noqa: E402

ONCE = ["pkgnames", "showpkg of all names", "depends of all names", "rdepends of all names", "show of one name", "showpkg of one name",
        "depends of one name", "rdepends of one name"]
GROWING = ["ready", "peak memory", "policy of all names", "unmet", "policy of one name", "one edit, and policy of one name", "peak memory of the session"]
LISTS = ["a list comes", *("%s list %s" % (which, does) for which in ("another", "the same") for does in ("comes beside it", "goes again"))]
OF_GREP = ["ready", "show of one name"]


def small_list():
    """Some stanzas that name each other, with all that is renamed."""
    return "".join(stanza("p%d" % number, "1.%d" % number, "Depends: p%d (>= 1) | q, libx:any" % (number // 2), "Provides: v%d (= 1)" % (number % 7),
                          "Description: Depends: p1, p2") for number in range(60)).encode()


def test_growth(tests):
    """A list of several times one has so many times its names, and as many dependencies that nothing meets for each of them."""
    with Files() as files:
        grown = Grown(small_list(), files.path("Packages"))
        answers = []
        for times in (1, 3):
            grown.grow(times)
            status, output, _ = tests.run(["-l", "main=" + grown.path], b"pkgnames\nunmet\n")
            answers.append((status, output.count(b"\np"), output.count(b"\nPackage p"), output.count(b"Depends: libx")))
        tests.same("one list", answers[0], (0, 59, 60, 60))
        tests.same("three times one list", answers[1], (0, 179, 180, 180))
        with open(grown.path, "rb") as file:
            tests.same("texts that aren't relations", file.read().count(b"\nDescription: Depends: p1, p2\n"), 180)


def test_table(tests):
    with Files() as files:
        results, picture = files.path("results"), files.path("chart.svg")
        words = [sys.executable, TABLE, tests.program, "--list", files.write("Packages", small_list()), "--times", "1,2", "--results", results, "--chart", picture]
        status, output, errors = finished(words)
        tests.same("the measuring", (status, errors), (0, b""))
        if status != 0:
            return
        with open(results, encoding="ascii") as file:
            rows = json.load(file)["rows"]
        tests.same("what is measured", sorted((row["what"], row["times"]) for row in rows),
                   sorted([(what, 1) for what in ONCE + GROWING + LISTS] + [(what, 2) for what in GROWING]))
        tests.same("what is printed", [row["what"] for row in rows if row["what"].encode() not in output], [])
        tests.same("rows of dctrl-cache", [row["what"] for row in rows if not row["taken"].get("dctrl-cache", 0) > 0], [])
        for name, command, wanted in (("apt-cache", "apt-cache", sorted(set(ONCE + GROWING) - {"peak memory of the session"})), ("grep-dctrl", "grep-dctrl", sorted(OF_GREP))):
            if shutil.which(command) is None:
                tests.skip("the rows of %s" % name, "it isn't installed")
                continue
            tests.same("the rows of %s" % name, sorted({row["what"] for row in rows if row["taken"].get(name, 0) > 0}), wanted)
        page = files.write("page.md", ("before\n%sold\n%sbehind\n" % (report.BEGINS, report.ENDS)).encode())
        status, told, errors = finished([sys.executable, REPORT, results, page])
        tests.same("the table is put into a page", (status, errors, told.count(b"\n")), (0, b"", len(ONCE + GROWING + LISTS)))
        with open(page, encoding="utf-8") as file:
            text = file.read()
        shown = [line.strip() for line in output.decode().split("\n") if line.startswith(tuple(ONCE + GROWING + LISTS))]
        tests.same("the page around the table", (text.startswith("before\n" + report.BEGINS + "\nMeasured on "), text.endswith("\n\n" + report.ENDS + "behind\n")), (True, True))
        tests.same("the table of the page", (len(shown), [line for line in shown if "    %s\n" % line not in text]), (len(rows), []))
        wrong = finished([sys.executable, REPORT, results, files.write("other.md", b"no marks\n")])
        tests.same("a page without marks", (wrong[0], wrong[2]), (1, b"the document has no two marks\n"))
        drawing = xml.etree.ElementTree.parse(picture).getroot()
        curves = [part for part in drawing if part.tag.endswith("polyline") and part.get("stroke") == "#d70751"]
        tests.same("the curves of dctrl-cache", len(curves), 6)


def test_bench(tests):
    test_growth(tests)
    test_table(tests)
