"""Tests tools/gate.py on a Makefile of made parts, how it tells proofs from other checks, and the table of what was measured."""

import json
import os
import shutil
import subprocess
import sys
import tempfile

TOOLS = os.path.join(os.path.dirname(os.path.abspath(__file__)), "..", "tools")
sys.path.append(TOOLS)

import gate  # noqa: E402
import gate_report  # noqa: E402
import proof_seconds  # noqa: E402

PARTS = ["layout", "demo", "test-tools", "prove", "test-program", "edits"]


def run_gate(lines, words=(), more=(), processors=None):
    """Runs the gate in a folder whose parts print one passed test, or do what `lines` has for them, on so many processors or on all;
    returns its status and its lines, and what was left of measurements."""
    with tempfile.TemporaryDirectory() as folder:
        os.mkdir(folder + "/tools")
        for name in ("gate.py", "gate_file.py", "proof_seconds.py"):
            shutil.copy(os.path.join(TOOLS, name), folder + "/tools")
        with open(folder + "/crates.txt", "w", encoding="utf-8") as file:
            file.write("# Two crates.\nlow:\nhigh: low\n")
        with open(folder + "/Makefile", "w", encoding="utf-8") as file:
            for name in (*PARTS, *more):
                file.write("%s:\n\t@%s\n" % (name, lines.get(name, "echo '1 passed, 0 failed'")))
        how = {"cwd": folder, "stdout": subprocess.PIPE, "stderr": subprocess.STDOUT, "text": True}
        mine = sorted(os.sched_getaffinity(0))[:processors]
        only = ["taskset", "-c", ",".join(map(str, mine))] if processors else []
        done = subprocess.run([*only, sys.executable, "tools/gate.py", *words], **how)
        with open(folder + "/out/gate.json", encoding="utf-8") as file:
            measured = json.load(file)
    return done.returncode, done.stdout.splitlines(), measured


def test_parts(tests):
    status, lines, measured = run_gate({})
    tests.expect("the parts that are there", (status, lines[-1]) == (0, "6 passed, 0 failed"), lines)
    tests.expect("what is measured of parts", sorted(measured["parts"]) == sorted(PARTS) and measured["whole"]["wall"] >= 0, measured)
    status, lines, _ = run_gate({}, more=["test-python"])
    tests.expect("a part that comes", (status, lines[-1]) == (0, "7 passed, 0 failed"), lines)
    edits = "echo \"asked: $(IN_GATE)\"; echo '9 passed, 0 failed, 3 skipped'"
    status, lines, _ = run_gate({"test-program": "echo '5 passed, 0 failed, 2 skipped'", "edits": edits})
    tests.expect("skipped tests are counted", (status, lines[-1]) == (0, "18 passed, 0 failed, 5 skipped") and "asked: 1" in lines, lines)
    status, lines, _ = run_gate({"layout": "echo '1 passed, 2 failed'; false"})
    tests.expect("a part that fails stops the gate", (status, lines[-1]) == (1, "1 passed, 2 failed") and "prove: not run" in lines, lines)
    status, lines, _ = run_gate({"layout": "echo '1 passed, 2 failed'; false"}, ["--keep-going"])
    tests.expect("or is gone past", (status, lines[-1]) == (1, "6 passed, 2 failed"), lines)
    told = lines[lines.index("== layout failed; it said last") :] if "== layout failed; it said last" in lines else lines
    tests.expect("what a part that failed said last", told[1:2] == ["1 passed, 2 failed"] and "== the gate" in told, lines)
    for processors, wanted in ((1, "prove: not run"), (2, "prove: not run"), (4, "edits: not run")):
        if processors <= len(os.sched_getaffinity(0)):
            status, lines, _ = run_gate({"demo": "echo '0 passed, 1 failed'; false"}, processors=processors)
            left = [it for it in lines if it.endswith(": not run")]
            tests.expect("what a failed example stops on %d processors" % processors, status == 1 and wanted in left, lines)
    for what, command in (("no count", "echo all well"), ("a count of none, and a failure", "echo '1 passed, 0 failed'; false")):
        status, lines, _ = run_gate({"edits": command}, ["--keep-going"])
        tests.expect("a part of %s has failed" % what, status == 1 and lines[-1].endswith(" passed, 1 failed"), lines)


def test_early_parts(tests):
    """On four processors what comes behind the proofs begins once all crates are proved, and not before."""
    if len(os.sched_getaffinity(0)) < 4:
        return
    waits = "until [ -e begun ]; do sleep 0.1; done; "
    prove = "echo 'rt: low proved'; echo 'rt: high proved'; " + waits + "echo '2 passed, 0 failed'"
    status, lines, _ = run_gate({"prove": prove, "edits": "touch begun; echo '1 passed, 0 failed'"}, processors=4)
    tests.expect("edits begin once all crates are proved", (status, lines[-1]) == (0, "7 passed, 0 failed"), lines)
    kept = "echo 'rt: low is kept: an earlier run proved it'; echo 'rt: high proved'; " + waits + "echo '2 passed, 0 failed'"
    status, lines, _ = run_gate({"prove": kept, "edits": "touch begun; echo '1 passed, 0 failed'"}, processors=4)
    tests.expect("also where an earlier run proved one", (status, lines[-1]) == (0, "7 passed, 0 failed"), lines)
    prove = "echo 'rt: low proved'; sleep 1; touch ended; echo '2 passed, 0 failed'"
    edits = "test -e ended && echo '1 passed, 0 failed'"
    status, lines, _ = run_gate({"prove": prove, "edits": edits}, processors=4)
    tests.expect("and not while one isn't", (status, lines[-1]) == (0, "7 passed, 0 failed"), lines)
    status, lines, _ = run_gate({"prove": "echo 'rt: low proved'; echo '1 passed, 1 failed'; false"}, processors=4)
    left = [it for it in lines if it.endswith(": not run")]
    tests.expect("nor where one can't be", status == 1 and left == ["test-program: not run", "edits: not run"], lines)


def test_proofs(tests):
    """The words of processes of `rt ci`, and the functions that it tells of."""
    rattle = "/opt/kit/bin/rattle"
    for words, wanted in (
        ([rattle, "build", "--crate-name", "low", "src/lib.rt", "--statements", "-o", "out"], ("low", "proof")),
        ([rattle, "check", "--crate-name", "app", "src/main.rt", "-o", "/tmp/checked"], ("app", "proof")),
        ([rattle, "build", "--crate-name", "app", "src/main.rt", "--crate-checked", "/tmp/checked", "-o", "app.o"], None),
        ([rattle, "build", "--crate-name", "low", "src/lib.rt", "--test", "-o", "tests.o"], ("low", "tests")),
        ([rattle, "check", "--crate-name", "low", "src/lib.rt", "--incremental", "kept"], ("low", "must-fail")),
        (["/usr/bin/python3", "rt", "ci"], None),
        ([], None),
    ):
        found = proof_seconds.what_is_checked(words)
        tests.expect("what %s checks" % " ".join(words[1:]), found == wanted, found)
    lines = ["== low", "logic=proved functions=3 sum=0", "rt: low proved", "== low: its tests", "logic=proved functions=9 tests=2"]
    lines += ["== high", "logic=proved functions=4 sum=0"]
    found = gate.proofs_of(lines, {("low", "proof"): 2.04, ("low", "tests"): 1.0})
    tests.expect("what is measured of proofs", found == {"low": {"functions": 3, "proof": 2.0, "tests": 1.0, "must-fail": 0}}, found)
    test_processes(tests)


def test_processes(tests):
    """A process below another is seen, by its words."""
    words = ["sh", "-c", "cp /bin/sleep rattle; ./rattle 300 & wait"]
    with tempfile.TemporaryDirectory() as folder, subprocess.Popen(words, cwd=folder, start_new_session=True) as top:
        seen = []
        while not seen:
            seen = [it for it in proof_seconds.below(top.pid) if proof_seconds.words_of(it[0])[:1] == ["./rattle"]]
        os.killpg(top.pid, 9)
    tests.expect("a process below another is seen", len(seen) == 1, seen)


def test_report(tests):
    results = {"machine": "2 processors", "parts": {"prove": {"wall": 60, "cpu": 90}},
               "proofs": {"low": {"functions": 3, "proof": 12.4, "tests": 0}},
               "edits": {"low": {"tried": 2, "edits": 5, "seconds": 30.0, "base": 0}}}
    text = gate_report.section(results, ["low", "high"])
    tests.expect("the table", "| `low` | 3 | 12 | 240 | - | 2 of 5 | - | 30 |\n| `high` | - | - | 240 | - | - | - | - |\n" in text, text)
    tests.expect("the machine and the parts", "Measured on 2 processors." in text and "`prove` 1.0 and 1.5." in text, text)
    with tempfile.TemporaryDirectory() as folder:
        document = os.path.join(folder, "page.md")
        with open(document, "w", encoding="utf-8") as file:
            file.write("before\n%sold\n%sbehind\n" % (gate_report.BEGINS, gate_report.ENDS))
        gate_report.put(document, "new\n")
        with open(document, encoding="utf-8") as file:
            told = file.read()
    tests.expect("the table is put into a page", told == "before\n%snew\n%sbehind\n" % (gate_report.BEGINS, gate_report.ENDS), told)


def run(tests):
    test_parts(tests)
    test_early_parts(tests)
    test_proofs(tests)
    test_report(tests)
