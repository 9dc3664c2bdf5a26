#!/usr/bin/env python3
"""Measures a kept cache: loading a list, what its tables take, and edits.

    bench/index.py [PACKAGES]

Loads a Packages file into the tables, beside a store without tables, `grep-dctrl -c ''` and `apt-cache gencaches` on the same
file in the same run; then the memory of the tables, table by table; then a list that comes and goes, also beside another with
the same stanzas; a stanza of the most named package that is taken out and put in again in turn; and lists with chosen
names, at half their size and whole, where twice is what a list that costs each stanza the same takes. The times of edits are those of
the edit alone, without the reading of its stanzas. Each time is the least of some runs. Without PACKAGES a list of 60,000 stanzas is
made. `rt run` in crates/probe builds the program that is measured; the variable PROBE of the environment names another.

The limits are printed beside the numbers. Nothing is refused by them: a busy machine passes them at times."""

import os
import random
import re
import subprocess
import sys
import tempfile

from held import REFUSALS, built_library, held_after
from list_edits import PROBE, added, dropped, need_probe, put, removed
from lists import ROUNDS, Way, in_a_process_of_its_own, made_list, peers

RUNS = 3
TURNS = 20
HALF = 30_000
FRONT_PUTS = 2_000
SEED = 20261123

CLAUSES = ("Pre-Depends", "Depends", "Recommends", "Suggests")
OTHERS = ("Conflicts", "Breaks", "Replaces", "Enhances")
FIELD = re.compile(r"^([^\s:]+):((?:.*)(?:\n[ \t].*)*)\n?", re.M)


def stanzas_of(path):
    """The stanzas of a file, in its order."""
    with open(path, encoding="utf-8", errors="surrogateescape") as file:
        return [stanza.strip("\n") + "\n" for stanza in file.read().split("\n\n") if stanza.strip("\n")]


# Loading

def measure_loading(path, folder):
    """Prints what loading a list takes beside the peers, and gives the least time."""
    size = os.path.getsize(path)
    ways = {what: Way([str(PROBE), subject, "packages"], path) for what, subject in (("text alone", "text"), ("store", "store"), ("tables", "index"))}
    ways.update(peers(path, folder))
    for _ in range(ROUNDS):
        for way in ways.values():
            way.run()
    for what, way in ways.items():
        print("%-20s %6.0f ms, peak memory %6.1f MB, %.2f times the text" % (what, way.time() * 1e3, way.peak() / 1e6, way.peak() / size))
    index = ways["tables"]
    rows = [("peak memory to the text", index.peak() / size, 6), ("that of the tables to the text", (index.peak() - ways["store"].peak()) / size, 1.5)]
    for peer, limit in (("grep-dctrl -c ''", 4.5), ("apt-cache gencaches", 1.6)):
        if peer in ways:
            rows.append(("time to " + peer, index.time() / ways[peer].time(), limit))
    for what, ratio, limit in rows:
        print("%-32s %5.2f  (at most %s)" % (what, ratio, limit))
    return index.time()


# Memory

def fields_of(stanza):
    return [(match[1], match[2]) for match in FIELD.finditer(stanza)]


def offers_alone(stanza):
    """The stanza without a field that names others."""
    return "".join(f"{name}:{body}\n" for name, body in fields_of(stanza) if name not in CLAUSES + OTHERS)


def without_clauses(stanza):
    """The stanza with its clauses as groups of Enhances, which has none."""
    fields = fields_of(stanza)
    kept = "".join(f"{name}:{body}\n" for name, body in fields if name not in CLAUSES and name != "Enhances")
    groups = [body.strip() for name, body in fields if name in CLAUSES or name == "Enhances"]
    return kept + ("Enhances: " + ", ".join(groups) + "\n" if groups else "")


def counts_of(stanzas):
    """How many offers, atoms and clauses stanzas have."""
    offers, atoms, clauses = 0, 0, 0
    for stanza in stanzas:
        offers += 1
        for name, body in fields_of(stanza):
            groups = [group for group in body.split(",") if group.strip()]
            if name == "Provides":
                offers += len(groups)
            elif name in CLAUSES + OTHERS:
                atoms += sum(len(group.split("|")) for group in groups)
                clauses += len(groups) if name in CLAUSES else 0
    return offers, atoms, clauses


def held_by(subject, stanzas, library, folder):
    """The bytes that a program holds for a list."""
    return held_after([str(PROBE), subject], added("main", stanzas).encode(), library, folder, REFUSALS[subject])


def measure_memory(stanzas, folder):
    """Prints what each table takes."""
    library = built_library(folder)
    sizes = []
    for change in (offers_alone, without_clauses, lambda stanza: stanza):
        changed = [change(stanza) for stanza in stanzas]
        sizes.append(held_by("index", changed, library, folder) - held_by("store", changed, library, folder))
    offers, atoms, clauses = counts_of(stanzas)
    text = sum(len(stanza.encode("utf-8", "surrogateescape")) + 1 for stanza in stanzas)
    print("%d offers, %d atoms, %d clauses" % (offers, atoms, clauses))
    print("tables: %.1f MB, %.0f bytes an atom, %.2f times the text" % (sizes[2] / 1e6, sizes[2] / atoms, sizes[2] / text))
    for what, size, count, unit in (("names and offers", sizes[0], offers, "an offer"), ("names and atoms by name", sizes[1] - sizes[0], atoms, "an atom"),
                                    ("numbers of clauses", sizes[2] - sizes[1], clauses, "a clause")):
        print("  %-24s %6.1f MB, %5.0f bytes %s, %5.0f an atom" % (what, size / 1e6, size / count, unit, size / atoms))


# Edits

def times_of(lines, folder, runs=RUNS):
    """For each line of edits the least time in seconds, and how many tests it took."""
    path = os.path.join(folder, "edits")
    with open(path, "w", encoding="ascii") as file:
        file.writelines(lines)
    least = None
    for _ in range(runs):
        with open(path, "rb") as given:
            told = subprocess.run([str(PROBE), "index", "measure"], stdin=given, stdout=subprocess.PIPE, check=True).stdout.decode().splitlines()
        words = [line.split() for line in told]
        if any(word[1] != "ok" for word in words):
            raise SystemExit("an edit is refused")
        times = [int(word[5]) / 1e9 for word in words]
        least = times if least is None else [min(pair) for pair in zip(least, times)]
        counts = [int(word[3]) for word in words]
    return least, [after - before for before, after in zip([0] + counts, counts)]


def measure_turns_of_lists(stanzas, folder):
    """Prints what a list takes to come and to go, alone and beside another with the same stanzas. What goes is laid to what came just
    before it, the same stanzas with as much beside them."""
    alone, _ = times_of([added("one", stanzas), dropped("one")], folder)
    lines = [added("one", stanzas), added("other", stanzas), dropped("one"), added("one", stanzas), dropped("other")]
    names = ["a list comes", "the same again", "the first goes", "it comes again", "the other goes"]
    times, tests = times_of(lines, folder)
    for name, spent, count in zip(names, times, tests):
        print("  %-16s %7.0f ms, %8d tests" % (name, spent * 1e3, count))
    beside = max(times[2] / times[1], times[4] / times[3])
    print("a list that goes to one that comes   %5.2f beside another, %5.2f alone  (at most 1)" % (beside, alone[1] / alone[0]))


def most_named(stanzas):
    """The stanza of the package that most stanzas name in a clause, and how many atoms do."""
    atoms = {}
    for stanza in stanzas:
        for name, body in fields_of(stanza):
            if name in CLAUSES:
                for atom in re.split("[,|]", body):
                    named = re.match(r"\s*([^\s:(]+)", atom)
                    if named:
                        atoms[named[1]] = atoms.get(named[1], 0) + 1
    found = {dict(fields_of(stanza))["Package"].strip(): stanza for stanza in stanzas}
    name = max((name for name in atoms if name in found), key=atoms.get)
    return found[name], atoms[name]


def measure_most_named(stanzas, folder, loading):
    """Prints what it takes to take a stanza out that many name, and to put it in again; also in its place, which is both."""
    stanza, atoms = most_named(stanzas)
    fields = dict(fields_of(stanza))
    package, version = fields["Package"].strip(), fields["Version"].strip()
    lines = [added("main", stanzas)] + [removed("main", package, version), put("main", stanza)] * TURNS + [put("main", stanza)] * TURNS
    times, tests = times_of(lines, folder)
    turns = times[1:1 + 2 * TURNS]
    again = times[1 + 2 * TURNS:]
    rows = [("remove", turns[::2], tests[1], 10), ("put", turns[1::2], tests[2], 10), ("put in its place", again, tests[-1], 20)]
    print("%s, which %d atoms of clauses name" % (package, atoms))
    for what, spent, count, limit in rows:
        mean = sum(spent) / len(spent)
        print("  %-18s %6.2f ms (at most %d), %6d tests, %.4f of loading the list" % (what, mean * 1e3, limit, count, mean / loading))


# Chosen names

def plain(number):
    return f"package-{number:06d}"


def long_front(number):
    return "a" * 200 + f"{number:06d}"


def chosen_list(numbers, name, relation):
    return [f"Package: {name(number)}\nVersion: 1\n{relation(number, name)}" for number in numbers]


def two_others(number, name):
    return f"Depends: {name(number // 2)}, {name(number // 3)}\n"


def provided(_number, _name):
    return "Provides: virtual (= 1)\n"


def named(_number, _name):
    return "Depends: virtual\n"


def shuffled(count):
    numbers = list(range(count))
    random.Random(SEED).shuffle(numbers)
    return numbers


SHAPES = [
    ("names in order", range, plain, two_others),
    ("names in reverse", lambda count: range(count)[::-1], plain, two_others),
    ("names in no order", shuffled, plain, two_others),
    ("names with a long front", shuffled, long_front, two_others),
    ("one name that all offer", shuffled, plain, provided),
    ("one name that all name", shuffled, plain, named),
]


def measure_shape(what, order, name, relation, folder):
    """Prints the times of a list of chosen names that comes and goes, whole and as a multiple of half of it."""
    spent = []
    for count in (HALF, 2 * HALF):
        times, _ = times_of([added("main", chosen_list(order(count), name, relation)), dropped("main")], folder)
        spent.append(times)
    half, whole = spent
    print("  %-26s comes %6.0f ms, %.2f times the half; goes %6.0f ms, %.2f times the half" % (what, whole[0] * 1e3, whole[0] / half[0], whole[1] * 1e3, whole[1] / half[1]))


def measure_front(relation, what, folder):
    """Prints what stanzas take that come before many others of a name, one by one, and go again."""
    spent = []
    for count in (HALF, 2 * HALF):
        many = chosen_list(range(count), plain, relation)
        few = [f"Package: front-{number}\nVersion: 1\n{relation(number, plain)}" for number in range(FRONT_PUTS)]
        lines = [added("front", []), added("main", many)] + [put("front", stanza) for stanza in few]
        lines += [removed("front", f"front-{number}", "1") for number in range(FRONT_PUTS)]
        times, _ = times_of(lines, folder, runs=1)
        spent.append((sum(times[2:2 + FRONT_PUTS]), sum(times[2 + FRONT_PUTS:])))
    half, whole = spent
    print("  %-26s put %6.1f microseconds, %.2f times that before half as many; remove %6.1f, %.2f times"
          % (what, whole[0] / FRONT_PUTS * 1e6, whole[0] / half[0], whole[1] / FRONT_PUTS * 1e6, whole[1] / half[1]))


def write_made(path):
    with open(path, "wb") as file:
        file.write(made_list())


def main(words):
    need_probe()
    with tempfile.TemporaryDirectory() as folder:
        os.chmod(folder, 0o755)
        path = os.path.join(folder, "Packages")
        if words:
            os.symlink(os.path.abspath(words[0]), path)
        else:
            in_a_process_of_its_own(write_made, path)
        print("%d bytes" % os.path.getsize(path))
        loading = measure_loading(path, folder)
        stanzas = stanzas_of(path)
        measure_memory(stanzas, folder)
        measure_turns_of_lists(stanzas, folder)
        measure_most_named(stanzas, folder, loading)
        print("lists of %d stanzas with chosen names" % (2 * HALF))
        for shape in SHAPES:
            measure_shape(*shape, folder)
        measure_front(provided, "before many that offer", folder)
        measure_front(named, "before many that name", folder)


if __name__ == "__main__":
    main(sys.argv[1:])
