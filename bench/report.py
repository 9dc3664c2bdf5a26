#!/usr/bin/env python3
"""The table of bench/table.py as text, and its place in a document.

    bench/report.py RESULTS DOCUMENT

puts the table of the results between the two marks of the document, under a line on the machine and the list, and prints over what each
ratio ranges: the words below the table are checked by these."""

import json
import sys
import textwrap

PROGRAMS = ["dctrl-cache", "apt-cache", "grep-dctrl", "python-apt"]
BEGINS = "<!-- The table of make bench begins -->\n"
ENDS = "<!-- The table of make bench ends -->\n"


def number(value, unit):
    """A number as it is printed: seconds, or bytes as MB."""
    if unit == "MB":
        return "%.1f MB" % (value / 1e6)
    for size, name in ((0.1, "s"), (1e-4, "ms")):
        if value >= size:
            return "%.2f %s" % (value / (1 if name == "s" else 1e-3), name)
    return "%.1f us" % (value * 1e6)


def head():
    return "%-34s %5s %12s" % ("", "times", "dctrl-cache") + "".join("%12s %7s" % (name, "ratio") for name in PROGRAMS[1:])


def ratio(row, name):
    """The ratio to another program, or nothing where it has no number."""
    return row["taken"]["dctrl-cache"] / row["taken"][name] if name in row["taken"] else None


def lines(row, sizes):
    """The lines of a row. Below the peak of memory stands how many times the text that is, and below a list that comes beside another or
    goes how many times one takes that comes alone."""
    line = "%-34s %5d %12s" % (row["what"], row["times"], number(row["taken"]["dctrl-cache"], row["unit"]))
    for name in PROGRAMS[1:]:
        there = name in row["taken"]
        line += "%12s %7s" % ((number(row["taken"][name], row["unit"]), "%.3g" % ratio(row, name)) if there else ("-", "-"))
    yield line
    if "comes" in row:
        yield "%-34s %5d %12s" % ("  as times one that comes alone", row["times"], "%.2f" % (row["taken"]["dctrl-cache"] / row["comes"]))
    size = sizes.get(str(row["times"]))
    if row["what"] == "peak memory" and size:
        shown = ["%.2f" % (row["taken"][name] / size) if name in row["taken"] else "-" for name in PROGRAMS]
        yield ("%-34s %5d %12s" % ("  as times the text of %.1f MB" % (size / 1e6), row["times"], shown[0])
               + "".join("%12s %7s" % (times, "") for times in shown[1:])).rstrip()


def machine(results):
    """What the numbers were measured on, as a sentence for a document."""
    stated = "Measured on %d processors with a load of %.1f at the start and %.1f at the end" % (results["processors"], *results["load"])
    stated += ", in %d seconds. The list has %.1f MB and %s stanzas" % (results["seconds"], results["sizes"]["1"] / 1e6, "{:,}".format(results["stanzas"]))
    return stated + (", beside %s." % ", ".join(results["versions"]) if results["versions"] else ".")


def section(results):
    """What stands between the marks."""
    table = [head()] + [line for row in results["rows"] for line in lines(row, results["sizes"])]
    said = textwrap.fill(machine(results) + " The column `times` is how often the list is there.", 120, break_on_hyphens=False)
    return "\n%s\n\n%s\n\n" % (said, "\n".join("    " + line for line in table))


def placed(text, results):
    """The text of a document with the table of the results between its marks."""
    before, begins, rest = text.partition(BEGINS)
    _, ends, behind = rest.partition(ENDS)
    if not begins or not ends:
        raise SystemExit("the document has no two marks")
    return before + BEGINS + section(results) + ENDS + behind


def ranges(results):
    """For each kind of row the least and the largest ratio to each program."""
    for what in dict.fromkeys(row["what"] for row in results["rows"]):
        rows = [row for row in results["rows"] if row["what"] == what]
        shown = []
        for name in PROGRAMS[1:]:
            found = [ratio(row, name) for row in rows if name in row["taken"]]
            shown += ["%s %.3g to %.3g" % (name, min(found), max(found))] if found else []
        yield "%-34s %s" % (what, ", ".join(shown) or "-")


def main(words):
    if len(words) != 2:
        raise SystemExit(__doc__)
    with open(words[0], encoding="ascii") as file:
        results = json.load(file)
    with open(words[1], encoding="utf-8") as file:
        text = file.read()
    with open(words[1], "w", encoding="utf-8") as file:
        file.write(placed(text, results))
    print("\n".join(ranges(results)))


if __name__ == "__main__":
    main(sys.argv[1:])
