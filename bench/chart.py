#!/usr/bin/env python3
"""Draws the growth of what the programs take, from the results of bench/table.py: a panel for each row that was measured at several
sizes, both axes in steps of times.

    bench/chart.py RESULTS CHART"""

import json
import math
import sys

PANELS = ["ready", "policy of all names", "unmet", "policy of one name", "one edit, and policy of one name", "peak memory"]
TITLES = {"ready": "ready, from nothing", "policy of all names": "policy of all names", "unmet": "unmet", "policy of one name": "policy of one name",
          "one edit, and policy of one name": "one edit, then policy of one name", "peak memory": "peak memory"}
COLOURS = {"dctrl-cache": "#d70751", "apt-cache": "#2f6db5", "grep-dctrl": "#5a9a3c", "python-apt": "#8a6d3b"}
WIDTH, HEIGHT, LEFT, TOP, GAP = 250, 150, 62, 64, 62
COLUMNS = 3


def told(value, unit):
    """A value on an axis."""
    if unit == "MB":
        return "%g GB" % (value / 1e9) if value >= 1e9 else "%g MB" % (value / 1e6)
    for size, name in ((1, "s"), (1e-3, "ms"), (1e-6, "µs")):
        if value >= size * 0.999:
            return "%g %s" % (round(value / size), name)
    return "%g ns" % round(value * 1e9)


def text(place, words, more=""):
    return '<text x="%.1f" y="%.1f" %s>%s</text>' % (*place, more, words)


def line(start, end, colour):
    return '<line x1="%.1f" y1="%.1f" x2="%.1f" y2="%.1f" stroke="%s"/>' % (*start, *end, colour)


class Panel:
    """The rows of one kind, in a frame."""

    def __init__(self, rows, place):
        self.rows = rows
        self.x, self.y = place
        self.times = sorted({row["times"] for row in rows})
        values = [value for row in rows for value in row["taken"].values()]
        self.low, self.high = math.floor(math.log10(min(values))), math.ceil(math.log10(max(values)))

    def across(self, times):
        most = math.log(self.times[-1]) or 1
        return self.x + 14 + math.log(times) / most * (WIDTH - 28)

    def down(self, value):
        return self.y + HEIGHT - (math.log10(value) - self.low) / max(self.high - self.low, 1) * HEIGHT

    def frame(self):
        unit = self.rows[0]["unit"]
        yield text((self.x, self.y - 10), TITLES[self.rows[0]["what"]], 'font-weight="bold"')
        for power in range(self.low, self.high + 1):
            place = self.down(10.0 ** power)
            yield line((self.x, place), (self.x + WIDTH, place), "#ccc")
            yield text((self.x - 6, place + 4), told(10.0 ** power, unit), 'text-anchor="end"')
        for times in self.times:
            yield text((self.across(times), self.y + HEIGHT + 16), "%d×" % times, 'text-anchor="middle"')

    def curves(self):
        for name, colour in COLOURS.items():
            points = [(self.across(row["times"]), self.down(row["taken"][name])) for row in self.rows if name in row["taken"]]
            if points:
                yield '<polyline points="%s" fill="none" stroke="%s" stroke-width="2"/>' % (" ".join("%.1f,%.1f" % point for point in points), colour)
                yield "".join('<circle cx="%.1f" cy="%.1f" r="3" fill="%s"/>' % (*point, colour) for point in points)


def legend(names):
    place = LEFT
    for name in names:
        yield line((place, 22), (place + 20, 22), COLOURS[name]).replace("/>", ' stroke-width="3"/>')
        yield text((place + 26, 26), name)
        place += 130


def drawn(rows):
    """The chart, as SVG."""
    kinds = [(kind, [row for row in rows if row["what"] == kind]) for kind in PANELS]
    kinds = [(kind, found) for kind, found in kinds if found]
    names = [name for name in COLOURS if any(name in row["taken"] for row in rows)]
    width = COLUMNS * (WIDTH + LEFT) + 20
    height = TOP + math.ceil(len(kinds) / COLUMNS) * (HEIGHT + GAP)
    parts = ['<svg xmlns="http://www.w3.org/2000/svg" width="%d" height="%d" viewBox="0 0 %d %d" font-family="sans-serif" font-size="12">' % (width, height, width, height),
             '<rect width="100%" height="100%" fill="white"/>', *legend(names)]
    for number, (_, found) in enumerate(kinds):
        panel = Panel(found, (LEFT + number % COLUMNS * (WIDTH + LEFT), TOP + number // COLUMNS * (HEIGHT + GAP)))
        parts += [*panel.frame(), *panel.curves()]
    parts.append(text((LEFT, height - 8), "Sizes are times one list. Both axes are logarithmic; less is better."))
    return "\n".join([*parts, "</svg>", ""])


def write(rows, path):
    with open(path, "w", encoding="utf-8") as file:
        file.write(drawn(rows))


def main(words):
    if len(words) != 2:
        raise SystemExit(__doc__)
    with open(words[0], encoding="ascii") as file:
        write(json.load(file)["rows"], words[1])


if __name__ == "__main__":
    main(sys.argv[1:])
