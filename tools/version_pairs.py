#!/usr/bin/env python3
"""Writes the pairs of versions that the probe orders, each judged by dpkg, into its questions and answers.

    tools/version_pairs.py            writes them behind their heading in crates/probe/stdin and stdout
    tools/version_pairs.py --check    writes nothing; the status is 1 where they aren't what it would write

Each pair is put to `dpkg --compare-versions`. The pairs are chosen ones and random ones, the same in each run. Both
texts of a pair are versions by Debian Policy 5.6.12, apart from beginning with a digit, of which dpkg only warns.
"""

import pathlib
import random
import re
import subprocess
import sys

PROBE = pathlib.Path(__file__).resolve().parent.parent / "crates/probe"
HEADING = "# pairs of versions, each judged by dpkg, written by tools/version_pairs.py\n"

RANDOM_PAIRS = 300
SEED = 5612

# Neighbours in a list are compared.
CHOSEN = [
    # tildes, the end, letters, and other bytes
    ["~~", "~~a", "~", "0", "a", "z", "A", "z", "Z"],
    ["1.0~~", "1.0~~a", "1.0~", "1.0~rc1", "1.0~rc2", "1.0", "1.0a", "1.0+", "1.0.", "1.0.1"],
    ["a", "a+", "+", "."],
    ["1a", "1A", "1+", "1-1", "1.", "1:1"],
    ["1.0~rc1~", "1.0~rc1", "1.0~rc1+b1", "1.0~rc1.1"],
    # digits and numbers
    ["1", "01", "001", "2", "9", "10", "11", "99", "100"],
    ["1.9", "1.10", "1.010", "1.0010", "1.11"],
    ["0", "00", "0~", "0a", "0.0", "0-0", "0.", "0+0"],
    ["a0", "a", "a00", "a1", "a01"],
    ["1.", "1.0", "1.00", "1.0-0", "0:1.0", "00:1.0-00"],
    ["9" * 20, "1" + "0" * 20, "1" + "0" * 19 + "1"],
    ["9" * 50, "0" * 50 + "9" * 50, "1" + "0" * 50, "0" + "1" + "0" * 50 + ".0"],
    ["18446744073709551615", "18446744073709551616", "18446744073709551617"],
    ["1." + "8" * 50, "1." + "8" * 49 + "9", "1." + "9" * 50, "2." + "8" * 50],
    # epochs
    ["1", "0:1", "00:1", "1:0", "1:1", "01:1", "2:0", "10:0", "2147483647:0"],
    ["9:9", "10:1", "10:01", "0010:1", "11:1~"],
    ["1:1:1", "1:1:2", "1:1:10", "1:2:1"],
    # revisions
    ["1-1", "1-1.1", "1-1+b1", "1-2", "1-10", "1-a", "1-1-1", "1-1-2", "1-2-1"],
    ["1.0-0", "1.0-~", "1.0", "1.0-00", "1.0-1~", "1.0-1", "1.0-1~~", "1.0-1+deb12u1", "1.0-1ubuntu1"],
    ["2-1", "1-2", "1.1-1", "1.1-1~bpo12+1", "1.1-1.1"],
    # as archives have them
    ["2.36-9+deb12u4", "2.36-9+deb12u7", "2.36-9+deb12u10", "2.37-1"],
    ["6.1.0-9~bpo11+1", "6.1.0-9", "6.1.0-10", "6.1.0-10+b1"],
    ["1:9.18.19-1~deb12u1", "1:9.18.19-1", "1:9.18.24-1"],
    ["0~20230101", "0~20230101.1", "0.20230101", "0+git20230101.1a2b3c4-1", "20230101-1"],
    ["1.2.3+dfsg-1", "1.2.3+dfsg1-1", "1.2.3+ds-1", "1.2.3-1"],
]

# Bytes that matter most to the order come more often.
ALPHABET = "00119aazA+..~~-"


def is_version(text):
    epoch, colon, body = text.partition(":") if ":" in text else ("", "", text)
    upstream, hyphen, revision = body.rpartition("-") if "-" in body else (body, "", "")
    if colon and not (re.fullmatch("[0-9]+", epoch) and int(epoch) <= 2147483647):
        return False
    if hyphen and not re.fullmatch("[A-Za-z0-9+.~]+", revision):
        return False
    return bool(re.fullmatch("[A-Za-z0-9.+~:-]+", upstream))


def random_text(source):
    text = "".join(source.choice(ALPHABET) for _ in range(source.randint(1, 9)))
    if source.random() < 0.15:
        text = source.choice(["0", "00", "1", "01", "9", "10"]) + ":" + text
        if source.random() < 0.2:
            text += ":" + source.choice("019a~")
    return text


def neighbour(source, text):
    """The text with one byte more, less or changed, or its end cut off."""
    at = source.randrange(len(text))
    what = source.randrange(4)
    if what == 0:
        return text[:at] + source.choice(ALPHABET) + text[at:]
    if what == 1:
        return text[:at] + text[at + 1 :]
    if what == 2:
        return text[:at] + source.choice(ALPHABET) + text[at + 1 :]
    return text[:at]


def pairs():
    seen = set()
    for texts in CHOSEN:
        for pair in zip(texts, texts[1:]):
            if all(map(is_version, pair)) and pair not in seen:
                seen.add(pair)
                yield pair
    source = random.Random(SEED)
    left = RANDOM_PAIRS
    while left:
        one = random_text(source)
        other = neighbour(source, one) if source.random() < 0.7 else random_text(source)
        pair = (one, other)
        if all(map(is_version, pair)) and one != other and pair not in seen:
            seen.add(pair)
            left -= 1
            yield pair


def judged(one, other):
    signs = []
    for relation, sign in (("lt", "<"), ("eq", "="), ("gt", ">")):
        status = subprocess.run(
            ["dpkg", "--compare-versions", "--", one, relation, other], stderr=subprocess.DEVNULL
        ).returncode
        if status > 1:
            raise SystemExit(f"dpkg refuses {one!r} or {other!r}")
        if status == 0:
            signs.append(sign)
    if len(signs) != 1:
        raise SystemExit(f"dpkg answers {signs} to {one!r} and {other!r}")
    return signs[0]


def with_rows(text, rows):
    """A file of the probe with other lines behind the heading, up to the next empty one."""
    front, behind = text.split(HEADING)
    _, rest = behind.split("\n\n", 1)
    return front + HEADING + "".join(f"{row}\n" for row in rows) + "\n" + rest


def main(words):
    table = [(one, judged(one, other), other) for one, other in pairs()]
    questions = [f"order\t{one}\t{other}" for one, _, other in table]
    answers = [f"{one} {sign} {other}" for one, sign, other in table]
    status = 0
    for path, rows in ((PROBE / "stdin", questions), (PROBE / "stdout", answers)):
        text = path.read_text()
        if words == ["--check"]:
            status |= with_rows(text, rows) != text
        else:
            path.write_text(with_rows(text, rows))
    print(f"{len(table)} pairs")
    return status


if __name__ == "__main__":
    sys.exit(main(sys.argv[1:]))
