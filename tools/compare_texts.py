#!/usr/bin/env python3
"""Compares how lists and texts of preferences are read with a reference program: what they are read to, or their fault.

    tools/compare_texts.py [PACKAGES [STATUS]]

The reference program of tests/reference reads a list to stanzas and preferences to records, or gives the line and the number
of the fault. The texts are generated, and changed at random: a byte changed, a line cut, doubled or swapped with another. With
PACKAGES, a Packages file, and STATUS, a status file of dpkg, these files are compared too, and pieces of them that are changed in
the same way. `rt run` in crates/probe builds the program that is compared.
"""

import pathlib
import random
import subprocess
import sys

import reference
from answers import compare, tell

PROBE = pathlib.Path(__file__).resolve().parent.parent / "crates/probe/out/probe"
GENERATED = 20_000
PIECES = 1_500
SEED = 20241117
KINDS = ["Pre-Depends", "Depends", "Conflicts", "Breaks", "Recommends", "Suggests", "Replaces", "Enhances", "Provides"]

NAMES = ["a", "b", "libc6", "g++", "0ad", "x.y", "a!", "", "-a", "a b"]
VERSIONS = ["1", "1.0-1", "1:2.3~rc1-4", "0", "1_0", "1-", "", "a:1", "2147483648:1", "1\r"]
STATES = ["not-installed", "config-files", "half-installed", "unpacked", "half-configured", "triggers-awaited",
          "triggers-pending", "installed", "odd", "Installed", ""]
RELATIONS = ["b", "b | c", "b (>= 1), c", "b:any", "b (= 1)", "b,", "b [x]", "b (1)", "b (>> 1-)", "", "b\n c (<< 2)", "b\n,c"]
VALUES = ["x", " x ", "x\t", "", "  ", "x\n y", "x \n y", "\n y", "x\n .\n z ", "x\r", "\x00\xff", "x\n\t y\n  z"]
FIELDS = ["Description", "description", "X", "Section", "#x", "-x", "a:b", "Explanation", "explanation", "Pin", "Pin-Priority"]
ODD = [" x", "\tx: y", "# c", "oops", ": y", "a b: y", "-x: y", "\r", "Package a", "x\x7f: y", "\xe4: y", "#", " # x"]
GAPS = ["", "", "", " ", "\t ", "\n", "\n\n"]


def generate_field(source, wrong):
    """A field, at times a wrong one."""
    def pick(choices, good):
        return source.choice(choices if source.random() < wrong else choices[:good])

    kind = source.randrange(10)
    if kind < 2:
        return "Package: " + pick(NAMES, 6)
    if kind < 4:
        return "Version: " + pick(VERSIONS, 4)
    if kind < 6:
        return source.choice(["Status: install ok ", "Status:purge ok\t", "status: x y\n "]) + pick(STATES, 8) + pick(["", " ", "\n x", " x"], 2)
    if kind < 8:
        return source.choice(KINDS) + ": " + pick(RELATIONS, 6)
    return pick(FIELDS, 4) + ":" + source.choice(VALUES)


def generate_stanza(source, wrong):
    """A stanza, most often with a package and a version."""
    lines = [generate_field(source, wrong) for _ in range(source.randrange(4))]
    if source.random() < 0.9:
        lines.append("Package: " + source.choice(NAMES[:6]))
    if source.random() < 0.9:
        lines.append("Version: " + source.choice(VERSIONS[:4]))
    if source.random() < 0.7:
        lines.append("Status: install ok " + source.choice(STATES[:8]))
    if source.random() < wrong:
        lines.append(source.choice(ODD))
    if source.random() < 0.8:
        seen = set()
        lines = [line for line in lines if not (line.split(":")[0].lower() in seen or seen.add(line.split(":")[0].lower()))]
    source.shuffle(lines)
    return "\n".join(lines)


def generate_text(source):
    """A text of a few stanzas."""
    wrong = source.choice([0.0, 0.0, 0.1, 0.4])
    text = source.choice(GAPS)
    for _ in range(source.randrange(4)):
        text += generate_stanza(source, wrong) + "\n" + source.choice(GAPS) + "\n"
    text += source.choice(["", generate_stanza(source, wrong)])
    return text.encode("latin-1")


def change(source, text):
    """The text with a byte changed, or a line cut, doubled or swapped with another."""
    lines = text.split(b"\n")
    place = source.randrange(len(lines))
    other = source.randrange(len(lines))
    way = source.randrange(5)
    if way == 0 and text:
        at = source.randrange(len(text))
        return text[:at] + bytes([source.choice(list(b" \t\n:#-|,()\r") + [source.randrange(256)])]) + text[at + source.randrange(2):]
    if way == 1:
        del lines[place]
    elif way == 2:
        lines.insert(other, lines[place])
    elif way == 3:
        lines[place], lines[other] = lines[other], lines[place]
    else:
        lines[place] = lines[place][:source.randrange(len(lines[place]) + 1)]
    return b"\n".join(lines)


def pieces_of(source, text, count):
    """Pieces of a file, of a few stanzas each, changed a few times."""
    stanzas = text.split(b"\n\n")
    for _ in range(count):
        first = source.randrange(len(stanzas))
        piece = b"\n\n".join(stanzas[first:first + source.randrange(1, 4)])
        for _ in range(source.randrange(4)):
            piece = change(source, piece)
        yield piece


def version_words(version):
    return "-" if version is None else "@" + version.text.hex()


def stanza_words(stanza):
    """A stanza as the probe prints it."""
    words = "|" + stanza.text.hex() + (" live" if stanza.live else " gone") + " " + stanza.package.hex() + version_words(stanza.version)
    for field in stanza.fields:
        words += " " + field.name.hex() + "=" + field.body.hex()
    for kind in KINDS:
        groups = [] if kind == "Provides" else stanza.groups(kind.encode())
        words += " " + "".join("&" + reference.print_group(group).hex() for group in groups)
    words += "".join("+" + reference.print_group(group).hex() for group in stanza.groups(b"Provides"))
    for offer in stanza.offers:
        words += " " + offer.name.hex() + version_words(offer.version)
    return words


def record_words(record):
    """A record as the probe prints it."""
    return f"|{record.first_line}" + "".join(f" {field.name.hex()}={field.body.hex()}:{field.line}" for field in record.fields)


def expected(kind, text):
    """What the reference program reads a text to, as the probe prints it."""
    try:
        if kind == "records":
            return "".join(record_words(record) for record in reference.read_records(text, 1))
        list_kind = reference.PACKAGES if kind == "packages" else reference.STATUS
        return "".join(stanza_words(stanza) for stanza in reference.read_stanzas(text, 1, list_kind))
    except reference.TextFault as fault:
        return f"fault {fault.line} {fault.cause}"


def probe(texts):
    """What the built program crates/probe prints for these texts."""
    if not PROBE.exists():
        raise SystemExit(f"{PROBE} is missing: build it with `rt run` in crates/probe")
    lines = "".join(f"{kind}\t{text.hex()}\n" for kind, text in texts)
    done = subprocess.run([PROBE, "text"], input=lines.encode(), stdout=subprocess.PIPE, check=True)
    return done.stdout.decode().split("\n")[:-1]


def outcome_of(line, wanted):
    """The kind of a text, with the number of its fault or `read`."""
    return line.split("\t")[0], wanted.split(" ")[2] if wanted.startswith("fault") else "read"


def main():
    if len(sys.argv) > 3:
        raise SystemExit(__doc__)
    source = random.Random(SEED)
    texts = []
    for _ in range(GENERATED):
        text = generate_text(source)
        for _ in range(source.randrange(3)):
            text = change(source, text)
        texts.append((source.choice(["packages", "status", "records"]), text))
    for kind, path in zip(["packages", "status"], sys.argv[1:]):
        with open(path, "rb") as file:
            text = file.read()
        texts.append((kind, text))
        for piece in pieces_of(source, text, PIECES):
            texts.append((source.choice([kind, kind, "status", "records"]), piece))
    told = [(f"{kind}\t{text!r}", expected(kind, text)) for kind, text in texts]
    outcomes, wrong = compare(told, probe(texts), outcome_of)
    tell(outcomes, f"{len(texts)} texts, {wrong} read otherwise", wrong)


if __name__ == "__main__":
    main()
