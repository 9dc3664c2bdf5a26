"""The relation fields of a Packages file, and the program that reads them."""

import pathlib
import subprocess

KINDS = [
    "Pre-Depends",
    "Depends",
    "Conflicts",
    "Breaks",
    "Recommends",
    "Suggests",
    "Replaces",
    "Enhances",
    "Provides",
]

PROBE = pathlib.Path(__file__).resolve().parent.parent / "crates/probe/out/probe"


def fields_of(path):
    """Each relation field of a Packages file: its kind and its body, continuation lines included."""
    kind, lines = None, []
    with open(path, "rb") as packages:
        for line in packages:
            line = line.rstrip(b"\n")
            if line[:1] in (b" ", b"\t") and line.strip():
                if kind is not None:
                    lines.append(line)
                continue
            if kind is not None:
                yield kind, b"\n".join(lines)
            name, colon, value = line.partition(b":")
            name = name.decode("ascii", "replace")
            kind, lines = (name, [value.strip(b" \t")]) if colon and name in KINDS else (None, [])
    if kind is not None:
        yield kind, b"\n".join(lines)


def probe(fields, *arguments):
    """What the built program crates/probe writes for these fields."""
    if not PROBE.exists():
        raise SystemExit(f"{PROBE} is missing: build it with `rt run` in crates/probe")
    lines = "".join(f"{kind}\t{body.hex()}\n" for kind, body in fields)
    done = subprocess.run([PROBE, "relation", *arguments], input=lines.encode(), stdout=subprocess.PIPE, check=True)
    return done.stdout
