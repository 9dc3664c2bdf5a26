"""What the gate measured on this machine: out/gate.json, which `make test` and `make edits` leave, and `make gate-report` reads."""

import contextlib
import json
import os
import tempfile
from typing import Any

# What was measured: by subject, the entries of each.
Measured = dict[str, Any]

TOP = os.path.join(os.path.dirname(os.path.abspath(__file__)), "..")
PLACE = os.path.join(TOP, "out", "gate.json")


def read(place: str = PLACE) -> Measured:
    """Returns what was measured, by subject; nothing where no run has left anything."""
    try:
        with open(place, encoding="utf-8") as file:
            measured: Measured = json.load(file)
            return measured
    except (OSError, ValueError):
        return {}


def machine() -> str:
    """What the machine is, in words."""
    model = ""
    with contextlib.suppress(OSError), open("/proc/cpuinfo", encoding="utf-8", errors="replace") as file:
        model = next((line.partition(":")[2].strip() for line in file if line.startswith("model name")), "")
    return "%d processors%s" % (len(os.sched_getaffinity(0)), ", " + model if model else "")


def update(subject: str, measured: Measured, place: str = PLACE) -> None:
    """Puts the newly measured entries of a subject in place of older ones; others stay."""
    whole: Measured = {**read(place), "machine": machine()}
    whole.setdefault(subject, {}).update(measured)
    os.makedirs(os.path.dirname(place), exist_ok=True)
    with tempfile.NamedTemporaryFile("w", dir=os.path.dirname(place), delete=False, encoding="utf-8") as file:
        json.dump(whole, file, indent=1, sort_keys=True)
    os.replace(file.name, place)
