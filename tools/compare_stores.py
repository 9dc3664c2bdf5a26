#!/usr/bin/env python3
"""Compares what edits do to a store with a reference program: which are refused and why, and what the store then holds.

    tools/compare_stores.py [SEQUENCES]

The reference program of tests/reference gives the state after an edit, or the number of its refusal. The edits are
generated: sequences of them over few names, with versions that are equal in other words, and with small limits at
times. After each edit the whole state is compared. The keys of stanzas, which the reference program has none of, are
kept here by their rules: a list and a stanza that come new take the next serial, and a stanza that replaces another
takes over its key. Each twentieth sequence puts and removes stanzas of one list of hundreds, which grows and shrinks, and
the state is compared now and then. `rt run` in crates/probe builds the program that is compared.
"""

import reference
from answers import compare, tell
from edit_sequences import GROWTH, LISTS, LONG_NAMES, PACKAGES, Keys
from edit_sequences import generate_change, generate_edit, generate_sequences, named_stanza, outcome_of, probe, read, read_words, selector_words

SEQUENCES = 600
SEED = 20250311

# How many edits of a long sequence there are between two looks at the state.
LONG_EDITS = 100


def state_words(state, keys, limits):
    """A state as the probe prints it."""
    words = "state"
    for entry in state.lists:
        kind = "packages" if entry.kind == reference.PACKAGES else "status"
        words += f" list {entry.name.hex()} {kind} {entry.class_of_list}"
        for key, stanza in zip(keys.of(entry.name), entry.stanzas, strict=True):
            words += f" {key}={stanza.text.hex()}@{entry.name.hex()}"
    for package in PACKAGES:
        if package in state.marks:
            version = state.marks[package]
            words += f" none {package.hex()}" if version is None else f" mark {package.hex()}={version.text.hex()}"
    for selector, priority in state.pins:
        words += " " + " ".join(selector_words(selector)) + f" {priority}"
    if state.target is not None:
        words += f" target {state.target.hex()}"
    return words + f" counts {state.count()} {state.edits} limits {limits.stanzas} {limits.edits}"


def first_text(edit):
    """The text of the first stanza that an edit brings, as the probe prints it."""
    stanzas = {"add-list": edit[-1], "put": edit[-1:]}.get(edit[0], [])
    return f"={stanzas[0].text.hex()}" if stanzas else ""


def generate_sequence(source):
    """The lines of a sequence, each with what is to be printed for it."""
    small = source.random() < 0.4
    stanzas = source.randrange(12) if small else 4_294_967_295
    edits = source.choice([source.randrange(30), 4_294_967_295]) if small else 4_294_967_295
    limits = reference.Limits(stanzas, edits)
    state = reference.State()
    keys = Keys()
    dump = "\t".join(["dump"] + [package.hex() for package in PACKAGES])
    told = [(f"limits\t{stanzas}\t{edits}", "new"), (dump, state_words(state, keys, limits))]
    for _ in range(source.randrange(5, 60)):
        edit, words = generate_edit(source, state)
        try:
            after = reference.step(state, limits, edit)
            gone, come = keys.after(edit, state)
            state = after
            outcome = "ok" + "".join(f" -{key}" for key in gone) + "".join(f" +{key}" for key in come) + first_text(edit)
        except reference.Refused as refused:
            outcome = f"foretold {refused.number} refused {refused.number} "
        told.append(("\t".join(words), outcome))
        told.append((dump, state_words(state, keys, limits)))
    return told


def generate_long_sequence(source):
    """The lines of many edits of one list, which grows, shrinks to a few stanzas and grows again."""
    limits = reference.Limits(4_294_967_295, 4_294_967_295)
    state = reference.State()
    keys = Keys()
    names = [f"p{number}" for number in range(LONG_NAMES)]
    dump = "\t".join(["dump"] + [package.hex() for package in PACKAGES])
    text = "\n".join(named_stanza(source, names) for _ in range(source.choice([0, 1, 64, 65, 300])))
    edit = ("add-list", LISTS[0], reference.PACKAGES, "plain", read(text, "packages"))
    words = ["add-list", LISTS[0].hex(), "packages", "plain", text.encode().hex()]
    told = [(f"limits\t{limits.stanzas}\t{limits.edits}", "new")]
    for growth in GROWTH:
        for _ in range(LONG_EDITS):
            gone, come = keys.after(edit, state)
            state = reference.step(state, limits, edit)
            told.append(("\t".join(words), "ok" + "".join(f" -{key}" for key in gone) + "".join(f" +{key}" for key in come) + first_text(edit)))
            edit, words = generate_change(source, state, names, growth)
        told.append((dump, state_words(state, keys, limits)))
    return told


def main():
    count = read_words(__doc__, SEQUENCES)
    told = generate_sequences(SEED, count, generate_sequence, generate_long_sequence)
    answers = probe("store", (line for line, _ in told))
    outcomes, wrong = compare(told, answers, lambda line, wanted: outcome_of(line, wanted, ("limits", "dump"), "foretold"))
    tell(outcomes, f"{count} sequences, {sum(outcomes.values())} edits, {wrong} answers are others", wrong)


if __name__ == "__main__":
    main()
