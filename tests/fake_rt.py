#!/usr/bin/env python3
"""A stand-in for the kit's `rt`, so that tests of the tools need no proof: it knows functions of numbers alone.

A function is a contract `ensures { result ≡ N }` and a body of one line, a number or a call of a function without arguments. It is
proved where the body comes to N by the contracts of the functions that it calls, of this crate or of those that `crates.txt` names for
it; a private function may have no contract. A word that is no function doesn't compile. Each check is noted in the file that FAKE_LOG
names: the crate, and the functions that it was asked for. A check waits for FAKE_SECONDS."""

import os
import re
import sys
import time

FUNCTION = re.compile(r"(?m)^(?:pub )?fn (\w+)\(\) -> u32(?:\n    ensures \{ result ≡ (\d+) \})?\n?\s*\{\n(?:    //.*\n)*    (.*)\n\}")


def functions(name):
    """The functions of a crate: the number of the contract, and the body."""
    with open(f"../{name}/src/lib.rt", encoding="utf-8") as file:
        return {it[1]: (it[2], it[3]) for it in FUNCTION.finditer(file.read())}


def below(name):
    with open("../../crates.txt", encoding="utf-8") as file:
        listed = dict(line.strip().partition(":")[::2] for line in file)
    return listed[name].split()


def check(name, only):
    own = functions(name)
    known = {function: number for crate in below(name) for function, (number, _) in functions(crate).items()}
    known.update((function, number) for function, (number, _) in own.items())
    for wanted in only:
        if wanted not in own:
            print(f"rattle: error: `{name}` has no function `{wanted}`: help: write the name that a check prints")
            return 2
    proved = {}
    for function, (number, body) in own.items():
        call = re.fullmatch(r"(\w+)\(\)", body)
        if not body.isdigit() and (not call or call[1] not in known):
            print(f"src/lib.rt:1:1: error[unknown-name]: cannot find value `{body}` in this scope")
            return 1
        value = known[call[1]] if call else body
        proved[function] = number is None or value == number
    asked = {it: proved[it] for it in only} or proved
    for function, is_proved in asked.items():
        print(f"fn {name}::{function}: {'proved' if is_proved else 'not proved'}")
    is_whole = all(asked.values())
    verdict = f"logic={'proved' if is_whole else 'not-proved'} functions={len(own)}"
    print(f"only={len(only)} proved={sum(asked.values())}" if only else verdict)
    return 0 if is_whole else 1


def main(words):
    if words == ["version"]:
        print(os.environ.get("FAKE_KIT", "fake kit 1"))
        return 0
    name = os.path.basename(os.getcwd())
    only = [word for flag, word in zip(words, words[1:]) if flag == "--only"]
    if words[0] == "check":
        with open(os.environ["FAKE_LOG"], "a", encoding="utf-8") as log:
            log.write(" ".join([name, *only]) + "\n")
        time.sleep(float(os.environ.get("FAKE_SECONDS", "0")))
        os.makedirs("out/incremental", exist_ok=True)
        return check(name, only)
    return 0


if __name__ == "__main__":
    sys.exit(main(sys.argv[1:]))
