"""Many edits of one list, which comes to hundreds of stanzas and goes down to few, in rising, falling and no order."""

import random

COUNT = 700
SEED = 20261122


class Script:
    """A script of edits of a list, and what it is to print."""

    def __init__(self):
        self.lines = [b"add-list main packages\n.\n"]
        self.names = set()
        self.answers = []

    def put(self, names):
        for name in names:
            self.lines.append(b"put main\nPackage: %s\nVersion: 1\n.\n" % name)
            self.names.add(name)

    def remove(self, names):
        for name in names:
            self.lines.append(b"remove main %s 1\n" % name)
            self.names.remove(name)

    def ask(self):
        self.lines.append(b"pkgnames\n")
        self.answers += [name + b"\n" for name in sorted(self.names)]


def orders():
    """Names in rising, in falling and in no order."""
    names = [b"package-%04d" % number for number in range(COUNT)]
    mixed = names[:]
    random.Random(SEED).shuffle(mixed)
    return [("rising", names), ("falling", names[::-1]), ("in no order", mixed)]


def test_edits(tests):
    for what, names in orders():
        script = Script()
        script.put(names)
        script.ask()
        script.remove(names[::2])
        script.ask()
        script.put(names)
        script.ask()
        script.remove(names[5:])
        script.ask()
        script.remove(names[:5])
        script.ask()
        script.put(names[:3])
        script.ask()
        tests.same("many edits of names " + what, tests.run([], b"".join(script.lines)), (0, b"".join(script.answers), b""))
