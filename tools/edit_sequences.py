"""Sequences of edits, for the reference program and for the probe.

An edit is made twice over: as the reference program takes it, and as the words of a line for the probe."""

import pathlib
import random
import subprocess
import sys

import reference

PROBE = pathlib.Path(__file__).resolve().parent.parent / "crates/probe/out/probe"

# How many names a long sequence has.
LONG_NAMES = 300

# How a long sequence goes on: how likely an edit is a put, in each part of it.
GROWTH = [1.0, 1.0, 0.5, 0.5] + [0.02] * 6 + [0.9, 0.5]

LISTS = [b"main", b"extra", b"back", b"dpkg", b"main2"]
# Short names stand in one table and those of more than 31 bytes in another.
PACKAGES = [b"a", b"b", b"ab", b"libc6", b"n" * 31, b"n" * 31 + b"-x"]
# The first six are equal, and so are the last three. A bound is kept beside its atom where its version has at most 12 bytes, and one
# of these has 12 and one 13.
VERSIONS = [b"1.0", b"1.0-0", b"0:1.0", b"1.00", b"1.0-00", b"00:1.0-0", b"2", b"1.0~rc1", b"1:0.5", b"10.0"]
VERSIONS += [b"1.0-1", b"1.0-00000001", b"1.0-000000001"]
PIN_VERSIONS = VERSIONS + [b"1.*", b"*", b"1.0*", b"2:*"]
STATES = ["installed", "unpacked", "half-configured", "not-installed", "config-files", "half-installed"]
PRIORITIES = [-32768, -1, 1, 99, 500, 990, 1000, 32767]
CLASSES = ["plain", "plain", "notauto", "butauto"]
COMMON = ["put"] * 7 + ["remove"] * 5 + ["add-list"] * 3 + ["mark"] * 2 + ["unmark"] * 2 + ["pin"] * 3 + ["unpin"] * 2
EDITS = COMMON + ["drop-list", "target", "prefs"]


def head_lines(source, kind):
    """The lines by which a stanza is found. One of a status list that is not live may have no version."""
    state = source.choice(STATES)
    lines = ["Package: " + source.choice(PACKAGES).decode()]
    if kind == "packages" or state not in STATES[3:] or source.random() < 0.5:
        lines.append("Version: " + source.choice(VERSIONS).decode())
    if kind == "status":
        lines.append("Status: install ok " + state)
    return lines


def generate_stanza(source, kind):
    """A stanza."""
    lines = head_lines(source, kind)
    if source.random() < 0.3:
        lines.append("Depends: b (>= 1) | ab")
    lines.append(f"Note: {source.randrange(1000)}")
    source.shuffle(lines)
    return "\n".join(lines) + "\n"


def generate_selector(source):
    """A selector of one of the three kinds."""
    way = source.randrange(3)
    if way == 0:
        return ("version", source.choice(PACKAGES), source.choice(PIN_VERSIONS))
    return ("release", source.choice(PACKAGES) if way == 1 else None, source.choice(LISTS))


def generate_settings(source):
    """Pin settings, each of a selector of its own."""
    settings = {generate_selector(source): source.choice(PRIORITIES) for _ in range(source.randrange(6))}
    return list(settings.items())


def read(text, kind):
    return reference.read_stanzas(text.encode(), 1, reference.PACKAGES if kind == "packages" else reference.STATUS)


def choose_list(source, state):
    """The name of a list, most often of one that is there."""
    if state.lists and source.random() < 0.85:
        return source.choice(state.lists).name
    return source.choice(LISTS)


def generate_remove(source, state):
    """A stanza that goes; most often one is there, at times under another version that is equal."""
    name = choose_list(source, state)
    package = source.choice(PACKAGES)
    version = reference.Version(source.choice(VERSIONS))
    entry = state.find(name)
    if entry is not None and entry.stanzas and source.random() < 0.6:
        stanza = source.choice(entry.stanzas)
        package = stanza.package
        if stanza.version is not None and not (stanza.version.equals(reference.Version(VERSIONS[0])) and version.text in VERSIONS[:6]):
            version = stanza.version
    return ("remove", name, package, version), ["remove", name.hex(), package.hex(), version.text.hex()]


def generate_list(source, stanza):
    """A new list, as an edit and as its line."""
    kind = source.choice(["packages", "packages", "status"])
    name = source.choice(LISTS)
    label = source.choice(CLASSES) if kind == "packages" else "plain"
    text = "\n".join(stanza(source, kind) for _ in range(source.randrange(6)))
    kind_of_list = reference.PACKAGES if kind == "packages" else reference.STATUS
    edit = ("add-list", name, kind_of_list, label, read(text, kind))
    return edit, ["add-list", name.hex(), kind, label, text.encode().hex()]


def generate_put(source, state, stanza):
    """A stanza for a list, of the kind of that list where it is there."""
    name = choose_list(source, state)
    entry = state.find(name)
    kind = "packages" if entry is None or entry.kind == reference.PACKAGES else "status"
    text = stanza(source, kind)
    return ("put", name, read(text, kind)[0]), ["put", name.hex(), kind, text.encode().hex()]


def selector_words(selector):
    form, package, value = selector
    return [form, "-" if package is None else package.hex(), value.hex()]


def generate_pin(source, state, what):
    """A pin setting that comes or goes; most often one that is there goes."""
    selector = generate_selector(source)
    if state.pins and source.random() < 0.5:
        selector = source.choice(state.pins)[0]
    if what == "unpin":
        return ("unpin", selector), ["unpin", *selector_words(selector)]
    priority = source.choice(PRIORITIES)
    return ("pin", selector, priority), ["pin", *selector_words(selector), str(priority)]


def generate_edit(source, state, stanza=generate_stanza):
    """An edit for the reference program, and the words of its line for the probe. Its stanzas are made by `stanza`."""
    what = source.choice(EDITS)
    name = choose_list(source, state)
    package = source.choice(PACKAGES)
    version = reference.Version(source.choice(VERSIONS))
    if what == "add-list":
        return generate_list(source, stanza)
    if what == "put":
        return generate_put(source, state, stanza)
    if what == "drop-list":
        return ("drop-list", name), ["drop-list", name.hex()]
    if what == "remove":
        return generate_remove(source, state)
    if what == "mark":
        mark = None if source.random() < 0.3 else version
        return ("mark", package, mark), ["mark", package.hex(), "-" if mark is None else version.text.hex()]
    if what == "unmark":
        return ("unmark", package), ["unmark", package.hex()]
    if what == "target":
        target = None if source.random() < 0.3 else name
        return ("target", target), ["target", "-" if target is None else name.hex()]
    if what == "prefs":
        settings = generate_settings(source)
        words = [word for selector, priority in settings for word in [*selector_words(selector), str(priority)]]
        return ("prefs", settings), ["prefs", *words]
    return generate_pin(source, state, what)


class Keys:
    """The keys of the stanzas of each list, by name."""

    def __init__(self):
        self.lists = {}
        self.next_list = 0

    def after(self, edit, state):
        """Makes an edit that is accepted in this state, and gives the keys that go and those that come."""
        if edit[0] == "add-list":
            self.lists[edit[1]] = (self.next_list, list(range(len(edit[4]))), len(edit[4]))
            self.next_list += 1
            return [], self.of(edit[1])
        if edit[0] == "drop-list":
            gone = self.of(edit[1])
            del self.lists[edit[1]]
            return gone, []
        if edit[0] in ("put", "remove"):
            return self.at_place(edit, state)
        return [], []

    def at_place(self, edit, state):
        """A put or a remove."""
        entry = state.find(edit[1])
        serial, rows, following = self.lists[edit[1]]
        place = reference.place_of_edit(entry, edit)
        if place is None:
            rows.append(following)
            self.lists[edit[1]] = (serial, rows, following + 1)
            return [], [f"{serial}.{following}"]
        key = f"{serial}.{rows[place]}"
        if edit[0] == "put":
            return [key], [key]
        del rows[place]
        return [key], []

    def of(self, name):
        serial, rows, _ = self.lists[name]
        return [f"{serial}.{row}" for row in rows]


def named_stanza(source, names):
    """A stanza of one of these names, of one of two versions."""
    return f"Package: {source.choice(names)}\nVersion: {source.choice(['1', '2'])}\nNote: {source.randrange(1000)}\n"


def generate_change(source, state, names, growth, stanza=named_stanza):
    """A stanza that is put into the first list, or one of it that is removed. It is made by `stanza`, of one of these names."""
    entry = state.lists[0]
    if not entry.stanzas or source.random() < growth:
        text = stanza(source, names)
        return ("put", entry.name, read(text, "packages")[0]), ["put", entry.name.hex(), "packages", text.encode().hex()]
    gone = source.choice(entry.stanzas)
    return (
        ("remove", entry.name, gone.package, gone.version),
        ["remove", entry.name.hex(), gone.package.hex(), gone.version.text.hex()],
    )


def probe(subject, lines):
    """What the built program crates/probe prints for lines of a subject."""
    if not PROBE.exists():
        raise SystemExit(f"{PROBE} is missing: build it with `rt run` in crates/probe")
    done = subprocess.run([PROBE, subject], input="".join(f"{line}\n" for line in lines).encode(), stdout=subprocess.PIPE, check=True)
    return done.stdout.decode().split("\n")[:-1]


def read_words(usage, sequences):
    """How many sequences are asked for, by the word of a command, if it isn't this number."""
    if len(sys.argv) > 2:
        raise SystemExit(usage)
    return int(sys.argv[1]) if len(sys.argv) == 2 else sequences


def generate_sequences(seed, count, generate, generate_long):
    """The lines of some sequences, each with what is to be printed for it. Each twentieth sequence is a long one."""
    source = random.Random(seed)
    told = []
    for number in range(count):
        told += (generate_long if number % 20 == 19 else generate)(source)
    return told


def outcome_of(line, wanted, looks, refused):
    """The name of an edit, with the number of its refusal or `ok`; nothing for a look at the state. An answer that begins with
    `refused` is a refusal."""
    word = line.split("\t")[0]
    if word in looks:
        return None
    return word, wanted.split(" ")[1] if wanted.startswith(refused) else "ok"
