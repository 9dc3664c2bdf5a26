"""try_reference.py [COUNT [SEED [STANZAS]]]: uploads and removals on lists, by dctrl-cache-try and by a reference of plain scripts.

The reference edits the texts of the lists and runs the program on them, once before all changes and once after each; what is unmet then and
wasn't before is the answer. Without a folder in LISTS the lists are those of apt on this machine; with STANZAS that many of each, taken at
random."""

import os
import random
import re
import subprocess
import sys
import tempfile
import time

sys.path.insert(0, os.path.dirname(os.path.abspath(__file__)))
from commands_support import PROGRAM, TRY_COMMAND, environment  # noqa: E402

LISTS = os.environ.get("LISTS", "/var/lib/apt/lists")


def older(first, second):
    """Whether a version is older than another, by dpkg."""
    return subprocess.run(["dpkg", "--compare-versions", first, "lt", second], check=False).returncode == 0


def field(stanza, name):
    found = re.search("^%s:[ \t]*(.*)$" % name, stanza, re.M)
    return found.group(1).strip() if found else ""


def source(stanza):
    return re.sub(r"\s*\(.*", "", field(stanza, "Source")) or field(stanza, "Package")


class Lists:
    """Texts of lists, by their names."""

    def __init__(self, texts):
        self.stanzas = {name: [part for part in text.split("\n\n") if part.strip()] for name, text in texts.items()}

    def unmet(self, folder, changed=None):
        """The rows of `unmet` of the program, run anew on the lists, of which one may be another."""
        words = [PROGRAM]
        for name, stanzas in {**self.stanzas, **(changed or {})}.items():
            path = os.path.join(folder, name)
            with open(path, "w", encoding="utf-8", errors="surrogateescape") as file:
                file.write("\n\n".join(stanza.strip("\n") for stanza in stanzas) + "\n")
            words += ["-l", "%s=%s" % (name, path)]
        answer = subprocess.run(words, input=b"unmet\n", stdout=subprocess.PIPE, check=True).stdout.decode("utf-8", "surrogateescape")
        rows, head = [], ""
        for line in answer.split("\n"):
            head = line if line.startswith("Package ") else head
            if line.startswith(" "):
                rows.append((head, line))
        return rows

    def removed(self, name, word):
        """The stanzas of a list without those of a source, or of a package where there is no such source."""
        is_source = any(source(stanza) == word for stanza in self.stanzas[name])
        return [stanza for stanza in self.stanzas[name] if (source(stanza) if is_source else field(stanza, "Package")) != word]

    def uploaded(self, name, new):
        """The stanzas of a list with another one, and without the older ones and the equal ones of its package."""
        package, version = field(new, "Package"), field(new, "Version")
        return [stanza for stanza in self.stanzas[name]
                if field(stanza, "Package") != package or older(version, field(stanza, "Version"))] + [new]


def printed(rows):
    """Rows in the layout of `unmet`."""
    lines, head = [], ""
    for start, line in rows:
        if start != head:
            lines.append(start)
            head = start
        lines.append(line)
    return "".join(line + "\n" for line in lines)


def changes(lists, luck, count):
    """Uploads and removals at random: pairs of words of dctrl-cache-try and the stanzas of the list after it."""
    for _ in range(count):
        name = luck.choice(sorted(lists.stanzas))
        stanza = luck.choice(lists.stanzas[name])
        if luck.random() < 0.5:
            word = luck.choice([source(stanza), field(stanza, "Package")])
            yield ["remove", name, word], {name: lists.removed(name, word)}, None
            continue
        version = field(stanza, "Version")
        other = luck.choice([version + "+new1", version, version + "~old", "1:9999" + version.split(":")[-1]])
        new = re.sub("(?m)^Version:.*$", "Version: " + other, stanza)
        if luck.random() < 0.6:
            new = re.sub("(?m)^Provides:.*\n?", "", new)
        if luck.random() < 0.5:
            new = re.sub("(?m)^Depends:(.*)$", lambda found: "Depends:%s, no-such-package (>= 1)" % found.group(1), new)
        yield ["upload", name], {name: lists.uploaded(name, new)}, new


def compare(lists, luck, count, folder, say):
    """How many changes there were that both judge alike, and how many left something unmet. AssertionError for the first other one."""
    before = lists.unmet(folder)
    base = os.path.join(folder, "base")
    os.mkdir(base)
    lists.unmet(base)
    files = [word for name in lists.stanzas for word in ("-l", "%s=%s" % (name, os.path.join(base, name)))]
    telling = 0
    for number, (words, changed, new) in enumerate(changes(lists, luck, count), 1):
        after = lists.unmet(folder, changed)
        known, later = set(before), set(after)
        wanted = printed([row for row in after if row not in known])
        gone = printed([row for row in before if row not in later])
        if new is not None:
            path = os.path.join(folder, "control")
            with open(path, "w", encoding="utf-8", errors="surrogateescape") as file:
                file.write(new.strip("\n") + "\n")
            words = [*words, path]
        both = re.sub("(?m)^", "+", wanted).removesuffix("+") + re.sub("(?m)^", "-", gone).removesuffix("-")
        got = subprocess.run([TRY_COMMAND, *files, "--all", *words], stdout=subprocess.PIPE, stderr=subprocess.PIPE, env=environment(),
                             check=False)
        answer = got.stdout.decode("utf-8", "surrogateescape")
        assert (got.returncode, answer) == (1 if wanted else 0, both), (words, got.returncode, answer[:2000], both[:2000], got.stderr)
        telling += bool(wanted)
        say("%d: %s: %d rows more, %d less" % (number, " ".join(words[:3]), len(later - known), len(known - later)))
    return telling


def lists_of_apt(folder):
    """The texts of the lists of packages in a folder, by short names."""
    found = {}
    for number, name in enumerate(sorted(os.listdir(folder))):
        path = os.path.join(folder, name)
        if "_Packages" in name:
            words = ["/usr/lib/apt/apt-helper", "cat-file", path] if not name.endswith("_Packages") else ["cat", path]
            text = subprocess.run(words, stdout=subprocess.PIPE, check=True).stdout
            found["list%d" % number] = text.decode("utf-8", "surrogateescape")
    return found


def some_of(texts, luck, count):
    """Some stanzas of each list, in their order."""
    found = {}
    for name, text in texts.items():
        stanzas = [part for part in text.split("\n\n") if part.strip()]
        places = range(len(stanzas)) if len(stanzas) < count else sorted(luck.sample(range(len(stanzas)), count))
        found[name] = "\n\n".join(stanzas[place] for place in places)
    return found


def main(words):
    count, seed, most = [int(word) for word in words] + [200, 1, 10**9][len(words):]
    start, luck = time.monotonic(), random.Random(seed)
    texts = some_of(lists_of_apt(LISTS), luck, most)
    with tempfile.TemporaryDirectory() as folder:
        telling = compare(Lists(texts), luck, count, folder, lambda text: print(text, flush=True))
    print("%d changes agree, %d of them leave something unmet, in %.0f s" % (count, telling, time.monotonic() - start))


if __name__ == "__main__":
    main(sys.argv[1:])
