"""The examples of the manual and of the differences from other programs, two indented blocks with the word `prints` between
them; the manual page, and whether both say what the program does."""

import itertools
import os
import re
import shutil
import subprocess

TOP = os.path.join(os.path.dirname(os.path.abspath(__file__)), "..", "..")
MANUAL = os.path.join(TOP, "docs", "MANUAL.md")
DIFFERENCES = [os.path.join(TOP, "docs", "differences", name) for name in ("APT-CACHE.md", "GREP-DCTRL.md", "RELATIONS.md")]
PAGE = os.path.join(TOP, "man", "dctrl-cache.1")
APT_PAGE = os.path.join(TOP, "man", "dctrl-cache-apt.1")
TRY_PAGE = os.path.join(TOP, "man", "dctrl-cache-try.1")
INDENT = "    "


def blocks(text):
    """The parts of a text, in order: indented blocks, and the lines between them. Whether each is a block, and its lines.
    A blank line between two indented ones belongs to the block."""
    parts = []
    for line in text.split("\n"):
        is_block = line.startswith(INDENT) or (line == "" and bool(parts) and parts[-1][0])
        if not parts or parts[-1][0] != is_block:
            parts.append((is_block, []))
        parts[-1][1].append(line[len(INDENT):] if is_block else line)
    return parts


def block_text(lines):
    """The bytes of a block, without the blank lines behind it."""
    return ("\n".join(lines).rstrip("\n") + "\n").encode()


def examples(text):
    """The pairs of a script and what it prints."""
    parts = blocks(text)
    for before, between, behind in zip(parts, parts[1:], parts[2:]):
        if before[0] and behind[0] and [line for line in between[1] if line] == ["prints"]:
            yield block_text(before[1]), block_text(behind[1])


def contents(path):
    with open(path, encoding="utf-8") as file:
        return file.read()


def without_fonts(text):
    """A line of the manual page without its fonts and escapes."""
    text = re.sub(r"\\f(\[[^]]*\]|[PIRB])", "", text)
    for escape, sign in ((r"\(aq", "'"), (r"\~", " "), (r"\&", ""), (r"\-", "-"), (r"\e", "\\")):
        text = text.replace(escape, sign)
    return text


def words_of_request(line):
    """The words of a request of the manual page, as `.BI pin " PKG"`. Requests of two fonts join their words."""
    request, _, rest = line.partition(" ")
    words = [quoted or plain for quoted, plain in re.findall(r'"([^"]*)"|([^ "]+)', rest)]
    return without_fonts(("" if request in (".BI", ".BR", ".RB", ".RI", ".IB", ".IR") else " ").join(words))


def section(text, heading):
    """The lines of a section of the manual page."""
    return re.split(r'^\.SH "?%s"?\n' % heading, text, flags=re.M)[1].split("\n.SH ")[0].split("\n")


def tags(lines):
    """The tags of the lists of a section of the manual page."""
    return [words_of_request(line) for before, line in zip(lines, lines[1:]) if before in (".TP", ".TQ")]


def page_commands(page):
    """The forms of the commands in the manual page."""
    return tags(section(page, "COMMANDS"))


def manual_commands(text):
    """The forms of the commands in the manual."""
    return re.findall(r"^- `([^`]*)`$", text, re.M)


def differences(text, page):
    """The forms that stand in one of the manual and the page alone, or twice in one."""
    ours, theirs = sorted(manual_commands(text)), sorted(page_commands(page))
    return sorted(set(ours) ^ set(theirs)) + [form for forms in (ours, theirs) for form in sorted(set(forms)) if forms.count(form) > 1]


PLACES = {"NAME": "main", "PKG": "foo", "VERSION": "1", "LIST": "main", "V": "1*", "P": "990", "PREFIX": "fo"}


def choices(word):
    """What may stand for a word of a form: for `[A|B]` nothing or one of them, for `PKG[=VERSION]` it with and without."""
    word = word.removesuffix("...")
    if word.startswith("["):
        return [""] + [choice for part in word[1:-1].split("|") for choice in choices(part)]
    name, _, behind = word.partition("[")
    plain = PLACES.get(name, name)
    return [plain, plain + behind[0] + PLACES[behind[1:-1]]] if behind else [plain]


def instances(form):
    """Scripts that call a command by its form, with each of its optional words and without."""
    return [" ".join(word for word in words if word) for words in itertools.product(*map(choices, form.split(" ")))]


def wrong_words(form):
    """Words that are too many for a form; behind one that takes any number of names or an expression, an option that it hasn't."""
    return " -x" if form.endswith(("...", "...]", "EXPRESSION")) else " x y z"


def test_commands(tests):
    """The manual and its page have the same commands, a missing one is seen, and the program takes each in its form alone."""
    page, text = contents(PAGE), contents(MANUAL)
    forms = manual_commands(text)
    tests.same("the commands of the manual and of its page", (differences(text, page), "pkgnames [--all-names] [PREFIX]" in forms), ([], True))
    for form in forms:
        tests.same("the manual without %s" % form, differences(text.replace("- `%s`\n" % form, ""), page), [form])
        for call in instances(form):
            for words, wanted in ((call, False), (call + wrong_words(form), True)):
                answer = tests.run([], words.encode() + b"\n.\n")[1]
                got = b"E: line 1: unknown command" in answer, b"E: line 1: bad arguments" in answer
                tests.same("the words %s" % words, got, (False, wanted))
    names = {form.split()[0] for form in forms}
    for name in ("pkgname", "PKGNAMES", "add", "list"):
        tests.same("%s is no command" % name, (name in names, tests.run([], name.encode())[1]), (False, b"E: line 1: unknown command\n"))


def test_synopsis(tests):
    """The program, the manual and its page call the program by the same words."""
    told = re.findall(rb"^Usage: (.*)$", tests.run(["--help"])[2], re.M)
    ours = re.findall(r"^`(dctrl-cache .*)`$", contents(MANUAL), re.M)
    synopsis = section(contents(PAGE), "SYNOPSIS")
    words = " ".join(words_of_request(line).strip() for line in synopsis[:synopsis.index(".br")])
    tests.same("the words in the manual and its page", ([it.encode() for it in ours], [words.encode()]), (told, told))


def test_refusals(tests):
    """The page has each refusal of the program, and no other. The examples of the manual meet all but those for want of room."""
    page, text = contents(PAGE), contents(MANUAL)
    source = contents(os.path.join(TOP, "crates", "ctl_store", "src", "refusal.rt"))
    known = set(re.findall(r'=> "([^"]*)"', source))
    told = {words for tag in tags(section(page, "REFUSALS")) for words in tag.split(", ")}
    tests.same("the refusals of the manual page", sorted(told ^ known), [])
    met = set(re.findall(r"^    E: line [0-9]+: (.*)$", text, re.M))
    tests.same("the refusals that the manual shows", sorted(known - met), ["cache full", "line too long", "out of memory"])


def rendered(page):
    """The manual page as a reader sees it, or nothing where no program for it is there, and what such a program complains of."""
    if shutil.which("mandoc"):
        wrong = subprocess.run(["mandoc", "-T", "lint", page], stdout=subprocess.PIPE, stderr=subprocess.STDOUT).stdout
        return subprocess.run(["mandoc", "-T", "ascii", page], stdout=subprocess.PIPE).stdout, wrong
    if shutil.which("groff"):
        done = subprocess.run(["groff", "-man", "-Tascii", "-ww", page], stdout=subprocess.PIPE, stderr=subprocess.PIPE)
        return done.stdout, done.stderr
    return None, b""


def words_of_page(tests, page):
    """The words of a page as a reader sees it, which has to render without a complaint; nothing where no program for that is there."""
    seen, wrong = rendered(page)
    if seen is None:
        tests.skip("the rendering of %s" % os.path.basename(page), "neither mandoc nor groff is installed")
        return None
    tests.same("complaints of %s" % os.path.basename(page), wrong, b"")
    # Bold and underlined letters are overprinted, or have escapes.
    words = b" ".join(re.sub(rb"\x1b\[[0-9;]*m|.\x08", b"", seen).split())
    tests.same("dots that meet in %s" % os.path.basename(page), b" .. " in words, False)
    return words


def test_pages(tests):
    """The manual pages render without a complaint, and read as they should."""
    for page, texts in (
        (PAGE, (b"a single dot", b"dctrl-cache [-l NAME=FILE]... [--status FILE] [SCRIPT]", b"pin * release LIST P", b"/usr/lib/apt/apt-helper cat-file")),
        (APT_PAGE, (b"dctrl-cache-apt [OPTION]... COMMAND [WORD]...", b"dctrl-cache-apt [OPTION]... < SCRIPT", b"--lists Prints the lists")),
        (TRY_PAGE, (b"dctrl-cache-try [OPTION]... upload LIST FILE...", b"dctrl-cache-try [OPTION]... remove LIST NAME...")),
    ):
        words = words_of_page(tests, page)
        for wanted in texts if words is not None else ():
            tests.same("%r in %s" % (wanted, os.path.basename(page)), wanted in words, True)


def test_examples_of(tests, what, text):
    found = list(examples(text))
    tests.same("the examples of %s" % what, (len(found), len(found) > 0), (text.count("\nprints\n"), True))
    for number, (script, wanted) in enumerate(found, 1):
        status = 1 if b"E: line " in wanted else 0
        tests.same("example %d of %s" % (number, what), tests.run([], script), (status, wanted, b""))


def test_manual(tests):
    test_examples_of(tests, "the manual", contents(MANUAL))
    for page in DIFFERENCES:
        test_examples_of(tests, os.path.basename(page), contents(page))
    test_synopsis(tests)
    test_commands(tests)
    test_refusals(tests)
    test_pages(tests)
