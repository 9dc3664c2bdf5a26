"""The words of grep-dctrl(1) as those of the program's `grep-dctrl`: long spellings, `-S`, `-w`, `-e` and `-r`. What has no equal there
raises Advice, which says what to type."""

from dataclasses import dataclass, field

from .posix_patterns import Untold, translated

# Long spellings of options without a value, and those with one.
_LONG = {"ignore-case": "i", "exact-match": "X", "eregex": "e", "regex": "r", "whole-pkg": "w", "no-field-names": "n", "invert-match": "v",
         "count": "c", "and": "a", "or": "o", "not": "!", "invert-show": "I", "quiet": "q", "silent": "q", "files-with-matches": "l",
         "files-without-matches": "L", "copying": "C", "help": "?", "usage": "?", "version": "V"}
_LONG_WITH_VALUE = {"field": "F", "show-field": "s", "pattern": "pattern"}
_MODES = ("--rx", "--eq", "--lt", "--le", "--gt", "--ge")
_LEFT_OUT = ("--mmap", "--ignore-parse-errors", "--ensure-dctrl", "--compat", "--debug-optparse")
_ADVICE = {
    "I": "-I: type -s and the fields that are to be shown",
    "q": "-q: type -c, which prints how many stanzas there are, and look whether that is 0",
    "l": "-l: all lists are searched at once; type --only LIST before grep-dctrl to search one",
    "L": "-L: all lists are searched at once; type --only LIST before grep-dctrl to search one",
    "C": "-C: type grep-dctrl --copying without dctrl-cache-apt",
    "?": "type man dctrl-cache for the words of grep-dctrl",
    "V": "type dctrl-cache-apt --version",
}


class Advice(ValueError):
    """Words that have no equal: the text says what to type."""


@dataclass
class _Atom:
    """What stands before a pattern: fields, whether case counts, and how the pattern is meant."""

    fields: list[str] = field(default_factory=list)
    ignores_case: bool = False
    modes: list[str] = field(default_factory=list)

    def is_empty(self) -> bool:
        return not (self.fields or self.ignores_case or self.modes)

    def words(self) -> list[str]:
        """The words of what stands before no pattern; the program says what is wrong."""
        said = [word for name in self.fields for word in ("-F", name)]
        return said + (["-i"] if self.ignores_case else []) + [mode for mode in self.modes if mode.startswith("-")]


def _pattern_word(pattern: str) -> str:
    """A pattern as one word."""
    return "--pattern=" + pattern if pattern.startswith("-") or pattern in ("", "!", "(", ")") else pattern


def _expression(pattern: str, mode: str, has_field: bool) -> str:
    """The pattern of `--rx` that means what a pattern of `-e`, `-r` or `-w` does.

    Without a field the text is that of the stanza, with a newline at its end that grep-dctrl doesn't see."""
    try:
        made = translated(pattern, mode != "r")
    except Untold as untold:
        raise Advice("-%s %s: %s; type --rx and an expression in Rust's syntax" % (mode, pattern, untold)) from None
    if not has_field and made.inner_anchors:
        raise Advice("-%s %s: $ stands behind the last newline where no field is named; type -F FIELD" % (mode, pattern))
    text, end = made.text, "$" if has_field else "\\n$"
    if mode == "w":
        # As grep-dctrl has it, the alternatives of the pattern are those of the whole.
        behind = end if made.ends_anchored else "([ ,(\\\\]|%s)" % end
        return "(?s)(^| )%s%s" % (text, behind)
    if made.ends_anchored:
        return "(?s)%s%s" % (text, end)
    if not has_field and made.takes_newline:
        return "(?s)(?:%s).*\\n$" % text
    return "(?s)" + text if made.takes_newline else text


class _Rewriter:
    """Goes through the words of grep-dctrl and makes those of the program."""

    def __init__(self, words: list[str]) -> None:
        self.rest = list(words)
        self.made: list[str] = []
        self.atom = _Atom()

    def run(self) -> list[str]:
        while self.rest:
            self.take(self.rest.pop(0))
        self.made += self.atom.words()
        return self.made

    def take(self, word: str) -> None:
        if word in ("!", "(", ")"):
            self.sign(word)
        elif word.startswith("--") and len(word) > 2:
            self.long(word)
        elif word.startswith("-") and len(word) > 1:
            self.letters(word[1:])
        else:
            self.pattern(word)

    def value(self, option: str) -> str:
        if not self.rest:
            raise Advice("%s: it has no value" % option)
        return self.rest.pop(0)

    def long(self, word: str) -> None:
        name, equals, value = word[2:].partition("=")
        if word in _MODES:
            self.atom.modes.append(word)
        elif name in _LONG_WITH_VALUE:
            value = value if equals else self.value("--" + name)
            letter = _LONG_WITH_VALUE[name]
            if letter == "pattern":
                self.pattern(value)
            else:
                self.with_value(letter, value)
        elif name in _LONG and not equals:
            self.letter(_LONG[name])
        elif word in _LEFT_OUT:
            raise Advice("%s: leave it out" % word)
        else:
            raise Advice("%s: there is no such option; man dctrl-cache has those of grep-dctrl" % word)

    def letters(self, letters: str) -> None:
        """Letters that stand together; what is behind F or s is its value."""
        for place, letter in enumerate(letters):
            if letter in "Fs":
                value = letters[place + 1:]
                self.with_value(letter, value if value else self.value("-" + letter))
                return
            self.letter(letter)

    def with_value(self, letter: str, value: str) -> None:
        if letter == "F":
            self.atom.fields += value.split(",")
        else:
            self.made += ["-s", value]

    def letter(self, letter: str) -> None:
        if letter in "vcnd":
            self.made.append("-" + letter)
        elif letter in "ao!":
            self.sign("!" if letter == "!" else "-" + letter)
        elif letter == "P":
            self.atom.fields.append("Package")
        elif letter == "S":
            self.atom.fields.append("Source:Package")
        elif letter == "i":
            self.atom.ignores_case = True
        elif letter in "Xerw":
            self.atom.modes.append("-X" if letter == "X" else letter)
        elif letter in _ADVICE:
            raise Advice(_ADVICE[letter])
        else:
            raise Advice("-%s: there is no such option; man dctrl-cache has those of grep-dctrl" % letter)

    def sign(self, word: str) -> None:
        """A sign of expressions. What stands before it without a pattern goes on as it is, to be refused."""
        self.made += [*self.atom.words(), word]
        self.atom = _Atom()

    def pattern(self, pattern: str) -> None:
        atom, self.atom = self.atom, _Atom()
        pairs = [name.partition(":") for name in atom.fields if ":" in name and not name.startswith(":") and not name.endswith(":")]
        single = [name for name in atom.fields if name not in ["".join(pair) for pair in pairs]]
        if not pairs:
            self.made += self.simple(single, atom, pattern)
            return
        choices = [self.simple(single, atom, pattern)] if single else []
        for first, _, second in pairs:
            choices.append(self.simple([first], atom, pattern))
            choices.append(["!", "-F", first, "--pattern=", "-a", *self.simple([second], atom, pattern)])
        self.made.append("(")
        for number, choice in enumerate(choices):
            self.made += (["-o"] if number else []) + choice
        self.made.append(")")

    def simple(self, fields: list[str], atom: _Atom, pattern: str) -> list[str]:
        """An atom of the program."""
        said = ["-F", ",".join(fields)] if fields else []
        said += ["-i"] if atom.ignores_case else []
        said += [mode for mode in atom.modes if mode.startswith("-")]
        for mode in atom.modes:
            if not mode.startswith("-"):
                said.append("--rx")
                pattern = _expression(pattern, mode, bool(fields))
        return [*said, _pattern_word(pattern)]


def program_words(words: list[str]) -> list[str]:
    """The words of the program's `grep-dctrl`, for those of grep-dctrl(1) and for its own."""
    return _Rewriter(words).run()
