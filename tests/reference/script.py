"""A script: its commands with their bodies and their words."""

from control import LONGEST, is_blank, lines_of

BODIES = [b"add-list", b"put", b"prefs"]


class Command:
    """A command: its line, its name, and what is behind the name. `long_line` is the first line of it and its body that is too
    long, or nothing; `body` has the lines of the body, or is nothing where it has none; `is_ended` tells whether the line `.` came."""

    def __init__(self, line, name, rest):
        self.line = line
        self.name = name
        self.rest = rest
        self.long_line = None
        self.body = None
        self.is_ended = True

    def body_text(self):
        return b"".join(line + b"\n" for line in self.body)


def cut_name(line):
    """The name of a command, raw bytes up to the next blank, and what is behind it."""
    line = line.lstrip(b" \t")
    end = 0
    while end < len(line) and line[end] not in b" \t":
        end += 1
    return line[:end], line[end:]


def read_body(command, lines):
    """Takes the lines of a body off the front of the lines, and the line `.` that ends it."""
    command.body = []
    command.is_ended = False
    while lines and not command.is_ended:
        number, line = lines.pop()
        if line == b".":
            command.is_ended = True
        else:
            if len(line) > LONGEST and command.long_line is None:
                command.long_line = number
            command.body.append(line)


def commands_of(text):
    """The commands of a script, and how many lines it has."""
    lines = list(enumerate(lines_of(text), 1))
    count = len(lines)
    lines.reverse()
    commands = []
    while lines:
        number, line = lines.pop()
        if len(line) > LONGEST:
            commands.append(Command(number, b"", b""))
            commands[-1].long_line = number
        elif not is_blank(line) and not line.lstrip(b" \t").startswith(b"#"):
            commands.append(Command(number, *cut_name(line)))
            if commands[-1].name in BODIES:
                read_body(commands[-1], lines)
    return commands, count


def words_of(rest):
    """The words behind the name of a command, parted by blanks; nothing where a quote has no end. Between two quotes every byte belongs
    to the word, and pieces that touch are one word."""
    words = []
    word = None
    is_quoted = False
    for byte in rest:
        if byte == ord("'"):
            is_quoted = not is_quoted
            word = word if word is not None else bytearray()
        elif byte in b" \t" and not is_quoted:
            if word is not None:
                words.append(bytes(word))
            word = None
        else:
            word = word if word is not None else bytearray()
            word.append(byte)
    if word is not None:
        words.append(bytes(word))
    return None if is_quoted else words
