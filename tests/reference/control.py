"""Control text: lines, stanzas and fields by chapter 5 of Debian Policy and deb822(5), and what a stanza of a list must have.

`read_stanzas` reads the text of a list, `read_records` that of preferences, whose records have the same form. A text with a fault is
refused whole, with its first faulty line."""

from relations import DEPENDENCIES, NINE, Offer, RelationFault, parse_relations
from versions import is_name, read_version

PACKAGES = "packages"
STATUS = "status"

# The bytes of a line, and of the body of a field.
LONGEST = 1048576

# dpkg(1), "Package states". A package in one of the last five is there.
STATES = [b"not-installed", b"config-files", b"half-installed"]
LIVE_STATES = [b"unpacked", b"half-configured", b"triggers-awaited", b"triggers-pending", b"installed"]

# The numbers of the faults of a text. On one line the lowest counts.
TOO_LONG, LINE, FIELD_TWICE, MISSING, NAME, VERSION, RELATION = range(4, 11)


class TextFault(Exception):
    """A line of a text and the number of what is wrong there."""

    def __init__(self, line, cause):
        super().__init__(line, cause)
        self.line = line
        self.cause = cause


class Field:
    """A field: its name as it is spelled, its body, and its line."""

    def __init__(self, name, body, line):
        self.name = name
        self.body = body
        self.line = line


class Paragraph:
    """Lines without a blank one among them, their fields, and whether one of the lines is faulty."""

    def __init__(self, first_line):
        self.first_line = first_line
        self.lines = []
        self.fields = []
        self.is_faulty = False

    def field(self, name):
        """The field of this name, without regard to case, or nothing."""
        for field in self.fields:
            if field.name.lower() == name.lower():
                return field
        return None

    def body(self, name):
        field = self.field(name)
        return None if field is None else field.body

    def is_missing(self, name):
        return self.body(name) in (None, b"")


def lines_of(text):
    """The lines of a text. A last line without a newline counts if it isn't empty."""
    lines = text.split(b"\n")
    if lines[-1] == b"":
        lines.pop()
    return lines


def is_blank(line):
    return line.strip(b" \t") == b""


def is_field_name(name):
    """Printable ASCII but the colon, not beginning with `#` or `-`."""
    return name != b"" and all(33 <= byte <= 126 and byte != ord(":") for byte in name) and name[:1] not in (b"#", b"-")


def add_line(paragraph, number, line, may_repeat):
    """Puts a line that isn't blank into a paragraph. Gives the number of its fault, or nothing."""
    paragraph.lines.append(line)
    if len(line) > LONGEST:
        return TOO_LONG
    if line[:1] in (b" ", b"\t"):
        if len(paragraph.lines) == 1:
            return LINE
        if paragraph.fields:
            field = paragraph.fields[-1]
            field.body += b"\n" + line
            return TOO_LONG if len(field.body) > LONGEST else None
        return None
    name, colon, value = line.partition(b":")
    if not colon or not is_field_name(name):
        return LINE
    is_twice = paragraph.field(name) is not None and name.lower() not in may_repeat
    paragraph.fields.append(Field(name, value.strip(b" \t"), number))
    return FIELD_TWICE if is_twice else None


def read_paragraphs(lines, may_repeat=()):
    """The paragraphs of numbered lines, and the faults of the lines."""
    paragraphs, faults = [], []
    is_open = False
    for number, line in lines:
        if is_blank(line):
            is_open = False
            if len(line) > LONGEST:
                faults.append((number, TOO_LONG))
            continue
        if not is_open:
            paragraphs.append(Paragraph(number))
            is_open = True
        fault = add_line(paragraphs[-1], number, line, may_repeat)
        if fault is not None:
            paragraphs[-1].is_faulty = True
            faults.append((number, fault))
    return paragraphs, faults


def state_of(paragraph):
    """The state in a body of Status, which is three words; nothing where it isn't one."""
    words = [word for word in (paragraph.body(b"Status") or b"").replace(b"\t", b" ").split(b" ") if word]
    if len(words) == 3 and words[2] in STATES + LIVE_STATES:
        return words[2]
    return None


def is_live(paragraph, kind):
    """Whether a stanza is that of a package: one of an archive, or one whose state says that it is there."""
    return kind == PACKAGES or state_of(paragraph) in LIVE_STATES


def stanza_faults(paragraph, kind):
    """What is wrong with a stanza whose lines are all right."""
    faults = []
    live = is_live(paragraph, kind)
    if paragraph.is_missing(b"Package") or (kind == STATUS and state_of(paragraph) is None) or (live and paragraph.is_missing(b"Version")):
        faults.append((paragraph.first_line, MISSING))
    if not paragraph.is_missing(b"Package") and not is_name(paragraph.body(b"Package")):
        faults.append((paragraph.field(b"Package").line, NAME))
    if not live:
        return faults
    if not paragraph.is_missing(b"Version") and read_version(paragraph.body(b"Version")) is None:
        faults.append((paragraph.field(b"Version").line, VERSION))
    for kind_of_field in NINE:
        field = paragraph.field(kind_of_field)
        try:
            parse_relations(b"" if field is None else field.body, kind_of_field)
        except RelationFault:
            faults.append((field.line, RELATION))
    return faults


class Stanza:
    """A stanza of a list. One that isn't live has no version, no groups and offers nothing."""

    def __init__(self, paragraph, kind):
        self.kind = kind
        self.text = b"".join(line + b"\n" for line in paragraph.lines)
        self.fields = paragraph.fields
        self.package = paragraph.body(b"Package")
        self.live = is_live(paragraph, kind)
        self.version = read_version(paragraph.body(b"Version")) if self.live else None
        self.relations = {field: parse_relations(paragraph.body(field) or b"", field) if self.live else [] for field in NINE}
        self.offers = self.offered()

    def field(self, name):
        """The field of this name, without regard to case, or nothing."""
        for field in self.fields:
            if field.name.lower() == name.lower():
                return field
        return None

    def groups(self, kind):
        """The groups of one of the eight fields, or the entries of Provides, each a group of one."""
        return self.relations[kind]

    def offered(self):
        """Its own name at its version, and each entry of Provides."""
        if not self.live:
            return []
        return [Offer(self.package, self.version)] + [Offer(entry.name, entry.version) for (entry,) in self.groups(b"Provides")]

    def clauses(self):
        """The groups of the four fields that ask for something, each with its field and its number in the field."""
        return [(field, at, group) for field in DEPENDENCIES for at, group in enumerate(self.groups(field))]


def read_stanzas(text, first_line, kind):
    """The stanzas of the text of a list of a kind, whose first line has this number."""
    paragraphs, faults = read_paragraphs(list(enumerate(lines_of(text), first_line)))
    for paragraph in paragraphs:
        if not paragraph.is_faulty:
            faults += stanza_faults(paragraph, kind)
    if faults:
        raise TextFault(*min(faults))
    return [Stanza(paragraph, kind) for paragraph in paragraphs]


def paragraphs_of_records(text, first_line):
    """The records of preferences, and the faults of their lines. A line that begins with `#` is as if it weren't there, and
    Explanation may stand more than once."""
    lines = [(number, line) for number, line in enumerate(lines_of(text), first_line) if line[:1] != b"#"]
    return read_paragraphs(lines, (b"explanation",))


def read_records(text, first_line):
    """The records of preferences, whatever their fields are."""
    records, faults = paragraphs_of_records(text, first_line)
    if faults:
        raise TextFault(*min(faults))
    return records
