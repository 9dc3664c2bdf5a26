"""Preferences: the records of apt_preferences(5) that the program takes, and the words of a pin."""

from control import NAME, MISSING, VERSION, TextFault, paragraphs_of_records
from versions import DIGITS, UPSTREAM, is_made_of, is_name, read_version

PRIORITY = 18
FORM = 23


def is_pin_version(word):
    """Whether a word is a version, or a prefix of versions with `*` behind it."""
    if word.endswith(b"*"):
        return is_made_of(word[:-1], UPSTREAM)
    return read_version(word) is not None


def read_priority(word):
    """A whole number from -32768 to 32767 that isn't 0, or nothing."""
    digits = word[1:] if word.startswith(b"-") else word
    if digits == b"" or not is_made_of(digits, DIGITS):
        return None
    value = -int(digits) if word.startswith(b"-") else int(digits)
    return value if value != 0 and -32768 <= value <= 32767 else None


def words_of(body):
    """The words of a body, parted by blanks and newlines."""
    return [word for word in body.replace(b"\t", b" ").replace(b"\n", b" ").split(b" ") if word]


def pin_faults(words, packages):
    """What is wrong with the words of Pin in a record for some packages."""
    if len(words) == 2 and words[0] == b"version":
        faults = [] if is_pin_version(words[1]) else [VERSION]
        return faults + ([FORM] if packages == [b"*"] else [])
    if len(words) == 2 and words[0] == b"release" and words[1].startswith(b"a="):
        return [] if is_name(words[1][2:]) else [NAME]
    return [FORM]


def record_faults(record):
    """What is wrong with a record whose lines are all right."""
    needed = [b"Package", b"Pin", b"Pin-Priority"]
    faults = [(record.first_line, MISSING) for name in needed if record.is_missing(name)]
    packages = words_of(record.body(b"Package") or b"")
    if not record.is_missing(b"Package") and packages != [b"*"] and not all(is_name(word) for word in packages):
        faults.append((record.field(b"Package").line, NAME))
    if not record.is_missing(b"Pin"):
        faults += [(record.field(b"Pin").line, cause) for cause in pin_faults(words_of(record.body(b"Pin")), packages)]
    if not record.is_missing(b"Pin-Priority") and read_priority(record.body(b"Pin-Priority")) is None:
        faults.append((record.field(b"Pin-Priority").line, PRIORITY))
    return faults


def settings_of(record):
    """The selectors of a record, one for each name or one for all packages, each with the priority."""
    form, value = words_of(record.body(b"Pin"))
    value = value[2:] if form == b"release" else value
    priority = read_priority(record.body(b"Pin-Priority"))
    for name in words_of(record.body(b"Package")):
        yield (form.decode(), None if name == b"*" else name, value), priority


def read_prefs(text, first_line):
    """The pin settings of a text of preferences. Of two with the same selector the first counts."""
    records, faults = paragraphs_of_records(text, first_line)
    for record in records:
        if not record.is_faulty:
            faults += record_faults(record)
    if faults:
        raise TextFault(*min(faults))
    settings = []
    for record in records:
        for selector, priority in settings_of(record):
            if selector not in [other for other, _ in settings]:
                settings.append((selector, priority))
    return settings
