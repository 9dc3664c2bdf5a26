"""Names of packages and lists, and versions and their order, as deb-version(7) and Debian Policy 5.6.12 have them.

An epoch, an upstream version and a revision are told apart as the manual says. Each of the last two becomes a list of whole
numbers, and versions are in the order of these lists: that is the order of the manual, in which runs of digits are compared by
their values, letters come before other bytes, and a tilde before everything, even before the end."""

import sys

# The value of a run of digits may be of any size.
sys.set_int_max_str_digits(0)

DIGITS = b"0123456789"
LETTERS = b"abcdefghijklmnopqrstuvwxyzABCDEFGHIJKLMNOPQRSTUVWXYZ"
NAME = LETTERS + DIGITS + b"+-._"
UPSTREAM = LETTERS + DIGITS + b".+-~:"
REVISION = LETTERS + DIGITS + b"+.~"
GREATEST_EPOCH = 2147483647


def is_made_of(text, allowed):
    return all(byte in allowed for byte in text)


def is_name(word):
    """Whether a word names a package or a list."""
    return word != b"" and word[0] in LETTERS + DIGITS and is_made_of(word, NAME)


def cut(text):
    """The epoch, the upstream version and the revision of a text; no epoch without a colon, no revision without a hyphen."""
    epoch, colon, rest = text.partition(b":")
    if not colon:
        epoch, rest = None, text
    upstream, hyphen, revision = rest.rpartition(b"-")
    if not hyphen:
        return epoch, rest, None
    return epoch, upstream, revision


def version_fault(text):
    """Why a text is no version, as a word, or nothing where it is one. The first test that fails counts."""
    if text == b"":
        return "empty"
    epoch, upstream, revision = cut(text)
    if epoch is not None and (epoch == b"" or not is_made_of(epoch, DIGITS) or int(epoch) > GREATEST_EPOCH):
        return "epoch"
    if upstream == b"":
        return "upstream"
    if not is_made_of(upstream, UPSTREAM) or not is_made_of(revision or b"", REVISION):
        return "character"
    if revision == b"":
        return "revision"
    return None


def rank(byte):
    """The place of a byte that is no digit among others: the tilde, the end (0), letters, the rest."""
    if byte == ord("~"):
        return -1
    return byte if byte in LETTERS else byte + 256


def part_key(part):
    """The numbers of an upstream version or a revision: the ranks of each run of other bytes, the end of that run, the value of the
    run of digits behind it. Zeros at the end say nothing."""
    key = []
    at = 0
    while at < len(part):
        while at < len(part) and part[at] not in DIGITS:
            key.append(rank(part[at]))
            at += 1
        first = at
        while at < len(part) and part[at] in DIGITS:
            at += 1
        key += [0, int(part[first:at] or b"0")]
    while key and key[-1] == 0:
        key.pop()
    return tuple(key)


def order_of_keys(one, other):
    """-1, 0 or 1: the keys place by place, as if zeros went on behind the shorter one."""
    length = max(len(one), len(other))
    one = one + (0,) * (length - len(one))
    other = other + (0,) * (length - len(other))
    return (one > other) - (one < other)


class Version:
    """A version: its text as it was written, and its key. Where there is no epoch it is 0, where there is no revision it is `0`."""

    def __init__(self, text):
        fault = version_fault(text)
        if fault is not None:
            raise ValueError(fault)
        epoch, upstream, revision = cut(text)
        self.text = text
        self.key = (int(epoch or b"0"), part_key(upstream), part_key(revision or b"0"))

    def order(self, other):
        """-1 where this one is older than the other, 0 where they are equal, 1 where it is newer."""
        if self.key[0] != other.key[0]:
            return -1 if self.key[0] < other.key[0] else 1
        return order_of_keys(self.key[1], other.key[1]) or order_of_keys(self.key[2], other.key[2])

    def equals(self, other):
        return self.order(other) == 0


def read_version(text):
    """The version of a text, or nothing where it is none."""
    return Version(text) if version_fault(text) is None else None


# Debian Policy 7.1: strictly earlier, earlier or equal, exactly equal, later or equal, strictly later.
RELATIONS = {
    b"<<": lambda order: order < 0,
    b"<=": lambda order: order <= 0,
    b"=": lambda order: order == 0,
    b">=": lambda order: order >= 0,
    b">>": lambda order: order > 0,
}


def is_related(version, operator, other):
    """Whether a version stands in a relation to another one."""
    return RELATIONS[operator](version.order(other))
