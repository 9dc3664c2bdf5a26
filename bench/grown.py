"""Lists of several times the size of one, as an archive would have them that holds so many others beside each other."""

import re

FIELDS = re.compile(rb"^(Package|Pre-Depends|Depends|Conflicts|Breaks|Recommends|Suggests|Replaces|Enhances|Provides):(.*(?:\n[ \t].*)*)$", re.M)
# A name at the start of a field or behind a comma or a bar.
NAME = re.compile(rb"((?:^|[,|])\s*)([A-Za-z0-9][A-Za-z0-9+._-]*)")


def renamed(text, number):
    """The text with another name for each package, in its own stanza and wherever it is named."""
    ending = rb"\g<1>\g<2>-x%d" % number
    return FIELDS.sub(lambda field: field.group(1) + b":" + NAME.sub(ending, field.group(2)), text)


class Grown:
    """A file that grows from one list to several times it."""

    def __init__(self, text, path):
        self.text = text.rstrip(b"\n") + b"\n\n"
        self.path = path
        self.times = 1
        with open(path, "wb") as file:
            file.write(self.text)

    def grow(self, times):
        """Adds copies until the file has so many."""
        with open(self.path, "ab") as file:
            while self.times < times:
                self.times += 1
                file.write(renamed(self.text, self.times))
