"""Bodies for generated scripts: stanzas of packages and status lists, and records of preferences, right ones and faulty ones."""

from generate_words import LISTS, RELATIONS, WRONG_FIELDS, WRONG_NAMES, Words

LONGEST = 1048576

STATES = [b"not-installed", b"config-files", b"half-installed", b"unpacked", b"half-configured", b"triggers-awaited",
          b"triggers-pending", b"installed"]
WRONG_STATUS = [b"", b"install ok", b"install ok odd", b"install ok Installed", b"install ok installed x", b"installed",
                b"install ok\n installed x"]
VALUES = [b"x", b"  x\t", b"", b"foo ab", b"x\n y", b"x\n .\n  z ", b"\n only below", b"x\r", b"\xff\xfe\x00", b"ABC foo-doc", b"1.0",
          b"'x' \"y\"", b"1\n\t2"]
WRONG_LINES = [b" x", b"\tx", b"# comment", b"oops", b": x", b"a b: x", b"-x: y", b"#x: y", b"\r", b"x\xe9: y", b".x", b"..", b". ",
               b"'", b"add-list x packages"]
GAPS = [b"\n", b"\n", b"\n", b"\n\n", b" \n", b"\t \n"]


class Texts(Words):
    """Makes bodies. A stanza of `wrong` 0 has no fault."""

    def spelled(self, name):
        return name if self.chance(0.85) else self.source.choice([name.lower(), name.upper(), name.swapcase()])

    def field(self, name, body):
        """A field with some blanks round its value."""
        before = self.source.choice([b" ", b" ", b" ", b"", b"\t", b"  "])
        return self.spelled(name) + b":" + before + body + self.source.choice([b"", b"", b"", b" ", b"\t"])

    def status(self):
        if self.chance(self.wrong):
            return self.source.choice(WRONG_STATUS)
        state = self.source.choice(STATES + [STATES[-1]] * 8)
        return self.source.choice([b"install ok ", b"install ok ", b"deinstall  ok\t", b"x y ", b"install ok\n "]) + state

    def heads(self, kind, package, version):
        """The fields by which a stanza is found; with a fault one may be missing, or have no value."""
        fields = [(b"Package", package), (b"Version", version)]
        if kind == "status":
            fields.append((b"Status", self.status()))
            if self.chance(0.05):
                fields.pop(1)
        if self.chance(self.wrong):
            fields.pop(self.source.randrange(len(fields)))
        if self.chance(self.wrong):
            at = self.source.randrange(len(fields))
            fields[at] = (fields[at][0], b"")
        return fields

    def others(self):
        """Relation fields and others, each once."""
        fields = {}
        for _ in range(self.source.choice([0, 1, 1, 2, 3, 4])):
            name = self.source.choice(RELATIONS)
            fields[name] = self.relation(name)
        if self.chance(0.4):
            fields[b"Provides"] = self.provides()
        if self.chance(0.4):
            fields[b"Description"] = self.source.choice(VALUES)
        for name in (b"Section", b"X-Bytes", b"Empty"):
            if self.chance(0.15):
                fields[name] = b"" if name == b"Empty" else self.source.choice(VALUES)
        return list(fields.items())

    def lines_of_stanza(self, kind, package, version):
        """The fields of a stanza, most often with its name first, and perhaps a faulty line among them."""
        fields = [self.field(*field) for field in self.heads(kind, package, version) + self.others()]
        if self.chance(0.3):
            self.source.shuffle(fields)
        if self.chance(self.wrong):
            fields.insert(self.source.randrange(len(fields) + 1),
                          self.source.choice(WRONG_LINES + [b"x" + self.source.choice(WRONG_FIELDS) + b": y"]))
        if self.chance(self.wrong):
            fields.insert(self.source.randrange(len(fields) + 1), self.source.choice(fields).split(b":")[0].swapcase() + b": twice")
        return fields

    def stanza(self, kind, package=None, version=None):
        name = self.source.choice(self.pinned) if self.chance(0.2) else self.package()
        fields = self.lines_of_stanza(kind, package or name, version or self.version())
        return b"".join(field + b"\n" for field in fields)

    def right_stanza(self, kind):
        wrong, self.wrong = self.wrong, 0.0
        text = self.stanza(kind)
        self.wrong = wrong
        return text

    def stanzas(self, kind, count):
        """Some stanzas with gaps between, and perhaps before the first one and behind the last one. One of them may have faults."""
        stanzas = [self.right_stanza(kind) for _ in range(count)]
        if stanzas and self.chance(0.5):
            stanzas[self.source.randrange(count)] = self.stanza(kind)
        text = self.source.choice([b"", b"", b"", b"", b"\n", b" \n"])
        text += self.source.choice(GAPS).join(stanzas)
        return text + self.source.choice([b"", b"", b"", b"\n"])

    def long_stanza(self):
        """A stanza with a line, or a body of continued lines, about as long as may be."""
        more = self.source.choice([-1, 0, 1])
        if self.chance(0.5):
            long = b"X: " + b"x" * (LONGEST + more - 3)
        else:
            long = b"X:" + b"x" * (LONGEST + more - 4) + b"\n yy"
        lines = [b"Package: " + self.package(), b"Version: " + self.version(), long]
        if self.chance(0.3):
            lines.append(self.source.choice(WRONG_LINES))
        self.source.shuffle(lines)
        return b"\n".join(lines) + b"\n"

    # ---- preferences

    def pin_words(self, is_for_all):
        """The body of Pin."""
        if self.chance(self.wrong):
            return self.source.choice([b"origin deb.debian.org", b"release o=Debian", b"version", b"version 1 2", b"release", b"x",
                                       b"Version 1", b"release a=", b"release  a=a/b", b"release b=main", b"version=1", b"release A=main"])
        space = self.source.choice([b" ", b" ", b"\t", b"  ", b"\n "])
        if self.chance(0.5) or (is_for_all and self.chance(0.8)):
            return b"release" + space + b"a=" + self.pick(LISTS, WRONG_NAMES[:8])
        return b"version" + space + self.pin_version()

    def names_of_record(self):
        """The body of Package, and whether it is for all packages."""
        if self.chance(0.2):
            return b"*", True
        names = [self.pinned_package() for _ in range(self.source.choice([1, 1, 2, 3]))]
        return self.source.choice([b" ", b"  ", b"\t", b"\n "]).join(names) or b"", names == [b"*"]

    def record(self):
        names, is_for_all = self.names_of_record()
        fields = [(b"Package", names), (b"Pin", self.pin_words(is_for_all)), (b"Pin-Priority", self.priority())]
        fields += [(b"Explanation", self.source.choice(VALUES)) for _ in range(self.source.choice([0, 0, 1, 2]))]
        if self.chance(0.2):
            self.source.shuffle(fields)
        if self.chance(self.wrong):
            fields.pop(self.source.randrange(len(fields)))
        lines = [self.field(*field) for field in fields]
        if self.chance(0.2):
            lines.insert(self.source.randrange(len(lines) + 1), self.source.choice([b"#", b"# comment", b"#x: y"]))
        if self.chance(self.wrong):
            wrong = self.source.choice([b" x", b"oops", b" # x", b"package: a", b"Pin: version 1", b"X: y"])
            lines.insert(self.source.randrange(len(lines) + 1), wrong)
        return b"".join(line + b"\n" for line in lines)

    def records(self):
        count = self.source.choice([0, 1, 1, 2, 3])
        return self.source.choice(GAPS).join(self.record() for _ in range(count))
