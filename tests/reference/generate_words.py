"""Words for generated scripts: names, versions, pins, priorities, relation fields, and such as are none of these."""

# Some begin others, some differ by case alone, and some have just as many bytes as stand in a value itself, or one more.
PACKAGES = [b"a", b"ab", b"abc", b"A", b"b", b"foo", b"foo-doc", b"0ad", b"g++", b"x_y", b"x.y", b"libc6"]
PACKAGES += [b"n" * 23, b"n" * 24, b"n" * 31, b"n" * 31 + b"-x"]
VIRTUAL = [b"mta", b"editor", b"v", b"V", b"w" * 32]
LISTS = [b"main", b"sid", b"status", b"none", b"dpkg", b"L-1", b"l" * 40]
WRONG_NAMES = [b"a!", b"-a", b".a", b"+", b"_a", b"a/b", b"a*", b"*", b"", b"a b", b"a:any", b"a\r", b"\xc3\xa9", b"a\xff", b"a=1",
               b"a,b", b"(a", b"\x00"]

# The versions of a row are equal. The order of the rows is none of the order of bytes.
EQUAL_VERSIONS = [
    [b"1.0", b"0:1.0", b"1.00", b"1.0-0", b"1.", b"00:1.0-00", b"1.0-00000000", b"1.0-000000000"],
    [b"1", b"01", b"1-0", b"0:1"],
    [b"2.0-1", b"2.00-01", b"0:2.0-1"],
    [b"10.0", b"010.0"],
    [b"9", b"09-0"],
    [b"1:0.5", b"01:0.5", b"1:0.5-0"],
    [b"1.0~rc1", b"1.0~rc01", b"0:1.0~rc1-0"],
]
OTHER_VERSIONS = [b"1.0~", b"1.0~~", b"1.0+b1", b"1.0-1", b"1.0-0~", b"1.0.1", b"1.0a", b"a", b"~", b"+", b"0", b"none", b"2:1:3",
                  b"1-2-3", b"1a-b+c", b"2147483647:1", b"0000000001:1", b"18446744073709551615", b"18446744073709551616", b"9" * 40,
                  b"1." + b"0" * 30 + b"1", b"Z", b"z", b"1-a~"]
WRONG_VERSIONS = [b"", b":1", b"x:1", b"2147483648:1", b"1:", b"-1", b"1_0", b"1.0-", b"1-1:1", b"1.0-1_", b"1\xff", b"1*", b"1\r",
                  b"1/2", b"1 2", b"9" * 20 + b":1", b":"]
PREFIXES = [b"*", b"1*", b"1.0*", b"1.0-*", b"0:*", b"2.*", b"~*", b"-*", b":*", b"01*", b"1.0~rc*"]
WRONG_PREFIXES = [b"1*0", b"**", b"1_*", b"*1", b"1*.", b"1 *"]
PRIORITIES = [b"1", b"100", b"500", b"990", b"999", b"1000", b"1001", b"-1", b"-32768", b"32767", b"007", b"-01", b"0" * 30 + b"50",
              b"99", b"501"]
WRONG_PRIORITIES = [b"0", b"-0", b"00", b"32768", b"-32769", b"+1", b"", b"-", b"1x", b"--1", b"1.0", b"9" * 40, b"1 ", b"0x10"]

FIELDS = [b"Package", b"Version", b"Status", b"Depends", b"Pre-Depends", b"Recommends", b"Provides", b"Conflicts", b"Description",
          b"Section", b"X-Bytes", b"Nope", b"Empty"]
WRONG_FIELDS = [b"", b"#a", b"-a", b"a:b", b"a b", b"\xe9", b"a\x7f"]

OPERATORS = [b"<<", b"<=", b"=", b">=", b">>", b"<", b">"]
RELATIONS = [b"Pre-Depends", b"Depends", b"Depends", b"Depends", b"Recommends", b"Suggests", b"Conflicts", b"Breaks", b"Replaces",
             b"Enhances"]
NO_ALTERNATIVES = [b"Conflicts", b"Breaks", b"Replaces"]
QUALIFIERS = [b":any", b":native", b":amd64", b":x-1"]
WRONG_RELATIONS = [b"a b", b"a |", b"| a", b"a || b", b"a:", b"a :any", b"a: any", b"a:any:x", b"a [amd64]", b"a <!nocheck>", b"a (1)",
                   b"a (== 1)",
                   b"a (>= )", b"a (>= 1", b"a (>= 1 2)", b"a (>= 1_0)", b"a (=> 1)", b"a ()", b"a (", b".a", b"-a", b"a (>= 1)b", b"a)",
                   b"a; b", b"a\r",
                   b"a (>= 1,2)", b"a (> = 1)", b"a (>= 1) (<< 2)", b"\xc3\xa9", b"a (<<= 1)", b"a:a_b", b"a,, |b", b"${misc:Depends}"]
WRONG_PROVIDES = [b"a | b", b"a (>= 1)", b"a (<< 1)", b"a (> 1)", b"a (1)", b"a (= )"]
WRONG_NO_ALTERNATIVES = [b"a | b", b"a, b | c", b"a |"]

# Patterns that mean the same to Rust's `regex` and to Python's `re` in the texts that are generated.
EXPRESSIONS = [b"^a", b"b$", b"^foo$", b"fo{2}", b"o{1,3}", b"[0-9]+", b"(foo|mta)+", b"a|^b", b"f.o", b"1\\.0", b"ab?c?", b"[a-c]x*",
               b"", b"^$", b"x*", b"D[Ee]p", b"\\(>=", b"^1[.]0", b"(a)(b)", b"lib[a-z]+[0-9]", b"a+b+", b"\\+\\+", b"^Package: a"]
WRONG_EXPRESSIONS = [b"ba[", b"(", b"*", b"a)", b"[b-a]", b"\\", b"\xff", b"a{2,1}", b"+", b"(a", b"?", b"a|(", b"\xc3"]


class Words:
    """Makes words. `wrong` is how likely one is none of its kind. Pins are most often of two packages, so that several match a row."""

    def __init__(self, source, wrong, packages):
        self.source = source
        self.wrong = wrong
        self.packages = packages
        self.pinned = source.sample(packages, 2)

    def chance(self, likely):
        return self.source.random() < likely

    def pick(self, right, wrong=()):
        """One of some words, at times one of those that are wrong."""
        return self.source.choice(wrong if wrong and self.chance(self.wrong) else right)

    def package(self):
        return self.pick(self.packages, WRONG_NAMES)

    def pinned_package(self):
        return self.source.choice(self.pinned) if self.chance(0.6) else self.package()

    def name(self):
        """A name of a package, or one that is only offered."""
        return self.pick(self.packages + VIRTUAL, WRONG_NAMES)

    def version(self):
        equal = self.source.choice(EQUAL_VERSIONS[:3] * 3 + EQUAL_VERSIONS)
        return self.pick(equal if self.chance(0.85) else OTHER_VERSIONS, WRONG_VERSIONS)

    def pin_version(self):
        if self.chance(self.wrong):
            return self.source.choice(WRONG_PREFIXES)
        return self.source.choice(PREFIXES[:3] if self.chance(0.5) else PREFIXES) if self.chance(0.6) else self.version()

    def priority(self):
        return self.pick(PRIORITIES, WRONG_PRIORITIES)

    def fields(self):
        """Names of fields, joined by commas."""
        names = [self.pick(FIELDS, WRONG_FIELDS) for _ in range(self.source.choice([1, 1, 1, 2, 3]))]
        return b",".join(self.source.choice([name, name, name.lower(), name.upper()]) for name in names)

    # ---- relation fields

    def space(self):
        return self.source.choice([b"", b"", b"", b" ", b" ", b"\t", b"  ", b"\n ", b"\n\t"])

    def atom(self):
        text = self.source.choice(self.packages + VIRTUAL)
        if self.chance(0.15):
            text += self.source.choice(QUALIFIERS)
        if self.chance(0.4):
            version = self.source.choice(self.source.choice(EQUAL_VERSIONS))
            text += self.source.choice([b"", b" ", b" "]) + b"(" + self.source.choice(OPERATORS)
            text += self.source.choice([b"", b" "]) + version + b")"
        return text

    def joined(self, parts, sign):
        """Parts with a sign between, and spaces round it."""
        text = parts[0]
        for part in parts[1:]:
            text += self.space() + sign + self.space() + part
        return text

    def relation(self, field):
        """The body of one of the eight fields."""
        if self.chance(self.wrong):
            wrong = WRONG_NO_ALTERNATIVES if field in NO_ALTERNATIVES and self.chance(0.5) else WRONG_RELATIONS
            return self.pick([b"", b"a, "]) + self.source.choice(wrong)
        most = 1 if field in NO_ALTERNATIVES else self.source.choice([1, 1, 2, 3])
        groups = [self.joined([self.atom() for _ in range(self.source.randint(1, most))],
                              b"|") for _ in range(self.source.choice([1, 1, 2, 3]))]
        return self.joined(groups, self.source.choice([b",", b",", b",", b", ,"])) + self.source.choice([b"", b"", b"", b",", b" , "])

    def provides(self):
        """The body of Provides."""
        if self.chance(self.wrong):
            return self.source.choice(WRONG_PROVIDES + WRONG_RELATIONS)
        entries = []
        for _ in range(self.source.choice([1, 1, 2, 3])):
            entry = self.source.choice(VIRTUAL * 2 + self.packages[:6]) + self.source.choice([b"", b"", b"", b"", b":any"])
            if self.chance(0.4):
                entry += b" (= " + self.source.choice(self.source.choice(EQUAL_VERSIONS)) + b")"
            entries.append(entry)
        return self.joined(entries, b",")
