"""Filters whose words are hostile: deep, many, long, no text, or patterns that are too large."""

from harness import LIST, finished

# How many bytes a line may have.
LINE = 1 << 20
NOTED = b"put main\nPackage: foo\nVersion: 1\nNotes: a\xffb\n.\n"
START = LIST + NOTED
NUMBER = START.count(b"\n") + 1


def asked(tests, words):
    """The status of a run that asks for the number of stanzas, and its answer; a query behind it has to be answered too."""
    status, output, errors = tests.run([], START + b"grep-dctrl -c " + words + b"\npkgnames f\n")
    return status, output, errors


def taken(count):
    return 0, b"%d\nfoo\n" % count, b""


def refused(why):
    return 1, b"E: line %d: %s\nfoo\n" % (NUMBER, why), b""


def test_nesting(tests):
    for sign, end in ((b"! ", b""), (b"( ", b" )"), (b"! ( ", b" )")):
        depth = 100 // len(sign.split())
        tests.same("%r nested 100 deep" % sign, asked(tests, sign * depth + b"Package" + end * depth), taken(0 if sign == b"! " and depth % 2 else 2))
        for more in (depth + 1, 100_000):
            tests.same("%r %d times" % (sign, more), asked(tests, sign * more + b"Package" + end * more), refused(b"bad filter"))
        tests.same("%r without end" % sign, asked(tests, sign * 200_000), refused(b"bad filter"))


def test_many_words(tests):
    tests.same("200,000 -o", asked(tests, b"x -o " * 200_000 + b"foo"), taken(1))
    tests.same("200,000 -a", asked(tests, b"o -a " * 200_000 + b"foo"), taken(1))
    tests.same("200,000 parentheses side by side", asked(tests, b"( x ) -o " * 100_000 + b"foo"), taken(1))
    tests.same("200,000 fields", asked(tests, b"-FP" + b",a" * 200_000 + b",Package foo"), taken(1))
    tests.same("200,000 modifiers", asked(tests, b"-" + b"P" * 200_000 + b" foo"), taken(1))
    tests.same("200,000 patterns", asked(tests, b"x " * 200_000), refused(b"bad filter"))


def test_long_patterns(tests):
    """A line as long as one may be has one word."""
    room = LINE - len(b"grep-dctrl -c ")
    for words in (b"", b"-i ", b"-P -X ", b"-P -X -i ", b"-F Version --eq ", b"-F Notes --pattern="):
        size = room - len(words)
        tests.same("a pattern of %d bytes behind %r" % (size, words), asked(tests, words + b"1" * size), taken(0))
        tests.same("one byte more behind %r" % words, asked(tests, words + b"1" * (size + 1)), refused(b"line too long"))
    tests.same("a body of 1 MiB", tests.run([], b"add-list m packages\nPackage: a\nVersion: 1\nX: " + b"ab" * 500_000 + b"\n.\ngrep-dctrl -c -F X " + b"ab" * 250_000 + b"b\n"),
               (0, b"0\n", b""))


def test_expressions(tests):
    bad = refused(b"bad pattern")
    for what, pattern, wanted in (
        ("bytes that are no UTF-8", b"a\xff", bad),
        ("a character cut short", b"\xc3", bad),
        ("a byte of a body that is no UTF-8", b"(?-u)a[^a]b", taken(1)),
        ("a character where the body has none", b"a.b", taken(0)),
        ("1 MiB of letters", b"x" * 1_000_000, bad),
        ("100,000 letters", b"x" * 100_000, taken(0)),
        ("100,000 alternatives", b"x|" * 100_000 + b"foo", taken(1)),
        ("counts of counts", b"a{1000}{1000}", bad),
        ("classes that are counted", b"(\\w{1000}){1000}", bad),
        ("parentheses 1,000 deep", b"(" * 1000 + b"a" + b")" * 1000, bad),
        ("parentheses without end", b"(" * 500_000, bad),
        ("stars of stars", b"(a*)*" * 50 + b"^Package: foo", taken(1)),
        ("what others go through again and again", b"(a|aa|a?a?)*$z", taken(0)),
    ):
        tests.same("%s as an expression" % what, asked(tests, b"--rx '" + pattern + b"'"), wanted)
    for pattern in (b"(?=a)", b"(a)\\1", b"*", b"a{2,1}", b"[z-a]", b"\\", b"(?P<n>a)(?P<n>b)"):
        tests.same("%r as an expression" % pattern, asked(tests, b"--rx '" + pattern + b"'"), bad)


def test_order(tests):
    """Wrong words are told before a wrong filter, and that before a wrong pattern."""
    for words, wanted in ((b"--rx [ ( -z", b"bad arguments"), (b"--rx [ (", b"bad filter"), (b"--rx [", b"bad pattern"),
                          (b"--rx " + b"x" * 1_000_000 + b" -a", b"bad filter")):
        tests.same("what is told of %r" % words[:20], asked(tests, words), refused(wanted))


def test_any_case(tests):
    """Letters of ASCII alone are taken in any case, and no other bytes that differ as a small letter and its capital do."""
    script = b"add-list m packages\nPackage: foo\nVersion: 1\nNotes: A_b@C[d]E^f\\g \xc3\x84 h\n i\tj and I)J\n.\ngrep-dctrl -c -i '%s'\n"
    for pattern, wanted in (
        (b"a_B@c[D]e^F\\G \xc3\x84 H", 1),
        (b"a\x7fb", 0),
        (b"b`c", 0),
        (b"c{d", 0),
        (b"f|g", 0),
        (b"d}e", 0),
        (b"e~f", 0),
        (b"\xc3\xa4", 0),
        (b"h* i", 0),
        (b"I\tJ", 1),
        # what looks like it stands before
        (b"i)j", 1),
        (b"i)j and", 0),
        (b"d i)j", 1),
    ):
        tests.same("%r in any case" % pattern, tests.run([], script % pattern), (0, b"%d\n" % wanted, b""))


def test_small_stack(tests):
    """What a filter takes of the stack doesn't go by its words."""
    script = START + b"grep-dctrl -c " + b"x -o " * 200_000 + b"foo\n"
    tests.same("200,000 -o on a stack of 256 KiB", finished(["sh", "-c", 'ulimit -s 256; exec "$0"', tests.program], input=script), (0, b"1\n", b""))


def test_filters(tests):
    test_nesting(tests)
    test_many_words(tests)
    test_long_patterns(tests)
    test_expressions(tests)
    test_order(tests)
    test_any_case(tests)
    test_small_stack(tests)
