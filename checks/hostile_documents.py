"""Timing tables and notes that are made to defeat the program, for checks/hostile."""

from hostile_case import BOUND, NOTES, TIMES, Case, both, comments, fault, listed

# The most bytes of a timing table and of notes.
FILE = 8_388_608
# How deep a document may be nested: the limit of the kit's `toml`.
DEEPEST = 80


def toml(part):
    return fault(11, part.encode(), b"toml")


def unknown(part, key):
    return fault(14, part.encode(), b"unknown", key)


def in_front(text):
    """A timing table, and notes, with a text in front."""
    return [("times", text + TIMES), ("notes", text + NOTES)]


# What unknown keys are called here, the text that has some, and the first of them in byte order,
# as it is told.
ODD_KEYS = [
    ("a key of three parts", "a.b.c = 1\n", "a"),
    ("a quoted key with dots", '"a.b.c" = 1\n', "a.b.c"),
    ("a quoted key as a path", '"op.69.per" = 1\n', "op.69.per"),
    ("a key of a quote", "'\"' = 1\n", '"'),
    ("a key of an apostrophe", '"\'" = 1\n', "'"),
    ("a key of a backslash", "'\\' = 1\n", "\\"),
    ("an empty key", '"" = 1\n', ""),
    ("a key with a space", '" programmed" = 1\n', " programmed"),
    ("a key with a capital", '"Programmed" = 1\n', "Programmed"),
    ("a key as a line of the joined form", '"%NOTES" = 1\n', "%NOTES"),
    ("a key of NUL", '"\\u0000" = 1\n', "\0"),
    ("a key of CR, tab and ESC", '"\\r\\t\\u001B[2J" = 1\n', "\r\t\x1b[2J"),
    ("a key past U+FFFF", '"\\u00FF\\U0010FFFF" = 1\n', "\u00ff\U0010ffff"),
    ("keys of one byte", "z = 1\n_ = 1\na = 1\nA = 1\n0 = 1\n- = 1\n", "-"),
    ("a small and a capital letter", "z = 1\n_ = 1\na = 1\nA = 1\n", "A"),
    ("a letter before others' bytes", 'z = 1\n"\\u00E9" = 1\n"\\U0001F600" = 1\n', "z"),
    ("keys before and past U+FFFF", '"\\uFFFD" = 1\n"\\U00010000" = 1\n', "\ufffd"),
    ("a key that begins others", "ab = 1\na = 1\nabc = 1\n", "a"),
    ("an empty key after others", 'a = 1\n"\\u0000" = 1\n"" = 1\n', ""),
    ("a first key that is nested", "b = 1\na.x.y = 1\n", "a"),
]


def of_keys():
    for name, text, key in ODD_KEYS:
        for part, document in in_front(text.encode()):
            line = unknown(part, key.encode())
            yield from both("%s, %s" % (name, part), line, **{part: document})
    keys = b"".join(b"k%05d = 1\n" % (number * 7 % 100_000) for number in range(100_000))
    for part, document in in_front(keys):
        line = unknown(part, b"k00000")
        yield from both("%s with 100,000 unknown keys" % part, line, **{part: document})
        name = "check of %s with 100,000 unknown keys" % part
        yield Case(name, unknown(part, b"k99999"), "check", lists=100_000, **{part: document})
    for part, text in [("times", TIMES), ("notes", NOTES)]:
        key = b"k" * (FILE - len(text) - 5)
        line = unknown(part, key)
        yield from both("%s with a key of 8 MB" % part, line, **{part: key + b" = 1\n" + text})
    key = b"k" * 1_000_000
    line = unknown("times", b"op." + key)
    yield from both("an operation's key of 1 MB", line, times=TIMES + key + b" = 1\n")


def of_nesting():
    """Documents nested as deep as they may be, and deeper."""
    for depth, is_read in [(DEEPEST, True), (DEEPEST + 1, False)]:
        dotted = b".".join([b"a"] * depth)
        texts = [
            ("arrays %d deep" % depth, b"a = " + b"[" * depth + b"]" * depth + b"\n"),
            ("tables %d deep" % depth, b"a = " + b"{ a = " * depth + b"1" + b" }" * depth + b"\n"),
            ("a key of %d parts" % depth, dotted + b" = 1\n"),
        ]
        for name, text in texts:
            for part, document in in_front(text):
                line = unknown(part, b"a") if is_read else toml(part)
                yield from both("%s, %s" % (name, part), line, **{part: document})
        line = unknown("notes", b"a") if is_read else toml("notes")
        notes = NOTES + b"[" + dotted + b"]\n"
        yield from both("a header of %d parts" % depth, line, notes=notes)
    whole, arrays = b".".join([b"a"] * DEEPEST), b"[" * DEEPEST + b"]" * DEEPEST
    notes = NOTES + b"[" + whole + b"]\n" + whole + b" = " + arrays + b"\n"
    yield from both("a header, a key and arrays 80 deep", unknown("notes", b"a"), notes=notes)
    line = fault(16, b"notes", b"kind", b"mark.1")
    yield from both("a mark of arrays 80 deep", line, notes=NOTES + b"mark = " + arrays + b"\n")
    marked = whole.replace(b"a", b"mark")
    notes = NOTES + b"[" + marked + b"]\n" + marked + b" = " + arrays + b"\n"
    line = fault(16, b"notes", b"kind", b"mark")
    yield from both("marks in a header, a key and arrays 80 deep", line, notes=notes)


def of_lengths():
    """Long documents."""
    for part, text in [("times", TIMES), ("notes", NOTES)]:
        yield Case("%s of 8 MiB of comments" % part, BOUND, **{part: comments(text, FILE)})
        long, text = fault(52, part.encode(), b"toolong"), comments(text, FILE) + b"\n"
        yield Case("%s of one byte more" % part, long, status=3, **{part: text})
    room = FILE - len(NOTES)
    for name, text in [
        ("8 MB of opening brackets", b"a = " + b"[" * (room - 4)),
        ("8 MB of opening braces", b"a = " + b"{a=" * (room // 3 - 2)),
        ("8 MB of dots", b"a" + b".a" * (room // 2 - 1)),
        ("8 MB of quotes", b'"' * room),
    ]:
        yield Case(name, toml("notes"), notes=NOTES + text)
    array = NOTES + b"a = [" + b"1," * 1_000_000 + b"]\n"
    yield Case("an unknown array of 1,000,000", unknown("notes", b"a"), notes=array)
    million = b" = [" + b"{}," * 1_000_000 + b"]\n"
    line = fault(15, b"notes", b"range", b"mark")
    yield Case("1,000,000 marks", line, notes=NOTES + b"mark" + million)
    yield Case("ceiling of 1,000,000 marks", line, "ceiling", notes=NOTES + b"mark" + million)
    marks = NOTES + b"[[mark]]\nfrom = 100\nto = 100\nmost = 1\n" * 65
    yield Case("ceiling of 65 marks", line, "ceiling", notes=marks)
    line = fault(15, b"notes", b"range", b"mark.1.edges")
    edges = NOTES + b"[[mark]]\nmost = 1\nedges" + million
    yield Case("1,000,000 edges", line, "ceiling", notes=edges)
    line = fault(15, b"notes", b"range", b"mark.1.name")
    name = b'[[mark]]\nfrom = 100\nto = 100\nmost = 1\nname = "%s"\n' % (b"n" * 1_000_000)
    yield Case("a name of 1 MB", line, "ceiling", notes=NOTES + name)
    line = fault(13, b"notes", b"missing", b"list.1.location")
    yield Case("1,000,000 lists", line, notes=NOTES + b"list" + million)
    yield Case("8 MB of lists", line, notes=NOTES + b"[[list]]\n" * (room // 9))
    line = fault(15, b"notes", b"range", b"list.1.pattern")
    patterns = NOTES + b"[[list]]\nlocation = 100\npattern" + million
    yield Case("1,000,000 patterns", line, notes=patterns)
    # Each location once, and then one of them again.
    places = list(range(2000)) + list(range(8000, 8004)) + [1999]
    lists = NOTES + b"".join(listed(here, 99, 0, 1) for here in places)
    yield Case("2005 lists", fault(18, b"notes", b"twolists", b"1999"), notes=lists)


def cases():
    yield from of_keys()
    yield from of_nesting()
    yield from of_lengths()
