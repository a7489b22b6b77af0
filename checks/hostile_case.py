"""Cases for checks/hostile: what one run of the program is given, and what it has to give. A line
that is wanted is worked out by what docs/FORMATS.md, docs/ANSWERS.md and docs/MACHINE.md say."""

# A timing table: operations, what is before and after, at which angles, and the keys that only
# these have. Its numbers aren't those of a real machine.
ENTRIES = [
    ("00 01", 1, 0, "any", ""),
    ("10 11 15 16 17 18 60 61 65 66 67 68", 3, 2, "even", ""),
    ("14 64", 3, 5, "even", ", per = 2"),
    ("19", 3, 1, "odd", ", per = 2"),
    ("20 21 24 69", 3, 3, "any", ""),
    ("22 23", 3, 4, "any", ""),
    ("30 31 35", 2, 1, "even", ", per = 2"),
    ("44 45 46 47 90 91 92 93 94 95 96 97 98 99", 2, 1, "any", ""),
    ("70 71", 1, 1, "any", ", wait_min = 100, wait_max = 3125"),
]


def table():
    entry = '%s = { before = %d, after = %d, parity = "%s"%s }\n'
    lines = [entry % (op, *rest) for ops, *rest in ENTRIES for op in ops.split()]
    return "".join(["[op]\n"] + lines).encode()


TIMES = table()
NOTES = b'programmed = "stop"\nload_cards = "none"\n'
DECK = b"0100 +6901030106\n0106 +0100000106\nSTART 0100\n"
INPUTS = b""
PARTS = {"deck": DECK, "times": TIMES, "notes": NOTES, "inputs": INPUTS}

# The most words times counts.
KEYS = 4_000_000
# The two words' bound, and what a run of theirs from angle 0 uses.
BOUND = b"bound 56\n"
KEPT = b"kept used 7 bound 56 stop programmed\n"


def fault(number, *words):
    return b"fault %d " % number + b" ".join(words) + b"\n"


class Case:
    """What one run of the program is given, and what it has to give."""

    def __init__(self, name, line, command="bound", **more):
        self.name = name
        self.line = line
        self.command = command
        is_check = command == "check"
        is_listed = command in ("check", "table", "graph", "outline")
        is_result = is_listed or line.startswith((b"bound", b"ceiling", b"kept", b"left"))
        usual = 4 if line.startswith(b"left") else 0 if is_result else 1
        usual = 1 if is_check and line else usual
        self.status = more.pop("status", usual)
        # The joined form, or where it comes from.
        self.joined, self.stdin = more.pop("joined", None), more.pop("stdin", None)
        # Where standard output goes to: a device, `closed`, or `broken`, a pipe that nobody reads.
        self.to = more.pop("out", None)
        # Whether a check or a picture looks at inputs too.
        self.has_inputs = command in ("check", "draw") and "inputs" in more
        # How many lines of faults a check lists, the last of which ends with the line.
        self.lists = more.pop("lists", None)
        # What a long output is held to: a function of its file, which gives what is wrong with it.
        self.holds = more.pop("holds", None)
        # A result goes to standard output, a fault to standard error; neither where standard output
        # can't be written.
        self.out = b"" if self.to or self.lists or not is_result else line
        self.err = line if self.lists or not is_result else b""
        # A part is its bytes, or a function that makes its file and gives the file's name.
        self.parts = dict(PARTS, **more)


def joined_of(deck=DECK, times=TIMES, notes=NOTES):
    return b"%s%%TIMES\n%s%%NOTES\n%s" % (deck, times, notes)


def both(name, line, **parts):
    """A case, and the same as a joined form."""
    yield Case(name, line, **parts)
    yield Case(name + ", joined", line, joined=joined_of(**parts))


def card(location, op, d, i):
    return b"%04d +%02d%04d%04d\n" % (location, op, d, i)


def marks(edges):
    """Marks of (from, to, most, inside)."""
    text = b""
    for source, target, most, inside in edges:
        text += b"[[mark]]\nfrom = %d\nto = %d\nmost = %d\n" % (source, target, most)
        if inside:
            text += b"inside = %d\n" % inside
    return text


def listed(location, op, i, patterns):
    """A list of so many patterns, each of all 10,000 D."""
    pattern = b"{op=%d,d_from=0,d_to=9999,i=%d}," % (op, i)
    return b"[[list]]\nlocation=%d\npattern=[%s]\n" % (location, pattern * patterns)


def comments(text, size):
    """A text filled up to this size with lines of comments."""
    room = size - len(text)
    lines = (b"#" * 63 + b"\n") * (room // 64 + 1)
    return text + lines[:room]
