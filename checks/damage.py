"""Cases of damaged inputs: words, files and a standard input, damaged by what a seed says.
checks/damaged-inputs runs them, and checks/judge.py holds to something what comes out."""

import os
import re

from call_cases import CASES, deck_of, notes_of

TOP = os.path.dirname(os.path.dirname(os.path.abspath(__file__)))
FILES = ["deck", "times", "notes", "inputs"]
# Two of a replay and of a trace, since they look at a file more than the others.
OF_THREE = "bound check report walk waits table size graph outline draw ceiling".split()
LINES = [[]] + [[command] + FILES[:3] for command in OF_THREE]
LINES += 2 * [[command] + FILES for command in ("replay", "trace")]
LINES += [[command] + FILES for command in ("check", "draw")]
# A check, and one that looks at inputs too.
CHECKS = ("check", "check of inputs")
# A picture of a walk, and one of a run.
PICTURES = ("draw", "draw of a run")
# Words that are put among those of a line.
WORDS = OF_THREE + ["replay", "trace", "--help", "-h", "-", "", "none", "--fast"] + FILES

# Bytes that mean something in one of the formats, and some that mean nothing in any.
BYTES = b"\n\r\t *+-=.,#%[]{}\"'\\_0123456789STARTxe\x00\x7f\xc3\xff"
# Numbers at the limits of what the formats allow, and past them.
NUMBERS = b"""0 1 2 7 49 50 64 65 100 0106 1999 2000 8000 8003 8004 9999 10000 1000000 1000001
    18446744073709551616 -1 1.5 0x10""".split()
# How far apart the ends of a piece are at most.
REACHES = [2, 12, 60, 10_000]


# Where choices come from.


class Chance:
    """Choices drawn from a seed, by SplitMix64: one seed gives the same choices each time."""

    def __init__(self, seed):
        self.state = seed

    def below(self, count):
        """A number below the count, or 0 where that is 0."""
        self.state = (self.state + 0x9E3779B97F4A7C15) % 2**64
        word = self.state
        word = (word ^ word >> 30) * 0xBF58476D1CE4E5B9 % 2**64
        word = (word ^ word >> 27) * 0x94D049BB133111EB % 2**64
        return (word ^ word >> 31) % max(count, 1)

    def is_one_of(self, count):
        return self.below(count) == 0

    def choose(self, items):
        return items[self.below(len(items))]


# The texts that are damaged.


def mark(source, target, most, inside=None):
    text = "[[mark]]\nfrom = %d\nto = %d\nmost = %d\n" % (source, target, most)
    return text if inside is None else text + "inside = %d\n" % inside


def mark_of(edges, most):
    """A mark of several edges."""
    return "[[mark]]\nedges = %s\nmost = %d\n" % ([list(edge) for edge in edges], most)


def name(text):
    """The line of a mark's name."""
    return 'name = "%s"\n' % text


def inside(text):
    """The line of the name of the mark that a mark stands inside of."""
    return 'inside = "%s"\n' % text


def notes(programmed, load_cards, *more):
    head = 'programmed = "%s"\nload_cards = "%s"\n' % (programmed, load_cards)
    return head + "".join(more)


# Marks that no walk passes: their counts are past the limit of a bound all the same.
UNPASSED = mark(1997, 1999, 9999) + mark(1998, 1999, 9999)


def ten_words(numbers):
    return " ".join("%+011d" % number for number in numbers)


LEAST = notes("stop", "none")
TWO_WORDS = "0100 +6901030106\n0106 +0100000106\nSTART 0100\n"
BRANCH_BACK = "0100 +4501000110\n0110 +0100000110\nSTART 0100\n"
LOOPS = "0100 +4501000110\n0110 +4501000120\n0120 +0100000120\nSTART 0100\n"
STORES = "0100 +2401060106\n0106 +0100000106\nSTART 0100\n"
# A deck that alters the word at 0210, by which it goes on at 0110 or at 0120.
TWO_ROADS = """0100 +6901500200
0110 +6901510200
0120 +0100000120
0150 +0000000110 +0000000120
0200 +2402100210
START 0100
"""
ROADS = """[[list]]
location = 210
pattern = [{ op = 0, d_from = 0, d_to = 0, i = 110 }, { op = 0, d_from = 0, d_to = 0, i = 120 }]
"""
# A list for the word that is stored over: any stop.
STOPS = "[[list]]\nlocation = 106\n[[list.pattern]]\nop = 1\nd_from = 0\nd_to = 9999\ni = 106\n"
# A deck that reads a card, punches one and stops, and at 0049 stops too, where a load card leads.
CARDS = """* reads, punches, stops
0100 +7000490011
0011 +7100770012
0012 +0100000012
0049 +0100000049
0300 +0000000001 -0000000002 +0000000003 +0000000004 +0000000005 +0000000006 +0000000007
START 0100
"""
# A deck with a loop inside two ways back of another one, and what sends a run round both.
TWO_WAYS = """0000 +6510000001 +1510010002 +4500010003 +4400000004 +1510020005 +4600000006
0006 +0100000006
START 0000
"""
ROUND_BOTH = "1000 -0000000002\n1001 +0000000001\n1002 -0000000001\n"
# A deck of nine loops in a row.
NINE_LOOPS = """0100 +4501000101 +4501010102 +4501020103 +4501030104 +4501040105 +4501050106
0106 +4501060107 +4501070108 +4501080109 +0100000109
START 0100
"""
# A deck that divides, multiplies, shifts and stops.
SUMS = """0000 +6000100001 +1400110002 +1900110003 +3000020004 +2000120005 +0100000005
0010 +0000000091 +0000000007
START 0000
"""
# A line of each kind, two cards and two waits.
WHOLE = """* each kind of line
ANGLE 17
SWITCHES -0000000012
DISTRIBUTOR +9999999999
ACCUMULATOR -00000000000000000017
LATCH ON
PROGRAMMED RUN
ONOVERFLOW SENSE
0400 +0000000001 -0000000002
CARD %s
WAIT 5
LOAD %s
WAIT 0000700
1999 +0000000003
""" % (ten_words(range(1, 11)), ten_words([-1] + [0] * 9))

# The counts of these marks, multiplied by the words, come within a damage or two of the limit.
MANY_COUNTS = notes(
    "stop", "none", mark(110, 100, 9), mark(100, 100, 9, inside=1), mark(120, 120, 39)
)

# Those of these are far past it, by two marks that nobody passes.
PAST_LIMIT = notes(
    "stop",
    "none",
    mark(110, 100, 1),
    mark(100, 100, 2, inside=1),
    mark(120, 120, 9999),
    mark(110, 110, 9999),
)

# Long notes: of a mark with two edges, of more marks than short ones have, with names alone, and
# some that say what short ones do.
COUNTED_TOGETHER = (
    LEAST + mark_of([(3, 0), (5, 0)], 2) + name("loop-1") + mark(2, 1, 1) + inside("loop-1")
)
NINE_MARKS = LEAST + "".join(mark(place, place, place // 107) for place in range(100, 109))
NAMED = LEAST + mark(110, 100, 1) + name("loop-1") + mark(100, 100, 2, inside=1) + name("loop-2")
ONE_EDGE_EACH = LEAST + mark_of([(110, 100)], 1) + mark_of([(100, 100)], 2) + "inside = 1\n"

# And with calls: of one subroutine, of one in another, and two of which one is made in the other.
CALLED = [(deck_of(case), notes_of(case), "ANGLE 01\n") for case in (CASES[0], CASES[4], CASES[5])]

# A deck, notes and inputs. Undamaged, each is accepted, or would be but for its size or its loops.
EXAMPLES = [
    (TWO_WORDS, LEAST, "ANGLE 01\n"),
    (TWO_WORDS, notes("any", "none", mark(106, 106, 2)), "ANGLE 49\nPROGRAMMED RUN\n"),
    (BRANCH_BACK, LEAST + mark(100, 100, 3), "ANGLE 01\nACCUMULATOR +%020d\n" % 1),
    (LOOPS, LEAST + mark(110, 100, 1) + mark(100, 100, 2, inside=1), "ANGLE 01\n"),
    (LOOPS, MANY_COUNTS, "ACCUMULATOR +%020d\n" % 10**10),
    (LOOPS, PAST_LIMIT, "ANGLE 01\n"),
    (LOOPS, PAST_LIMIT, "ANGLE 01\nACCUMULATOR +%020d\n" % 1),
    (STORES, LEAST + STOPS, "ANGLE 01\nDISTRIBUTOR +0112340106\n"),
    (TWO_ROADS, LEAST + mark(210, 110, 1) + mark(210, 120, 1) + ROADS, "PROGRAMMED STOP\n"),
    (CARDS, notes("any", "any", mark(12, 12, 1), mark(49, 49, 1)), WHOLE),
    (SUMS, LEAST, "LATCH OFF\nONOVERFLOW STOP\nSWITCHES +0000000000\n"),
    (TWO_WAYS, COUNTED_TOGETHER, ROUND_BOTH),
    (TWO_WAYS, LEAST + mark(2, 1, 1) + name("loop-2"), ROUND_BOTH),
    (TWO_WAYS, LEAST, ROUND_BOTH),
    (NINE_LOOPS, NINE_MARKS, "ACCUMULATOR +%020d\n" % 0),
    (LOOPS, NAMED, "ACCUMULATOR +%020d\n" % 10**10),
    (LOOPS, ONE_EDGE_EACH, "ANGLE 01\n"),
    *CALLED,
]

with open(os.path.join(TOP, "examples", "times.toml"), "rb") as file:
    TIMES = file.read()


# Damage to one text.


def line_from(text, place):
    """The first place from here on where a line begins, or the end."""
    if place == 0:
        return 0
    return text.find(b"\n", place - 1) + 1 or len(text)


def cuts(chance, text):
    """The ends of two pieces of a text, in their order; of whole lines every other time."""
    reach, of_lines = chance.choose(REACHES), chance.is_one_of(2)
    place, places = chance.below(len(text)), []
    for _ in range(4):
        places.append(line_from(text, place) if of_lines else place)
        place = min(place + chance.below(reach), len(text))
    return places


def digits_from(text, place):
    """The digits that begin at the first digit from a place on: where they begin and end."""
    found = re.compile(rb"[0-9]+").search(text, place)
    return found.span() if found else (len(text), len(text))


def redigited(chance, text, place):
    """The text with another digit for one of the first number from a place on."""
    begin, end = digits_from(text, place)
    digit = begin + chance.below(end - begin)
    return text[:digit] + b"%d" % chance.below(10) + text[digit + 1 :]


def renumbered(chance, text, place):
    """The text with another number for the first from a place on."""
    begin, end = digits_from(text, place)
    return text[:begin] + chance.choose(NUMBERS) + text[end:]


def flipped(chance, text, place):
    """The text with a bit of one byte flipped."""
    byte = text[place] if place < len(text) else 0
    return text[:place] + bytes([byte ^ 1 << chance.below(8)]) + text[place + 1 :]


def spliced(chance, text, begin, end, other):
    """The text with a piece of another in place of one of its own."""
    first, last, *_ = cuts(chance, other)
    return text[:begin] + other[first:last] + text[end:]


def damaged(chance, text, other):
    """The text with one damage, for which a piece of another text is at hand."""
    a, b, c, d = cuts(chance, text)
    byte = bytes([chance.choose(BYTES)])
    kinds = [
        lambda: flipped(chance, text, a),
        lambda: text[:a] + byte + text[a + 1 :],
        lambda: text[:a] + byte + text[a:],
        lambda: text[:a],
        lambda: text[:a] + text[b:],
        lambda: text[:b] + text[a:b] + text[b:],
        lambda: text[:a] + text[c:d] + text[b:c] + text[a:b] + text[d:],
        lambda: spliced(chance, text, a, b, other),
        lambda: renumbered(chance, text, a),
    ]
    # What keeps to the form goes furthest into the program: half of the damages are other digits.
    kind = chance.below(2 * len(kinds))
    return kinds[kind]() if kind < len(kinds) else redigited(chance, text, a)


# Cases.


def joined(files):
    """The joined form of a deck, a timing table and notes."""
    return b"%s%%TIMES\n%s%%NOTES\n%s" % tuple(files[name] for name in FILES[:3])


def cut(text, line):
    """What stands before the first line that is exactly this one, and what behind it."""
    found = re.search(rb"^%s(\n|\Z)" % line, text, re.M)
    return found and (text[: found.start()], text[found.end() :])


def files_of_joined(text, inputs):
    """The files that a joined form joins, with these inputs; None where a part is missing."""
    first = cut(text, b"%TIMES")
    second = first and cut(first[1], b"%NOTES")
    return second and dict(zip(FILES, [first[0], *second, inputs]))


class Case:
    """Words, what the files of these names hold, and the standard input."""

    def __init__(self, words, files, text):
        self.words, self.files, self.text = words, files, text

    def asked(self):
        """The command and its files' texts, where the words are one over files that there are; of a
        check and of a picture also whether it looks at inputs."""
        if not self.words:
            files = files_of_joined(self.text, self.files["inputs"])
            return files and ("joined", files)
        command, *names = self.words
        if [command] not in [line[:1] for line in LINES if len(line) == len(self.words)]:
            return None
        if any(name not in self.files for name in names):
            return None
        for kinds in (CHECKS, PICTURES):
            if command == kinds[0]:
                command = kinds[len(names) == len(FILES)]
        named = {part: self.files[name] for part, name in zip(FILES, names)}
        return command, dict(self.files, **named)


def words_by(chance, line):
    """The words of a line. Now and then one is left out, exchanged or joined by another."""
    if not chance.is_one_of(12):
        return line
    place, kind, other = chance.below(len(line)), chance.below(3), chance.choose(WORDS)
    change = [[], [other], [other] + line[place : place + 1]][kind]
    return line[:place] + change + line[place + 1 :]


def texts_of(example):
    deck, notes, inputs = (text.encode() for text in example)
    return dict(zip(FILES, [deck, TIMES, notes, inputs]))


def case_of(seed):
    """The case of a seed."""
    chance = Chance(seed)
    files, other = texts_of(chance.choose(EXAMPLES)), texts_of(chance.choose(EXAMPLES))
    line = words_by(chance, chance.choose(LINES))
    for _ in range(1 + chance.below(2)):
        piece = other[chance.choose(FILES)]
        # The timing table is the longest by far, and any damage to it is likely to be refused.
        name = FILES[[0, 0, 0, 1, 2, 2, 3, 3][chance.below(8)]]
        files[name] = damaged(chance, files[name], piece)
    if chance.is_one_of(4):
        files["notes"] += UNPASSED.encode()
    text = joined(files)
    if chance.is_one_of(4):
        text = damaged(chance, text, other["deck"])
    return Case(line, files, text)
