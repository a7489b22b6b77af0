"""The small decks of checks/walks, each with the notes under which it is tried."""


def notes(programmed="stop", load_cards="none", marks=(), lists=None):
    """Notes with marks (from, to, most, and the number of the one that each stands inside of) and
    lists of patterns (op, d_from, d_to, i) by their locations."""
    text = 'programmed = "%s"\nload_cards = "%s"\n' % (programmed, load_cards)
    for start, onto, most, *inside in marks:
        text += "[[mark]]\nfrom = %d\nto = %d\nmost = %d\n" % (start, onto, most)
        text += "".join("inside = %d\n" % outer for outer in inside)
    for location, patterns in (lists or {}).items():
        text += "[[list]]\nlocation = %d\n" % location
        for pattern in patterns:
            text += "[[list.pattern]]\nop = %d\nd_from = %d\nd_to = %d\ni = %d\n" % pattern
    return text


def deck(*words):
    """A deck of words, each with its location; the first one's is the start."""
    return "\n".join(words) + "\nSTART %s\n" % words[0][:4]


BACK = deck("0100 +4501000110", "0110 +0100000110")
LOOPS = deck("0100 +4501000110", "0110 +4501000120", "0120 +0100000120")
READS = deck("0100 +7000490011", "0011 +0100000011", "0049 +6900510017", "0017 +0100000017")
ROADS = [(0, 0, 0, 110), (0, 0, 0, 120)]

STRAIGHT = [
    deck("0100 +6901030106", "0106 +0100000106"),
    deck("0100 +6000070131", "0131 +1500080112", "0112 +2400090118", "0118 +0100000118"),
    deck(
        "0049 +6680020000",
        "0000 +1780030013",
        "0013 +6980000014",
        "0014 +2219990015",
        "0015 +0000009999",
    ),
    deck(
        "0100 +3000000117",
        "0117 +3100000121",
        "0121 +3500090111",
        "0111 +3101230500",
        "0500 +0199990500",
    ),
    deck("0100 +2480000106"),
    deck("0100 +0000002500"),
]

BRANCHES = [
    deck(
        "0100 +4401030120",
        "0103 +4501500120",
        "0120 +4600070131",
        "0131 +0100000131",
        "0150 +0100000150",
        "0007 +0100000007",
    ),
    deck(
        "0100 +9001060110",
        "0106 +0000000120",
        "0110 +6900420120",
        "0120 +9925000121",
        "0121 +0100000121",
    ),
    deck("0100 +4701060106", "0106 +1002000110", "0110 +4601129999", "0112 +2480010112"),
    deck("0100 +4425002500"),
]

# Stops that go on, where the switch is at RUN.
GOING_ON = [(131, 131, 2), (150, 150, 0), (7, 7, 1), (121, 121, 2)]

UNITS = [
    deck("0100 +1901030106", "0106 +0100000106"),
    deck("0100 +1401030106", "0106 +0100000106"),
    deck("0100 +6480020131", "0131 +2000020106", "0106 +0100000106"),
    deck("0100 +1901030106", "0106 +6401070114", "0114 +1480030122", "0122 +0100000122"),
]

CARDS = [
    READS,
    deck("0100 +7100490011", "0011 +0100000011"),
    deck("0100 +7080000011", "0011 +0100000011"),
    deck("0100 +7000490011", "0011 +7100000012", "0012 +7100420021", "0021 +0100000021"),
]

# The loop in a loop, with the marks in several orders, of which some stand on no edge.
NESTED = [
    [(110, 100, 1), (100, 100, 2, 1), (0, 0, 1)],
    [(110, 100, 2), (100, 100, 2), (0, 0, 1, 2)],
    [(100, 100, 2), (110, 100, 2, 1), (0, 0, 1, 2)],
    [(110, 100, 3), (0, 0, 2, 1), (100, 100, 2, 2)],
    [(110, 100, 2), (100, 110, 2, 1), (100, 100, 1, 2)],
]

ALTERED = deck("0100 +6901500106", "0106 +0000000110", "0110 +0100000110", "0150 +0000000110")
ALTERATIONS = [(24, 1940, 2060, 110), (69, 7990, 8010, 110), (30, 0, 12, 110), (44, 110, 110, 9000)]

# What the places beside the drum are gone to for.
BESIDE = {
    8000: deck("0100 +6901038000", "0107 +0100000107"),
    8001: deck("0100 +6901038001", "0107 +0100000107"),
    8002: deck("0100 +6001038002", "0107 +0100000107"),
    8003: deck("0100 +4580030107", "0107 +0100000107"),
}
ANY_WORD = [(1, 0, 3, 0), (15, 99, 151, 107), (21, 1990, 2010, 9999)]


def subjects():
    """Each deck with its notes."""
    for one in [*STRAIGHT, *BRANCHES, *UNITS, *CARDS]:
        yield one, notes()
    for one in BRANCHES:
        yield one, notes("run", marks=GOING_ON)
    yield READS, notes("run", "any", [(11, 11, 2), (17, 17, 1)])
    for most in (0, 1, 5):
        yield BACK, notes(marks=[(100, 100, most)])
        yield BACK, notes(marks=[(100, 110, most), (100, 100, 3)])
    for programmed in ("any", "run"):
        around = deck("0100 +0100000106", "0106 +0100000100")
        yield around, notes(programmed, marks=[(106, 100, 3)])
    for marks in NESTED:
        yield LOOPS, notes(marks=marks)
    deep = deck("0100 +4501000110", "0110 +4501000120", "0120 +4501000131", "0131 +0100000131")
    yield deep, notes(marks=[(120, 100, 1), (110, 100, 1, 1), (100, 100, 1, 2)])
    roads = deck(
        "0100 +6901500200",
        "0110 +6901510200",
        "0120 +0100000120",
        "0150 +0000000110 +0000000120",
        "0200 +2402100210",
    )
    yield roads, notes(marks=[(210, 110, 1), (210, 120, 1)], lists={210: ROADS})
    for pattern in ALTERATIONS:
        yield ALTERED, notes(lists={106: [pattern]})
    for location, one in BESIDE.items():
        for pattern in ANY_WORD:
            yield one, notes(lists={location: [pattern]})
