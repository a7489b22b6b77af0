"""Small decks with calls: what a run and a check of each come to, worked out by hand from the rule
of calls. checks/model-calls holds the plain model to them."""

from collections import namedtuple

NOTES = 'programmed = "stop"\nload_cards = "none"'

# A deck's words as `LOC op d i`, of which the first is its start; the notes' marks as (from, to,
# most), their lists as {location: [(op, d, i), ..]}, and their calls as (from, to, exit, back). Then
# how a run ends, without its times, which locations are executed, how many nodes there are, and what
# a check tells: its lines but for `idle`, and the edges that close loops.
Case = namedtuple("Case", "title words marks lists calls verdict executed nodes findings loops")

# As examples/subroutine, in small: two calls of one subroutine at 0010, whose exit is 0011.
TWICE = """
0000 69 0020 0001
0001 24 0011 0010
0002 69 0021 0003
0003 24 0011 0010
0004 01 0000 0004
0010 00 0000 0011
0020 00 0000 0002
0021 00 0000 0004
"""
BACK = {11: [(0, 0, 2), (0, 0, 4)]}
BOTH = [(1, 10, 11, 2), (3, 10, 11, 4)]

# A subroutine at 0010 that calls another at 0030, whose exit is 0031; its own is 0012.
NESTED = """
0000 69 0040 0001
0001 24 0012 0010
0002 69 0041 0003
0003 24 0012 0010
0004 01 0000 0004
0010 69 0042 0011
0011 24 0031 0030
0030 00 0000 0031
0040 00 0000 0002
0041 00 0000 0004
0042 00 0000 0012
"""

# One that calls itself once, where the accumulator isn't 0: then it is, and goes back to 0013.
ITSELF = """
0000 65 0020 0010
0001 01 0000 0001
0010 45 0011 0012
0011 65 0021 0010
0012 00 0000 0013
0013 00 0000 0012
0020 00 0000 0001
0021 00 0000 0000
"""

# Two exits, 0012 and 0014, by a branch at 0011. The word at 0020 says which: here the second.
TWO_EXITS = """
0000 00 0000 0010
0001 01 0000 0001
0002 00 0000 0010
0010 65 0020 0011
0011 45 0014 0012
0012 00 0000 0001
0014 00 0000 0002
0020 00 0000 0001
"""

CASES = [
    Case(
        "two calls of one subroutine",
        TWICE, [], BACK, BOTH,
        "kept stop programmed", [0, 1, 10, 11, 2, 3, 4], 9, [], [],
    ),
    Case(
        "the same without calls: it goes back and back",
        TWICE, [], BACK, [],
        "kept stop programmed", [0, 1, 10, 11, 2, 4, 3], 7, [], [(3, 10)],
    ),
    Case(
        "the first call alone: the second one goes by an exit that is closed",
        TWICE, [], BACK, BOTH[:1],
        "left notback 0011 0004 step 8", [0, 1, 10, 11, 2, 3], 8, [], [],
    ),
    Case(
        "a wrong way back",
        TWICE, [], BACK, [BOTH[0], (3, 10, 11, 2)],
        "left notback 0011 0004 step 8", [0, 1, 10, 11, 2, 3], 6, [], [(3, 10)],
    ),
    Case(
        "a subroutine that calls another, and whose exit is the other's way back",
        NESTED, [], {12: [(0, 0, 2), (0, 0, 4)], 31: [(0, 0, 12)]},
        [(1, 10, 12, 2), (3, 10, 12, 4), (11, 30, 31, 12)],
        "kept stop programmed", [0, 1, 10, 11, 30, 31, 12, 2, 3, 4], 15, [], [],
    ),
    Case(
        "a call in a call: the newer way back is gone to, and none is left behind it",
        ITSELF, [(11, 10, 1)], {}, [(0, 10, 12, 1), (11, 10, 12, 13)],
        "left notback 0012 0013 step 7", [0, 10, 11, 12, 13], 9, [], [],
    ),
    Case(
        "a call that is left by an exit with nothing open",
        TWO_EXITS, [], {}, [(0, 10, 12, 1), (2, 10, 14, 1)],
        "left notback 0014 0002 step 4", [0, 10, 11, 14, 12, 1], 6, ["unused call 0002 0010"], [],
    ),
    Case(
        "a call that is left by a word that is no exit: it stays open, and is called anew",
        TWO_EXITS, [(2, 10, 1)], {}, [(0, 10, 12, 1), (2, 10, 12, 1)],
        "left toooften 0002 0010 step 9", [0, 10, 11, 14, 12, 2, 1], 7, [], [],
    ),
    Case(
        "an exit with nothing open, at the start",
        "0000 00 0000 0001\n0001 01 0000 0001", [], {}, [(1, 0, 0, 1)],
        "left notback 0000 0001 step 1", [0], 1, ["unused call 0001 0000"], [],
    ),
    Case(
        "one edge opens two exits, and each is gone back from by its own way",
        "0000 00 0000 0010\n0010 00 0000 0011\n0011 00 0000 0001\n0001 00 0000 0002\n"
        "0002 01 0000 0002", [], {}, [(0, 10, 10, 11), (0, 10, 11, 1)],
        "kept stop programmed", [0, 10, 11, 1, 2], 5, [], [],
    ),
    Case(
        "a stop at an exit keeps to the notes, also with nothing open",
        "0000 00 0000 0010\n0010 01 0000 0001\n0001 01 0000 0001", [], {}, [(1, 10, 10, 0)],
        "kept stop programmed", [0, 10], 2, ["unused call 0001 0010"], [],
    ),
    Case(
        "an exit that may go on at two places goes to the way back alone",
        "0000 65 0020 0010\n0010 45 0002 0001\n0001 01 0000 0001\n0002 01 0000 0002\n"
        "0020 00 0000 0005", [], {}, [(0, 10, 10, 1)],
        "left notback 0010 0002 step 2", [0, 10, 1], 3, [], [],
    ),
    Case(
        "a step from an exit closes it, and then opens it by the call on its edge",
        "0000 00 0000 0010\n0010 00 0000 0001\n0001 00 0000 0010\n0002 01 0000 0002", [], {},
        [(0, 10, 10, 1), (10, 1, 10, 2)],
        "left notback 0010 0001 step 4", [0, 10, 1], 4, [], [],
    ),
    Case(
        "a loop with a call in it: what is open is the same in each round",
        "0000 65 0020 0001\n0001 16 0021 0010\n0002 45 0001 0003\n0003 01 0000 0003\n"
        "0010 00 0000 0002\n0020 00 0000 0003\n0021 00 0000 0001", [(2, 1, 2)], {},
        [(1, 10, 10, 2)],
        "kept stop programmed", [0, 1, 10, 2, 3], 5, [], [],
    ),
    Case(
        "the same without its mark: the edge that closes the loop",
        "0000 65 0020 0001\n0001 16 0021 0010\n0002 45 0001 0003\n0003 01 0000 0003\n"
        "0010 00 0000 0002\n0020 00 0000 0003\n0021 00 0000 0001", [], {}, [(1, 10, 10, 2)],
        "kept stop programmed", [0, 1, 10, 2, 3], 5, [], [(2, 1)],
    ),
    Case(
        "a loop that begins with something open and goes on with nothing open",
        "0000 65 0020 0001\n0001 16 0021 0002\n0002 45 0001 0003\n0003 01 0000 0003\n"
        "0020 00 0000 0003\n0021 00 0000 0001", [], {}, [(0, 1, 3, 0), (2, 1, 3, 0)],
        "kept stop programmed", [0, 1, 2, 3], 4, [], [(2, 1)],
    ),
    Case(
        "a loop whose second round has nothing open any more is none",
        "0000 00 0000 0001\n0001 00 0000 0002\n0002 00 0000 0001", [], {}, [(0, 1, 1, 2)],
        "left notback 0001 0002 step 4", [0, 1, 2], 4, [], [],
    ),
    Case(
        "too often and not back at once: not back is told",
        "0000 00 0000 0001\n0001 00 0000 0002\n0002 00 0000 0001", [(1, 2, 1)], {},
        [(0, 1, 1, 2)],
        "left notback 0001 0002 step 4", [0, 1, 2], 4, [], [],
    ),
    Case(
        "unlisted and not back at once: unlisted is told",
        "0000 24 0001 0001\n0001 00 0000 0002\n0002 01 0000 0002", [], {1: [(0, 0, 2)]},
        [(0, 1, 1, 2)],
        "left unlisted 0001 +0000000000 step 2", [0, 1, 2], 3, [], [],
    ),
    Case(
        "a call whose edge isn't there, and one whose exit isn't executed",
        "0000 00 0000 0001\n0001 01 0000 0001", [], {}, [(0, 2, 1, 0), (0, 1, 5, 0)],
        "kept stop programmed", [0, 1], 2, ["unused call 0000 0002", "unused call 0000 0001"], [],
    ),
]


# Calls of notes as TOML, and all their faults, without the words `fault` and `notes`.
CALL = "[[call]]\nfrom = %s\nto = %s\nexit = %s\nback = %s\n"
FAULTS = [
    ("", []),
    ("call = []\n", []),
    ("call = 1\n", ["16 kind call"]),
    ("call = [1, {}]\n", [
        "16 kind call.1", "13 missing call.2.from", "13 missing call.2.to",
        "13 missing call.2.exit", "13 missing call.2.back",
    ]),
    (CALL % (0, 8003, 1999, 8000), []),
    (CALL % (2000, -1, 8004, 9999), [
        "15 range call.1." + key for key in ("from", "to", "exit", "back")
    ]),
    (CALL % ("true", "1.0", '"1"', "[]"), [
        "16 kind call.1." + key for key in ("from", "to", "exit", "back")
    ]),
    (CALL % (1, 2, 3, 4) + "name = 1\nedges = 2\n", [
        "14 unknown call.1.edges", "14 unknown call.1.name",
    ]),
    # The same edge and exit; then the same edge with another exit, and the same exit on another.
    (CALL % (1, 2, 3, 4) + CALL % (1, 2, 3, 5), ["15 range call.2.exit"]),
    (CALL % (1, 2, 3, 4) + CALL % (1, 2, 4, 4) + CALL % (2, 1, 3, 4), []),
    # An earlier call counts whatever its way back is; one with another fault in its place doesn't.
    (CALL % (1, 2, 3, -1) + CALL % (1, 2, 3, 4), ["15 range call.1.back", "15 range call.2.exit"]),
    (CALL % (-1, 2, 3, 4) + CALL % (-1, 2, 3, 4), ["15 range call.1.from", "15 range call.2.from"]),
    ("".join(CALL % (1, 2, exit, 4) for exit in range(64)), []),
    ("".join(CALL % (1, 2, exit, 4) for exit in range(65)), ["15 range call"]),
    # Calls come behind lists, and what is there twice comes last.
    (CALL % (1, 2, 3, "''") + "[[list]]\n" + 2 * "[[mark]]\nfrom = 1\nto = 2\nmost = 1\n", [
        "13 missing list.1.location", "13 missing list.1.pattern", "16 kind call.1.back",
        "17 twomarks 0001 0002",
    ]),
]


def deck_of(case):
    """The text of a case's deck, whose first word is its start."""
    lines = [line.split(" ") for line in case.words.strip().split("\n")]
    cards = ["%s +%s\n" % (place, "".join(parts)) for place, *parts in lines]
    return "".join(cards) + "START %s\n" % lines[0][0]


def notes_of(case):
    """The text of a case's notes."""
    lines = [NOTES]
    for source, target, most in case.marks:
        lines += ["[[mark]]", "from = %d" % source, "to = %d" % target, "most = %d" % most]
    for source, target, exit, back in case.calls:
        lines += ["[[call]]", "from = %d" % source, "to = %d" % target]
        lines += ["exit = %d" % exit, "back = %d" % back]
    for location, patterns in case.lists.items():
        lines += ["[[list]]", "location = %d" % location, "pattern = ["]
        form = "  { op = %d, d_from = %d, d_to = %d, i = %d },"
        lines += [form % (op, d, d, i) for op, d, i in patterns] + ["]"]
    return "\n".join(lines) + "\n"


def many(exits):
    """A deck that may open each of so many exits or not, and its notes."""
    words, calls = [], ""
    for at in range(exits):
        place = 3 * at
        words += ["%04d 45 %04d %04d" % (place, place + 1, place + 2)]
        words += ["%04d 00 0000 %04d" % (one, place + 3) for one in (place + 1, place + 2)]
        calls += CALL % (place + 1, place + 3, 1000 + at, 0)
    words.append("%04d 01 0000 0000" % (3 * exits))
    case = Case("", "\n".join(words), *[None] * 8)
    return deck_of(case), NOTES + "\n" + calls
