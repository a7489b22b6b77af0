"""Decks that are made to defeat the search for a ceiling, for checks/hostile."""

import re

from hostile_case import NOTES, Case, card, fault, marks
from hostile_decks import ROUNDS, counting, has_lines, loops, ring, storing_drum


def ceiling(case, marks_in_it, total):
    """The ceiling of a case's deck, which some walk reaches."""
    last = b"ceiling %d\n" % total
    holds = is_ceiling(marks_in_it, total, total)
    name = "the ceiling of %s" % case.name.removeprefix("bound of ")
    return Case(name, last, "ceiling", holds=holds, **case.parts)


def marks_of_many():
    """As many marks as there may be, each of as many edges, and with a name."""
    text = b""
    for mark in range(64):
        edges = ", ".join("[%d, %d]" % (mark, 200 + onto) for onto in range(64))
        text += b"[[mark]]\nmost = 9999\nedges = [%s]\n" % edges.encode()
        text += b'name = "%020d"\n' % mark
    return text


def of_ceilings():
    """Decks at the limit of a bound, and far past it."""
    yield ceiling(storing_drum(64), 0, 49 + 1999 * 101 + 1)
    yield ceiling(ring(9999), 1, 49 + 2000 * 10000 - 1)
    yield ceiling(loops([9999] * 8), 8, 74 + 50 * (10000**8 - 1))
    # A mark that nobody passes makes the counting ring too large for a bound.
    traced = counting("trace")
    parts = dict(traced.parts, notes=traced.parts["notes"] + marks([(0, 0, 9, 0)]))
    line = traced.line.replace(b"bound", b"ceiling")
    holds = has_lines(1998 * ROUNDS + 4, line)
    yield Case("%s by its ceiling" % traced.name, line, "trace", holds=holds, **parts)
    # Nobody passes a mark of these.
    notes = NOTES + marks_of_many()
    holds = is_ceiling(64, 56, 56)
    yield Case("64 marks of 64 edges", b"ceiling 56\n", "ceiling", notes=notes, holds=holds)
    name = "check of 64 marks of 64 edges"
    last = b"unused mark 0063 0263\n"
    yield Case(name, last, "check", notes=notes, holds=has_lines(64 * 64, last))
    nested = marks([(1000 + mark, 0, 9999, mark) for mark in range(64)])
    name = "64 nested marks of 9999 that nobody passes"
    yield Case(name, b"ceiling 56\n", "ceiling", notes=NOTES + nested, holds=holds)
    yield from of_marks()


def is_ceiling(marks_in_it, least, most):
    """That a file has a line for each mark, and a ceiling of so many word times behind what a walk
    takes, which is no more."""

    def look(path):
        with open(path, "rb") as file:
            lines = file.read().splitlines(keepends=True)
        totals = re.fullmatch(rb"reached ([0-9]+)\nceiling ([0-9]+)\n", b"".join(lines[-2:]))
        reached, ceiling = map(int, totals.groups()) if totals else (0, -1)
        if len(lines) == marks_in_it + 2 and reached <= ceiling and least <= ceiling <= most:
            return None
        return "%d lines, the last %r" % (len(lines), lines[-2:])

    return look


def shared_marks(edges, most, are_nested=False):
    """Long marks of these lists of edges, each inside of the one before, or none."""
    text = b""
    for number, pairs in enumerate(edges):
        told = ", ".join("[%d, %d]" % pair for pair in pairs)
        text += b"[[mark]]\nmost = %d\nedges = [%s]\n" % (most, told.encode())
        text += b"inside = %d\n" % number if are_nested and number else b""
    return text


def ring_of_marks():
    """64 words in a ring, each with a mark on its way. The last one's may be passed least: in each
    of its hundred rounds it is 63 until the last word comes, 1 for that, and 36 until the first
    comes again. Then the last word comes once more, whose hop is barred: it is the one before that
    ends the walk, which takes 1."""
    deck = b"START 0000\n" + b"".join(card(here, 0, 0, (here + 1) % 64) for here in range(64))
    text = marks([(here, (here + 1) % 64, 9999 - here, 0) for here in range(63)])
    text += marks([(63, 0, 100, 0)])
    return 64, 49 + 100 * 100 + 62 + 1, deck, text


def deep_loops(most):
    """64 words that branch back to the first, each mark inside of the one of the word behind. A
    word takes 3, and the first comes again at the next whole revolution; at last the stop takes
    1."""
    deck = b"".join(card(here, 45, 100, here + 3) for here in range(100, 292, 3))
    deck += card(292, 1, 0, 292) + b"START 0100\n"
    text = marks([(289 - 3 * outer, 100, most, outer) for outer in range(64)])
    inner = 0
    for word in range(64):
        inner += most * (inner + -(-3 * (word + 1) // 50) * 50)
    return 64, 49 + inner + 3 * 64 + 1, deck, text


def branched_loops():
    """64 loops of thirty words one after the other, each behind a branch that goes into it or past
    it, and sixteen words more. A branch comes 51 before its loop, the loop's last word 29 behind
    its first, and what is behind it 51 later; and a round takes 50."""
    deck, text = b"START 0000\n", b""
    for branch in range(0, 64 * 31, 31):
        first, last, onward = branch + 1, branch + 30, branch + 31
        deck += card(branch, 45, first, onward) + card(last, 44, first, onward)
        deck += b"".join(card(here, 0, 0, here + 1) for here in range(first, last))
        text += marks([(last, first, 9999, 0)])
    deck += b"".join(card(here, 0, 0, here + 1) for here in range(64 * 31, 1999))
    deck += card(1999, 1, 0, 1999)
    return 64, 49 + 64 * (131 + 50 * 9999) + 15 + 1, deck, text


def barred_ways():
    """2000 words that go on at the next or at the one after it, the former by marks of most 0. So
    every second one comes, 52 behind the one before; and then the last two."""
    deck = b"".join(card(here, 44, here + 2, here + 1) for here in range(1998))
    deck += card(1998, 0, 0, 1999) + card(1999, 1, 0, 1999) + b"START 0000\n"
    edges = [(here, here + 1) for here in range(1998)]
    text = shared_marks([edges[at : at + 64] for at in range(0, 1998, 64)], 0)
    return 32, 49 + 999 * 52 + 1 + 1, deck, text


def wide_rows():
    """34 words that each go on at the next, or at any behind them all: 66,844 ways. They come 51
    apart, and so does the first one behind them; the others come 1 apart. The last of all goes
    back, for which it is 51 too, or nowhere, for which it takes 3."""
    deck = b"START 0000\n" + b"".join(card(here, 0, 0, here + 1) for here in range(34, 1999))
    deck += card(1999, 44, 0, 9999)
    one = "[[list]]\nlocation=%d\npattern=[{op=45,d_from=34,d_to=1999,i=%d}]\n"
    text = "".join(one % (here, here + 1) for here in range(34)).encode()
    way = 34 * 51 + 1965
    return 1, 49 + 9999 * (way + 51) + way + 3, deck, text + marks([(1999, 0, 9999, 0)])


def beside_the_drum():
    """2000 words that go on at the next or at 8001 to 8003, from where it goes on at any of sixty
    words; all ways there have marks."""
    deck = b"START 0000\n"
    deck += b"".join(card(here, 46, 8001 + here % 3, here + 1) for here in range(1999))
    deck += card(1999, 1, 0, 1999)
    text = b""
    for beside in (8001, 8002, 8003):
        one = "{op=0,d_from=0,d_to=0,i=%d}"
        told = ",".join(one % (onto * 31 + beside % 31) for onto in range(60))
        text += b"[[list]]\nlocation=%d\npattern=[%s]\n" % (beside, told.encode())
    edges = [(here, 8001 + here % 3) for here in range(1999)]
    return deck, text + shared_marks([edges[at : at + 32] for at in range(0, 1999, 32)], 3)


def crossing_loops(most, are_nested=False):
    """2000 words that go on at the next or back, each to another distance: 64 marks have 32 ways
    back each, at most, whose loops cross one another."""
    back = [here * 677 % (here + 1) for here in range(2000)]
    deck = b"START 0000\n"
    deck += b"".join(card(here, 44, back[here], here + 1) for here in range(2000))
    edges = [[(here, back[here]) for here in range(mark, 2000, 64)] for mark in range(64)]
    return deck, shared_marks(edges, most, are_nested)


def of_marks():
    """What the search for a ceiling has most to do with. A total that isn't known is held to the
    way straight on, where each word comes 51 behind the one before, and to what no ceiling is
    above: words, times 52 for a branch with the search behind it, times one more than all
    passes."""
    for name, made in [
        ("64 marks on one cycle", ring_of_marks()),
        ("64 loops, each inside of the one before", deep_loops(2)),
        ("64 loops, each behind a branch", branched_loops()),
        ("1998 ways that are barred", barred_ways()),
        ("66,844 ways from 34 words", wide_rows()),
    ]:
        number, total, deck, text = made
        last = b"ceiling %d\n" % total
        parts = {"deck": deck, "notes": NOTES + text, "holds": is_ceiling(number, total, total)}
        yield Case("the ceiling of %s" % name, last, "ceiling", **parts)
    straight = 49 + 1999 * 51
    for name, number, passes, (deck, text) in [
        ("1999 ways to 8001 to 8003", 63, 63 * 3, beside_the_drum()),
        ("2000 loops that cross one another", 64, 64 * 5, crossing_loops(5)),
        ("the same, 64 deep", 64, 2**64 - 1, crossing_loops(1, are_nested=True)),
    ]:
        holds = is_ceiling(number, straight, 2003 * 52 * (1 + passes))
        parts = {"deck": deck, "notes": NOTES + text, "holds": holds}
        yield Case("the ceiling of %s" % name, b"ceiling ..\n", "ceiling", **parts)
    _, _, deck, text = deep_loops(9999)
    line = fault(36, b"toolarge", b"%d" % 2**127)
    name = "64 loops of 9999, each inside of the one before"
    yield Case(name, line, "ceiling", deck=deck, notes=NOTES + text)


def calls(edges):
    """Calls of (from, to, exit, back)."""
    one = b"[[call]]\nfrom = %d\nto = %d\nexit = %d\nback = %d\n"
    return b"".join(one % edge for edge in edges)


def left_open(exits, rounds):
    """Branches that open an exit or don't, which nobody closes, and then loops of one word. What
    is behind a branch comes 52 behind it, either way; a loop's word comes again after 50, and what
    is behind it 51 after."""
    deck, opened = b"START 0000\n", []
    for exit in range(exits):
        here = 2 * exit
        deck += card(here, 45, here + 1, here + 2) + card(here + 1, 0, 0, here + 2)
        opened.append((here, here + 1, 1000 + exit, 1500))
    places = range(2 * exits, 2 * exits + rounds)
    deck += b"".join(card(here, 45, here, here + 1) for here in places)
    deck += card(2 * exits + rounds, 1, 0, 0)
    text = marks([(here, here, 99, 0) for here in places]) + calls(opened)
    total = 49 + 52 * exits + rounds * (99 * 50 + 51) + 1
    return rounds, total, deck, text


def open_beside_the_drum(exits):
    """Branches that open exits or don't, and then four words beside the drum, each of which goes on
    at each, with fifty addresses of data, or stops."""
    deck, opened = b"START 0000\n", []
    for exit in range(exits):
        here = 2 * exit
        deck += card(here, 45, here + 1, here + 2) + card(here + 1, 0, 0, here + 2)
        opened.append((here, here + 1, 1000 + exit, 1500))
    deck += card(2 * exits, 0, 0, 8000)
    beside = range(8000, 8004)
    ways = "".join("{op=60,d_from=0,d_to=49,i=%d}," % onto for onto in beside)
    ways += "{op=1,d_from=0,d_to=0,i=0}"
    text = "".join("[[list]]\nlocation=%d\npattern=[%s]\n" % (here, ways) for here in beside)
    edges = [(here, onto, 99, 0) for here in beside for onto in beside]
    return deck, marks(edges) + calls(opened) + text.encode()


def of_exits():
    """Exits that are open or not, and nobody closes: there are nodes of each. A step beside the drum
    takes 106 at most, of which 98 are waits."""
    for exits, rounds in [(8, 64), (9, 49), (10, 30)]:
        number, total, deck, text = left_open(exits, rounds)
        holds = is_ceiling(number, total, total)
        name = "the ceiling of %d exits left open, and %d loops" % (exits, rounds)
        last = b"ceiling %d\n" % total
        yield Case(name, last, "ceiling", deck=deck, notes=NOTES + text, holds=holds)
    for exits in range(3):
        deck, text = open_beside_the_drum(exits)
        holds = is_ceiling(16, 49, 49 + 52 * exits + 106 * (2 + 16 * 99))
        name = "the ceiling of a ring beside the drum, %d exits left open" % exits
        yield Case(name, b"ceiling ..\n", "ceiling", deck=deck, notes=NOTES + text, holds=holds)


def cases():
    yield from of_ceilings()
    yield from of_exits()
