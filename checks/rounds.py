"""A walk in rounds as docs/ANSWERS.md says: its lines read, and the visits that they stand for spelled
out as the lines of a walk, where these are few enough."""

import re
from collections import namedtuple

from calls import calls_of, none_open, onward
from marks import is_inside, marks_of, place_on
from results import NUMBER, PLACE, VISIT, number_of, waited_bound, waits_of_walk, walked_bound
from toml_text import document_of

FIRST = re.compile("part %s" % NUMBER)
AGAIN = re.compile("part {0} again begun {0} ended {0}".format(NUMBER))
ROUNDS = re.compile("rounds {0} of {1} {1}".format(NUMBER, PLACE))
ROUNDED = re.compile("end rounds each {0} ended {0}".format(NUMBER))
TOTALS = re.compile("reached {0}\nceiling {0}\n".format(NUMBER))

# How many visits are spelled out at most.
MOST_VISITS = 200_000

# A stretch of a walk: when it begins and ends, its visits, each the line and its moments, and when
# each round in it begins and ends.
Stretch = namedtuple("Stretch", "begun ended visits rounds")


class Malformed(Exception):
    """The lines aren't those of a walk in rounds."""


class Lines:
    """The lines that are left, the parts that were told, by their numbers, and the time."""

    def __init__(self, lines):
        self.lines, self.parts, self.time = list(reversed(lines)), {}, 0

    def take(self, what):
        """The next line, where it has this form."""
        matched = what.fullmatch(self.lines[-1]) if self.lines else None
        return matched and self.lines.pop() and matched


def shifted(visits, by):
    """Visits so many word times later."""
    if len(visits) > MOST_VISITS:
        raise OverflowError
    return [(line, later(told, by)) for line, told in visits]


def later(moments, by):
    """Moments so many word times later; None stays."""
    return [None if one is None else one + by for one in moments]


def moments_of(visit):
    return [number_of(visit.group(part)) for part in range(8, 13)]


def visit_of(lines, visit):
    """A stretch of one visit."""
    told = moments_of(visit)
    if told[0] != lines.time:
        raise Malformed("a visit begins at another time")
    lines.time = told[-1]
    return Stretch(told[0], told[-1], [(visit.string.partition(" begun ")[0], told)], [])


def part_of(lines, number):
    """A part where it first comes."""
    if number in lines.parts or number != len(lines.parts) + 1:
        raise Malformed("a part has the wrong number")
    lines.parts[number] = None
    stretch = stretch_of(lines)
    ended = lines.take(re.compile("end part %d" % number))
    if not ended:
        raise Malformed("a part has no end")
    lines.parts[number] = stretch
    return stretch


def part_again(lines, again):
    """A part where it comes again."""
    number, begun, ended = map(int, again.groups())
    part = lines.parts.get(number)
    if part is None or begun != lines.time or ended - begun != part.ended - part.begun:
        raise Malformed("a part comes again otherwise")
    if (begun - part.begun) % 50:
        raise Malformed("a part comes again at another angle")
    lines.time = ended
    by = begun - part.begun
    return Stretch(begun, ended, shifted(part.visits, by), [later(one, by) for one in part.rounds])


def rounds_of(lines, rounds):
    """Rounds of a stretch, which its last visit's way leads to."""
    times, source, target = map(int, rounds.groups())
    one = stretch_of(lines)
    ended = lines.take(ROUNDED)
    each = one.ended - one.begun
    if not ended or not one.visits or times < 1:
        raise Malformed("rounds have no end, or no visit")
    first, last = one.visits[0][0], one.visits[-1][0]
    if int(first[:4]) != target or int(last[:4]) != source:
        raise Malformed("rounds are of another edge")
    if not last.endswith(" to %04d" % target) or each % 50:
        raise Malformed("a round doesn't end where and as it begins")
    if tuple(map(int, ended.groups())) != (each, one.begun + times * each):
        raise Malformed("rounds take another time")
    lines.time = one.begun + times * each
    if times * len(one.visits) > MOST_VISITS:
        raise OverflowError
    visits = [told for turn in range(times) for told in shifted(one.visits, turn * each)]
    first = [*one.rounds, [one.begun, one.ended]]
    all_rounds = [later(told, turn * each) for turn in range(times) for told in first]
    return Stretch(one.begun, lines.time, visits, all_rounds)


def stretch_of(lines):
    """The stretch of the lines from here on, up to an end."""
    begun, visits, all_rounds = lines.time, [], []
    while True:
        if visit := lines.take(VISIT):
            stretch = visit_of(lines, visit)
        elif first := lines.take(FIRST):
            stretch = part_of(lines, int(first.group(1)))
        elif again := lines.take(AGAIN):
            stretch = part_again(lines, again)
        elif rounds := lines.take(ROUNDS):
            stretch = rounds_of(lines, rounds)
        else:
            return Stretch(begun, lines.time, visits, all_rounds)
        visits += stretch.visits
        all_rounds += stretch.rounds
        if len(visits) > MOST_VISITS:
            raise OverflowError


def line_of(visit):
    """A visit as a line of a walk."""
    line, told = visit
    begun, at, ready, data, ended = told
    had = "" if data is None else " data %d" % data
    return "%s begun %d found %d ready %d%s ended %d\n" % (line, begun, at, ready, had, ended)


def edge_of(line):
    """The edge that a visit takes; None where it takes none."""
    source, _, _, target = line[:4], *line.rpartition(" to ")
    return (int(source), int(target)) if target.isdigit() and len(target) == 4 else None


class Rounds:
    """What the lines of a walk in rounds tell: its visits, what it takes, and the ceiling. They have
    to be in order (else they are `Malformed`), and to stand for few visits (else `OverflowError`)."""

    def __init__(self, text):
        lines = text.splitlines(keepends=True)
        totals = TOTALS.fullmatch("".join(lines[-2:]))
        if not totals:
            raise Malformed("no totals")
        self.reached, self.ceiling = map(int, totals.groups())
        left = Lines([line.removesuffix("\n") for line in lines[:-2]])
        whole = stretch_of(left)
        if left.lines or whole.ended != self.reached or self.reached > self.ceiling:
            raise Malformed("lines are left, or the time is another")
        self.visits, self.rounds = whole.visits, whole.rounds

    def walk(self):
        """The lines of the walk, each visit told, and its time as a bound."""
        return "".join(map(line_of, self.visits)) + "bound %d\n" % self.reached

    def edges(self):
        """The edges that it takes, in order."""
        return filter(None, (edge_of(line) for line, _ in self.visits))

    def goes_back(self, files):
        """Whether each step from the exit of a call goes to the way back that is open, and the same
        is open where a round begins and where it ends."""
        calls = calls_of(document_of(files["notes"]))
        opened, at = none_open(calls), {}
        for line, moments in self.visits:
            at[moments[0]], edge = opened, edge_of(line)
            opened = onward(calls, opened, edge) if edge else opened
            if opened is None:
                return False
        at[self.reached] = opened
        return all(at[begun] == at[ended] for begun, ended in self.rounds)

    def passes(self, files):
        """How often it passes each mark of the notes; None where it passes one too often."""
        marks = marks_of(document_of(files["notes"]))
        counts, passes = [0] * len(marks), [0] * len(marks)
        for edge in self.edges():
            passed = place_on(marks, edge)
            if passed is None:
                continue
            for inner in range(len(marks)):
                if is_inside(marks, inner, passed):
                    counts[inner] = 0
            counts[passed] += 1
            passes[passed] += 1
            if counts[passed] > marks[passed].most:
                return None
        return passes


def rounded(text, files):
    """What a walk in rounds takes, where its lines are in order, and the visits that they stand for
    are a walk that passes no mark too often and goes back from each exit as its calls have it; only
    what its last lines tell, where these are many."""
    try:
        told = Rounds(text)
    except Malformed:
        return None
    except OverflowError:
        return int(TOTALS.search(text).group(1))
    is_walk = walked_bound(told.walk(), files) == told.reached
    is_kept = told.passes(files) is not None and told.goes_back(files)
    return told.reached if is_walk and is_kept else None


def passes_of(text, files):
    """How often a walk in rounds passes each mark; None where its visits are many."""
    try:
        return Rounds(text).passes(files)
    except OverflowError:
        return None


# Waits.


def waited_in_rounds(text):
    """What a walk takes to which the times of its waits add up, where these are in order."""
    totals = TOTALS.search(text)
    if not totals or not text.endswith(totals.group(0)):
        return None
    kinds = text[: -len(totals.group(0))]
    return waited_bound("%sbound %s\n" % (kinds, totals.group(1)))


def waits_in_rounds(walk, files):
    """The waits that are counted from the visits of a walk in rounds; None where these are many."""
    try:
        told = Rounds(walk)
    except OverflowError:
        return None
    kinds = "".join(waits_of_walk(told.walk(), files).splitlines(keepends=True)[:-1])
    return kinds + "reached %d\nceiling %d\n" % (told.reached, told.ceiling)
