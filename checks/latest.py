"""What a deck's longest walk spends its word times on, by the plain model (checks/model.py): its
report, and where its word times go by instruction and way. Of the longest walks those are taken
that arrive as late as any does wherever they come; where these don't all come to the same, there
is none. And the table of these latest arrivals."""

import sys
from collections import namedtuple

from calls import none_open
from marks import place_on
from model import WAITS_FOR_DATA, found

MANY = "more than one"

# A hop of a walk with its moments, counted from a moment of angle 0 on; one that stops early has no
# data.
Hop = namedtuple("Hop", "place op d i way begun found ready data ended")
# What the hops of one kind take in all, the moment at which the first of them begins, and the
# angles at which that one would wait for nothing.
Row = namedtuple("Row", "visits time instruction data cards begun data_at next_at")


class Cards:
    """The cards of a deck and the marks of its notes, which a report counts by."""

    def __init__(self, walks, deck):
        self.marks, self.lines, self.card_of = walks.marks, [], {}
        for number, line in enumerate(open(deck).read().splitlines(), 1):
            first, *words = line.split(" ")
            if first.isdigit():
                places = range(int(first), int(first) + len(words))
                self.card_of.update(dict.fromkeys(places, len(self.lines)))
                self.lines.append(number)

    def mark_of(self, hop):
        return place_on(self.marks, (hop.place, hop.way))

    def nothing(self):
        """The tally of a walk that hasn't begun."""
        cards = len(self.lines) + 1
        return Tally(self, [0] * cards, [0] * cards, [0] * len(self.marks))


class Tally:
    """What a report counts of a walk: at each card visits and time, and for each mark its
    passes."""

    def __init__(self, cards, visits, times, passes):
        self.cards, self.visits, self.times, self.passes = cards, visits, times, passes

    def after(self, hop):
        """The tally with one more hop."""
        tally = Tally(self.cards, self.visits[:], self.times[:], self.passes[:])
        card = self.cards.card_of.get(hop.place, len(self.cards.lines))
        tally.visits[card] += 1
        tally.times[card] += hop.ended - hop.begun
        mark = self.cards.mark_of(hop)
        if mark is not None:
            tally.passes[mark] += 1
        return tally

    def __eq__(self, other):
        return other is not MANY and vars(self) == vars(other)

    def text(self):
        cards = zip(self.cards.lines, self.visits, self.times)
        lines = ["card %04d visits %d time %d" % one for one in cards]
        lines.append("other visits %d time %d" % (self.visits[-1], self.times[-1]))
        for mark, passes in zip(self.cards.marks, self.passes):
            told = *mark.first, passes, mark.most, mark.ending()
            lines.append("mark %04d %04d passed %d of %d%s" % told)
        return lines


class Kinds:
    """What the hops of a walk take in all, by where they begin, their instruction and how they
    end. What each operation waits for the card machine is its longest wait."""

    def __init__(self, rows, waits):
        self.rows, self.waits = rows, waits

    def after(self, hop):
        """The kinds with one more hop."""
        kind = hop.place, hop.op, hop.d, hop.i, hop.way
        row = self.rows.get(kind) or Row(0, 0, 0, 0, 0, hop.begun, *angles_of(hop))
        data = 0 if hop.data is None else hop.data - hop.ready
        cards = 0 if hop.way == "early" else self.waits.get(hop.op, 0)
        spent = 1, hop.ended - hop.begun, hop.found - hop.begun, data, cards
        sums = [one + more for one, more in zip(row, spent)]
        return Kinds({**self.rows, kind: Row(*sums, *row[len(sums) :])}, self.waits)

    def __eq__(self, other):
        return other is not MANY and self.rows == other.rows

    def text(self):
        rows = sorted(self.rows.items(), key=lambda one: (-one[1].time, one[1].begun))
        _, time, instruction, data, cards, *_ = map(sum, zip(*(row[:5] for _, row in rows)))
        told = time - instruction - data - cards, instruction, data, cards
        total = "total work %d instruction %d data %d cards %d" % told
        return [row_line(kind, row) for kind, row in rows] + [total]


def angles_of(hop):
    """The angles at which a hop would wait neither for its data nor for the next instruction; None
    where it waits for none, and where it or what it waits for is beside the drum."""
    is_on_drum, goes_on = hop.place < 2000, hop.way not in ("early", "late")
    waits_for_data = hop.op in WAITS_FOR_DATA and hop.data is not None and hop.d < 2000
    data_at = hop.ready % 50 if is_on_drum and waits_for_data else None
    return data_at, hop.ended % 50 if is_on_drum and goes_on and hop.way < 2000 else None


def row_line(kind, row):
    """The line of the hops of a kind."""
    place, op, d, i, way = kind
    onto = way if way in ("early", "late") else "to %04d" % way
    work = row.time - row.instruction - row.data
    sums = row.visits, row.time, row.instruction, row.data, work
    line = "%04d %02d %04d %04d %s" % (place, op, d, i, onto)
    line += " visits %d time %d instruction %d data %d work %d" % sums
    for name, angle in [("data-at", row.data_at), ("next-at", row.next_at)]:
        line += "" if angle is None else " %s %d" % (name, angle)
    return line


class Latest:
    """The latest arrivals at each location, with what is open there at the exits of calls and with
    counts of the marks, each with the tally of the walks that make it; nothing is the tally of none
    of their hops."""

    def __init__(self, walks, nothing):
        self.walks, self.nothing = walks, nothing
        self.start = walks.start, none_open(walks.calls), (0,) * len(walks.marks)
        self.arrivals, self.ended = {}, (0, MANY)

    def later(self, one, hop, tally):
        """The later of an arrival and the end of a hop behind this tally; MANY tallies where both
        are as late, and not alike."""
        if one is not None and one[0] > hop.ended:
            return one
        then = MANY if tally is MANY else tally.after(hop)
        if one is None or one[0] < hop.ended or one[1] == then:
            return hop.ended, then
        return hop.ended, MANY

    def hops(self, key):
        """The hops of a location with counts: the instruction, the way, and the location with
        counts behind it, if any."""
        place, opened, counts = key
        for op, d, i in self.walks.instructions(place):
            for way in self.walks.ways(op, d, i):
                goes_on = way not in ("early", "late")
                after = self.walks.passed(counts, place, way) if goes_on else counts
                then = self.walks.onward(opened, place, way) if goes_on else opened
                if after is not None and then is not None:
                    yield op, d, i, way, (way, then, after) if goes_on else None

    def order(self, key, seen, behind):
        """Each location with counts that a walk comes to, after all that lead from it to others."""
        seen.add(key)
        for *_, onto in self.hops(key):
            if onto is not None and onto not in seen:
                self.order(onto, seen, behind)
        behind.append(key)
        return behind

    def behind(self, start):
        """Each location with counts that a walk comes to, before all that it leads to."""
        # The order is looked for as deep as a walk has hops.
        sys.setrecursionlimit(1_000_000)
        return reversed(self.order(start, set(), []))

    def take(self, key):
        """Follows each hop of a location with counts from its latest arrival."""
        place = key[0]
        begun, tally = self.arrivals[key]
        at = found(place, begun)
        for op, d, i, way, onto in self.hops(key):
            ready = at + self.walks.times[op]["before"]
            data, end = None, ready
            if way != "early":
                data = found(d, ready) if op in WAITS_FOR_DATA else ready
                end = max(self.walks.ends(op, d, ready))
            hop = Hop(place, op, d, i, way, begun, at, ready, data, end)
            # A walk may end with any hop.
            self.ended = self.later(self.ended, hop, tally)
            if onto is not None:
                self.arrivals[onto] = self.later(self.arrivals.get(onto), hop, tally)

    def lines(self):
        """The lines of the tally, and the bound; None where the walks have more than one tally."""
        angle = (self.walks.start + 1) % 50
        self.arrivals[self.start] = angle, self.nothing
        for key in self.behind(self.start):
            self.take(key)
        end, tally = self.ended
        return None if tally is MANY else tally.text() + ["bound %d" % (end - angle)]


def report(walks, deck):
    """The lines of the report; None where the longest walks have more than one."""
    return Latest(walks, Cards(walks, deck).nothing()).lines()


def waits(walks):
    """The lines of where the word times go; None where the longest walks have more than one."""
    waits = {op: entry["wait_max"] for op, entry in walks.times.items() if "wait_max" in entry}
    return Latest(walks, Kinds({}, waits)).lines()


class Uncounted:
    """What is counted of a walk for the table: nothing."""

    def after(self, hop):
        return self

    def text(self):
        return []


def worst(walks):
    """The bound: 0 where no walk has a hop, as from an exit with nothing open."""
    lines = Latest(walks, Uncounted()).lines()
    return int(lines[-1].removeprefix("bound ")) if lines else 0


def table(walks):
    """The lines of the table: when each location is come to at the latest, by the counts of the
    marks. Notes with calls have none."""
    latest = Latest(walks, Uncounted())
    latest.lines()
    first = (walks.start + 1) % 50
    arrivals = latest.arrivals.items()
    return table_lines(
        walks, {(place, counts): clock - first for (place, _, counts), (clock, _) in arrivals}
    )


def table_lines(walks, times_used):
    """The lines of a table, of the most word times used at each location, by the counts."""
    first = (walks.start + 1) % 50
    rows = [
        (place, numbered(walks, counts), counts, used)
        for (place, counts), used in times_used.items()
    ]
    return [
        "%04d angle %d counts%s time %d"
        % (place, (first + used) % 50, "".join(" %d" % count for count in counts), used)
        for place, _, counts, used in sorted(rows)
    ]


def numbered(walks, counts):
    """The counts of the marks as one number: the first mark's, and in units of its most + 1 the
    number of the others'."""
    number = 0
    for mark, count in reversed(list(zip(walks.marks, counts))):
        number = number * (mark.most + 1) + count
    return number
