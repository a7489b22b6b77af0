"""Whether the lines of a ceiling and of its walk are what docs/ANSWERS.md says, of a deck, a timing
table and notes that are admitted; and, by the plain model, whether the numbers may be those."""

import re
from math import prod

from calls import none_open
from findings import Flow
from latest import Latest, Uncounted, worst
from marks import is_inside, marks_of, place_on
from model import found
from results import NUMBER, PLACE
from tables import TextWalks
from toml_text import document_of

PRICED = re.compile("mark {0} {0} price {1} passed {1}".format(PLACE, NUMBER))
TOTALS = re.compile("reached {0}\nceiling {0}\n".format(NUMBER))

# The model goes through all rounds where there are no more instructions times counts than this, and
# through all steps where there are no more instructions; and through all passes where there are no
# more instructions times counts times passes.
FEW_ROUNDS, FEW_STEPS, FEW_PASSES = 300, 3000, 10_000

# From so many word times on there may be no ceiling.
LARGEST = 2**127


class Bracket:
    """What the lines of a ceiling and its walk tell: the prices, how often the walk passes each mark,
    what it takes, and the ceiling."""

    def __init__(self, priced, totals):
        self.prices = [int(one.group(3)) for one in priced]
        self.passes = [int(one.group(4)) for one in priced]
        self.reached, self.ceiling = map(int, totals.groups())


def bracket_of(text, marks):
    """What lines tell; None where they aren't those of a ceiling under these marks."""
    lines = text.splitlines(keepends=True)
    totals = TOTALS.fullmatch("".join(lines[-2:]))
    if not totals or len(lines) != len(marks) + 2:
        return None
    priced = []
    for mark, line in zip(marks, lines):
        matched = PRICED.fullmatch(line.removesuffix(mark.ending() + "\n"))
        if not matched or tuple(map(int, matched.group(1, 2))) != mark.first:
            return None
        priced.append(matched)
    return Bracket(priced, totals)


def ceiling_of(text, files):
    """The number that ends a ceiling, with a line before it for each mark of the notes and one of a
    walk; None where it can't be one, as far as the model tells."""
    told = bracket_of(text, marks_of(document_of(files["notes"])))
    if told is None or told.ceiling >= LARGEST:
        return None
    limit = most_ceiling(files)
    is_low = limit is None or told.ceiling <= limit
    is_right = is_low and pay_for_rounds(told.prices, files) and may_be_walk(told, files)
    return told.ceiling if is_right else None


def may_be_walk(told, files):
    """Whether a walk may take what is reached and pass the marks so often, as far as the model
    tells: it takes no more than the ceiling, it passes no mark more often than the notes let any,
    and where the model can go through all walks, one of those with these passes takes as long."""
    walks = TextWalks(files)
    most = passes_of(walks.marks)
    if told.reached > told.ceiling or any(map(int.__gt__, told.passes, most)):
        return False
    if not walks.is_small():
        return True
    if walks.size() * prod(1 + passes for passes in most) > FEW_PASSES:
        return told.reached <= worst(walks)
    return told.reached <= longest_by_passes(walks).get(tuple(told.passes), -1)


def longest_by_passes(walks):
    """What the longest walk takes of those that pass each mark so often, for all such passes."""
    latest, none = Latest(walks, Uncounted()), (0,) * len(walks.marks)
    begun = (walks.start + 1) % 50
    # The latest arrivals at each place with counts, and the latest end of a walk, by the passes.
    arrivals, ended = {latest.start: {none: begun}}, {none: begun}
    for key in latest.behind(latest.start):
        for passes, arrived in arrivals[key].items():
            at = found(key[0], arrived)
            for op, d, i, way, onto in latest.hops(key):
                ready = at + walks.times[op]["before"]
                end = ready if way == "early" else max(walks.ends(op, d, ready))
                mark = place_on(walks.marks, (key[0], way))
                then = tuple(often + (place == mark) for place, often in enumerate(passes))
                ended[then] = max(end, ended.get(then, 0))
                if onto is not None:
                    behind = arrivals.setdefault(onto, {})
                    behind[then] = max(end, behind.get(then, 0))
    return {passes: end - begun for passes, end in ended.items()}


def least_ceiling(files):
    """What a ceiling can't be below: the bound by the plain model, where it can tell, else 0."""
    walks = TextWalks(files)
    return worst(walks) if walks.is_small() else 0


def passes_of(marks):
    """How often each mark can be passed at all."""
    passes = []
    for mark in marks:
        outer, times = mark.inside, mark.most
        while outer is not None:
            times *= marks[outer].most + 1
            outer = marks[outer].inside
        passes.append(times)
    return passes


def most_ceiling(files):
    """What a ceiling can't be above: executed words, each as often as there are nodes of it, times
    the longest step of one with a search of 49 behind it, times one more than all passes of marks;
    None where there is too much to go through."""
    walks, flow = TextWalks(files), Flow(files)
    steps = [(place, *one) for place in flow.order for one in walks.instructions(place)]
    if len(steps) > FEW_STEPS:
        return None
    longest = max(
        step_of(walks, angle, *one)
        for place, *one in steps
        for angle in range(50)
        if found(place, angle) == angle
    )
    return len(flow.nodes) * longest * (1 + sum(passes_of(walks.marks)))


def may_be_too_large(files):
    """Whether there may be no ceiling for a deck's size, as far as the model tells."""
    limit = most_ceiling(files)
    return limit is None or limit >= LARGEST


def step_of(walks, angle, op, d, i):
    """The most word times of an instruction that is found at an angle, with a search of 49."""
    ready = angle + walks.times[op]["before"]
    is_early = walks.ways(op, d, i) == {"early"}
    return (ready if is_early else max(walks.ends(op, d, ready))) - angle + 49


class Rounds:
    """The walks of a deck, from when an instruction is found until another one is: a node is a
    location, the angle at which its instruction is found, what is open at the exits of calls, and
    the counts of the marks."""

    def __init__(self, walks):
        self.walks, self.hops, self.order = walks, {}, []
        counts = (0,) * len(walks.marks)
        self.visit((walks.start, walks.start % 50, none_open(walks.calls), counts))
        self.order.reverse()

    def visit(self, node):
        """Goes through all nodes that are come to from one, each before those that lead to it."""
        place, angle, opened, counts = node
        self.hops[node] = []
        for op, d, i in self.walks.instructions(place):
            ready = angle + self.walks.times[op]["before"]
            for way in self.walks.ways(op, d, i) - {"early", "late"}:
                after = self.walks.passed(counts, place, way)
                behind = self.walks.onward(opened, place, way)
                if after is not None and behind is not None:
                    then = found(way, max(self.walks.ends(op, d, ready)))
                    onto = way, then % 50, behind, after
                    mark = place_on(self.walks.marks, (place, way))
                    self.hops[node].append((onto, then - angle, mark))
                    if onto not in self.hops:
                        self.visit(onto)
        self.order.append(node)

    def heads(self, mark):
        """Where passes of a mark lead, on the drum."""
        hops = (hop for hops in self.hops.values() for hop in hops)
        return {onto for onto, _, on in hops if on == mark and onto[0] < 2000}

    def are_paid(self, mark, prices):
        """Whether prices pay for each round of a mark: from where a pass leads until a pass leads
        there again, with the same open, the mark's price for each of its passes, and that of each
        other mark that doesn't stand inside of it."""
        free = [is_inside(self.walks.marks, other, mark) for other in range(len(prices))]
        for head in self.heads(mark):
            owed = {head: 0}
            for node in self.order[self.order.index(head) :]:
                for onto, time, on in self.hops[node] if node in owed else []:
                    paid = 0 if on is None or free[on] else prices[on]
                    owed[onto] = max(owed[node] + time - paid, owed.get(onto, -(10**60)))
                    is_round = on == mark and (onto[0], onto[2]) == (head[0], head[2])
                    if is_round and owed[node] + time > paid:
                        return False
        return True


def pay_for_rounds(prices, files):
    """Whether prices pay for all rounds of all marks, where the model can go through them."""
    walks = TextWalks(files)
    if walks.size() > FEW_ROUNDS:
        return True
    rounds = Rounds(walks)
    return all(rounds.are_paid(mark, prices) for mark in range(len(prices)))
