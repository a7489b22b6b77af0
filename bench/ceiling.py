#!/usr/bin/env python3
"""Compares the ceiling with the bound and with linear programs, measures how long it takes, and
prints the figures.

    bench/ceiling.py [PROGRAM [COUNT [EARLIER]]]

PROGRAM is the one of these sources (checks/program.py) unless it is given. EARLIER is another
build, whose ceilings and times are compared too.

The decks are made here, from seeds:

- the 22 programs of ceiling_programs.py;
- COUNT programs of ceiling_structured.py that have a bound (300, unless it is given), half as many
  that are past its limit, and half as many wild ones, with a bound;
- COUNT programs of ceiling_calls.py, with calls, whose worst time is that of the plain model: it
  stands in for the bound, and there is no linear program of them;
- a third of COUNT of each kind of ceiling_beside.py, whose marks stand beside one another on one
  cycle, with a bound, and as many past its limit;
- a third of COUNT of odd decks of ceiling_random.py: the first that have a bound. They are of mixed
  flow, and every third of them has branches at most of its words.

The ceiling is compared with `bound`, where there is one, and with the optimum that glpsol gives of
two linear programs (linear_programs.py): that by entries, and that of the whole run, which is what
prices alone come to. Without glpsol they are left out. The time that the walk beside the ceiling
reaches is compared with the ceiling and the bound. A deck where a ceiling is above what it is
compared with, or the time reached below, is printed, with what was found. The status is 1 where a
ceiling is below the bound, or above the optimum of the whole run or the ceiling of EARLIER; or
where the time reached is above the ceiling or the bound."""

import itertools
import os
import re
import subprocess
import sys
import tempfile
import time

TOP = os.path.dirname(os.path.dirname(os.path.abspath(__file__)))
sys.path.insert(0, os.path.join(TOP, "checks"))

import ceiling_beside
import ceiling_decks
import ceiling_programs
import linear_programs
import model
from ceiling_calls import CallDeck
from ceiling_random import RandomDeck
from ceiling_structured import StructuredDeck
from program import built_program

TIMES = os.path.join(TOP, "examples/times.toml")
COUNT = 300
PRICED = re.compile(r"mark [0-9]{4} [0-9]{4} price [0-9]+ passed [0-9]+( name \S+)?")
TOTALS = re.compile(r"reached ([0-9]+)\nceiling ([0-9]+)")
TOTAL = re.compile(r"ceiling ([0-9]+)")


class Bench:
    """The program, and a folder for the files."""

    def __init__(self, program, folder):
        self.program, self.folder = program, folder
        self.times = model.read_times(TIMES)

    def path(self, name):
        return os.path.join(self.folder, name)

    def put(self, deck, notes):
        for name, text in [("deck", deck), ("notes", notes)]:
            with open(self.path(name), "w") as file:
                file.write(text)

    def run(self, command, program=None):
        words = [program or self.program, command]
        words += [self.path("deck"), TIMES, self.path("notes")]
        return subprocess.run(words, capture_output=True, text=True)

    def lines(self, command, program=None):
        """What the program prints over the files."""
        done = self.run(command, program)
        if done.returncode != 0:
            sys.exit("%s: %s%s" % (command, done.stderr, open(self.path("deck")).read()))
        return done.stdout.splitlines()

    def walks(self):
        """The walks of the deck that is put, as the plain model has them."""
        return model.walks_of(self.path("deck"), self.times, self.path("notes"))

    def bound(self):
        """The bound, or the worst time of notes with calls, which have none."""
        walks = self.walks()
        return walks.longest() if walks.calls else int(self.lines("bound")[0].split()[1])

    def has_bound(self):
        """Whether the deck is small enough for a bound."""
        return not self.run("bound").stderr.startswith("fault 36 ")

    def bracket(self):
        """What a walk reaches, and the ceiling, once each mark of the notes is seen to have a line
        with its price and passes."""
        lines = self.lines("ceiling")
        marks, totals = lines[:-2], TOTALS.fullmatch("\n".join(lines[-2:]))
        wrong = [line for line in marks if not PRICED.fullmatch(line)]
        with open(self.path("notes")) as file:
            count = file.read().count("[[mark]]")
        if totals is None or wrong or len(marks) != count:
            sys.exit("lines of a ceiling of %d marks: %s" % (count, lines))
        return int(totals[1]), int(totals[2])

    def ceiling_of(self, program):
        """The ceiling by another build, whatever its other lines are."""
        return int(TOTAL.fullmatch(self.lines("ceiling", program)[-1])[1])

    def optima(self):
        """The optimum of the whole run, and that by entries; None without glpsol, or with calls."""
        walks = self.walks()
        return (None, None) if walks.calls else linear_programs.optima(walks, self.path("linear"))


def is_equal(one, other):
    """Whether two numbers are equal; of an optimum, whether no whole number stands between, as far
    as glpsol's numbers tell."""
    if isinstance(one, int) and isinstance(other, int):
        return one == other
    return abs(one - other) < 1 + 1e-9 * other


class Tally:
    """How often a number was equal to what it is compared with, how often it was above or below,
    and how far at most."""

    def __init__(self, what, other):
        self.what, self.other = what, other
        self.equal, self.below, self.above, self.least, self.worst = 0, 0, 0, 1.0, 1.0

    def add(self, deck, number, other, told):
        """Counts two numbers, and prints them where the one is `above` or `below` the other, which
        of these is to be told."""
        if is_equal(number, other):
            self.equal += 1
            return
        if number < other:
            self.below += 1
            self.least = min(self.least, number / other)
        else:
            self.above += 1
            self.worst = max(self.worst, number / max(other, 1))
        if told == ("below" if number < other else "above"):
            numbers = deck, self.what, number, self.other, other
            print("%s: the %s %.12g, the %s %.12g" % numbers)

    def told(self):
        text = "the %s is the %s on %d" % (self.what, self.other, self.equal)
        text += " of %d" % self.count()
        if self.below:
            text += ", below it on %d, %.6g times at least" % (self.below, self.least)
        if self.above:
            text += ", above it on %d, %.6g times at most" % (self.above, self.worst)
        return text

    def count(self):
        return self.equal + self.below + self.above


class Set:
    """Some decks, each by its name, its text and that of its notes, and what is found of them."""

    def __init__(self, bench, name, decks, earlier=None):
        self.bench, self.name, self.decks, self.earlier = bench, name, decks, earlier
        pairs = [
            ("time reached", "ceiling"),
            ("time reached", "bound"),
            ("ceiling", "bound"),
            ("optimum by entries", "bound"),
            ("optimum of the whole run", "bound"),
            ("ceiling", "optimum by entries"),
            ("ceiling", "optimum of the whole run"),
            ("ceiling", "earlier ceiling"),
        ]
        self.tallies = [Tally(*pair) for pair in pairs]

    def numbers(self, with_bound):
        """What is found of the deck that is put, by what it is called."""
        whole, entries = self.bench.optima()
        reached, ceiling = self.bench.bracket()
        found = {
            "time reached": reached,
            "ceiling": ceiling,
            "bound": self.bench.bound() if with_bound else None,
            "optimum by entries": entries,
            "optimum of the whole run": whole,
            "earlier ceiling": self.earlier and self.bench.ceiling_of(self.earlier),
        }
        return {name: number for name, number in found.items() if number is not None}

    def compare(self, with_bound=True):
        """Compares all decks, prints what came of it, and gives what may not be."""
        wrong = []
        for name, deck, notes in self.decks:
            self.bench.put(deck, notes)
            found = self.numbers(with_bound)
            for tally in self.tallies:
                if tally.what in found and tally.other in found:
                    told = {"ceiling": "above", "time reached": "below"}.get(tally.what)
                    tally.add(name, found[tally.what], found[tally.other], told)
            wrong += ["%s: %s" % (name, one) for one in wrongs(found)]
        count = max(tally.count() for tally in self.tallies)
        told = [tally.told() for tally in self.tallies if tally.count()]
        print("\n    ".join(["%s, %d decks:" % (self.name, count), *told]), flush=True)
        return wrong


def wrongs(found):
    """What may not be of the numbers that were found of a deck."""
    ceiling, reached = found["ceiling"], found["time reached"]
    if ceiling < found.get("bound", 0):
        yield "the ceiling %d is below the bound %d" % (ceiling, found["bound"])
    for name in ("ceiling", "bound"):
        if reached > found.get(name, reached):
            yield "the time reached %d is above the %s %d" % (reached, name, found[name])
    for name in ("optimum of the whole run", "earlier ceiling"):
        if name in found and ceiling > found[name] and not is_equal(ceiling, found[name]):
            yield "the ceiling %d is above the %s %.12g" % (ceiling, name, found[name])


# Decks.


def structured_decks(count, name, **kind):
    for seed in range(count):
        yield "%s deck %d" % (name, seed), *StructuredDeck(seed, **kind).written()


def call_decks(count):
    for seed in range(count):
        yield "deck with calls %d" % seed, *CallDeck(seed).written()


def beside_decks(count, kind, is_large=False):
    for seed in range(count):
        deck = ceiling_beside.BesideDeck(seed, kind, is_large)
        yield "marks %s, deck %d" % (kind, seed), *deck.written()


def random_decks():
    """Decks of mixed flow, and half as many where most words branch, without end."""
    for seed in itertools.count():
        yield "mixed deck %d" % seed, *RandomDeck(seed).written()
        if seed % 2 == 0:
            deck = RandomDeck(seed // 2, branches=0.6, onward=0.6, least_marks=4)
            yield "branching deck %d" % (seed // 2), *deck.written()


def bounded_decks(bench, decks, count):
    """The first of some decks that have a bound."""
    for name, deck, notes in decks:
        bench.put(deck, notes)
        if count > 0 and bench.has_bound():
            count -= 1
            yield name, deck, notes
        if count == 0:
            print("the last odd deck is the %s" % name)
            return


# Times.


def seconds(bench, program, deck, notes):
    """The seconds that a ceiling takes, the best of five."""
    bench.put(deck, notes)
    taken = []
    for _ in range(5):
        begun = time.monotonic()
        bench.lines("ceiling", program)
        taken.append(time.monotonic() - begun)
    return min(taken)


def measure_speed(bench, programs):
    """Prints how long a ceiling takes by each of these builds, less what it takes of one word."""
    decks = [
        ("eight nested marks of 9999 over 2000 words", ceiling_decks.nested_loops()),
        ("2000 words with sixty loops, each behind a branch", ceiling_decks.branched_loops()),
        ("2004 words with lists of 10,000 instructions", ceiling_decks.listed_places()),
    ]
    for name, texts in decks:
        told = []
        for program in programs:
            least = seconds(bench, program, "0100 +0100000100\nSTART 0100\n", ceiling_decks.NOTES)
            taken = 1000 * (seconds(bench, program, *texts) - least)
            told.append("%.1f ms" % max(taken, 0))
        print("%s: %s" % (name, ", earlier ".join(told)), flush=True)


def beside_sets(count):
    """The decks of each kind of marks beside one another: those with a bound, and those without."""
    for kind in ceiling_beside.KINDS:
        yield "marks %s" % kind, beside_decks(count, kind), True
        yield "marks %s, past the limit" % kind, beside_decks(count, kind, True), False


def main():
    if len(sys.argv) > 4:
        sys.exit(__doc__)
    program = built_program(*sys.argv[1:2])
    count = int(sys.argv[2]) if len(sys.argv) > 2 else COUNT
    earlier = sys.argv[3] if len(sys.argv) > 3 else None
    wrong = []
    with tempfile.TemporaryDirectory() as folder:
        bench = Bench(program, folder)
        measure_speed(bench, [program] + [earlier] * (earlier is not None))
        odd = bounded_decks(bench, random_decks(), count // 3)
        half = count // 2
        for name, decks, with_bound in [
            ("programs", ceiling_programs.programs(bench.times), True),
            ("structured programs", structured_decks(count, "structured"), True),
            ("odd decks", odd, True),
            ("wild programs", structured_decks(half, "wild", is_wild=True), True),
            ("past the limit", structured_decks(half, "large", is_large=True), False),
            ("programs with calls", call_decks(count), True),
            *beside_sets(count // 3),
        ]:
            wrong += Set(bench, name, decks, earlier).compare(with_bound)
    right = "no ceiling is below a bound, or dearer than prices alone, and no walk is above it"
    print("\n".join(wrong) or right)
    sys.exit(1 if wrong else 0)


if __name__ == "__main__":
    main()
