#!/usr/bin/env python3
"""Compares the ways to a safe number for decks past the limit: the sum of their parts' bounds, as
docs/FAULTS.md tells at fault 36, the ceiling, and the optimum of two linear programs.

    bench/parts.py [PROGRAM]

PROGRAM is the one of these sources (checks/program.py) unless it is given.

The decks are five loops of a hundred rounds each, one after the other, with their words a number of
places apart: with 1 that is examples/five."""

import os
import sys
import tempfile

TOP = os.path.dirname(os.path.dirname(os.path.abspath(__file__)))
sys.path.insert(0, os.path.join(TOP, "checks"))

from ceiling import Bench
from program import built_program

LOOPS = 5
ROUNDS = 100
STRIDES = [1, 3, 17, 37]
NOTES = 'programmed = "stop"\nload_cards = "none"\n'


class Loops:
    """Loops that each count the lower accumulator down to zero, and then a stop."""

    def __init__(self, stride):
        self.stride = stride

    def place(self, word):
        return word * self.stride

    def words(self):
        for loop in range(LOOPS):
            one, two, three, onward = [self.place(3 * loop + at) for at in range(4)]
            yield one, "+651950%04d" % two
            yield two, "+161951%04d" % three
            yield three, "+45%04d%04d" % (two, onward)
        stop = self.place(3 * LOOPS)
        yield stop, "+010000%04d" % stop
        yield 1950, "+%010d" % ROUNDS
        yield 1951, "+0000000001"

    def deck(self, start=0, end=None):
        """The deck, or the part of it from a loop on, up to where another begins."""
        words = dict(self.words())
        if end is not None:
            words[self.place(3 * end)] = "+0000009999"
        cards = ["%04d %s\n" % word for word in words.items()]
        return "".join(cards) + "START %04d\n" % self.place(3 * start)

    def notes(self, loops):
        mark = "[[mark]]\nfrom = %d\nto = %d\nmost = %d\n"
        back = [(self.place(3 * loop + 2), self.place(3 * loop + 1), ROUNDS - 1) for loop in loops]
        return NOTES + "".join(mark % one for one in back)


def parts(bench, loops):
    """The bounds of the parts."""
    for loop in range(LOOPS):
        end = loop + 1 if loop + 1 < LOOPS else None
        bench.put(loops.deck(loop, end), loops.notes([loop]))
        yield bench.bound()


def main():
    if len(sys.argv) > 2:
        sys.exit(__doc__)
    program = built_program(*sys.argv[1:2])
    with tempfile.TemporaryDirectory() as folder:
        bench = Bench(program, folder)
        for stride in STRIDES:
            loops = Loops(stride)
            bounds = list(parts(bench, loops))
            bench.put(loops.deck(), loops.notes(range(LOOPS)))
            told = "words %d apart: parts %s, their sum %d, reached %d, ceiling %d,"
            told += " optimum of the whole run %s, by entries %s"
            found = sum(bounds), *bench.bracket(), *bench.optima()
            print(told % (stride, " ".join(map(str, bounds)), *found))


if __name__ == "__main__":
    main()
