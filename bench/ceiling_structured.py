"""Random programs as people write them, that the ceiling is measured with: sequences, branches with
loops of their own on each side, loops in loops, with `inside` and without."""

import random
from math import prod

from ceiling_programs import notes_text

KEYS = 4_000_000


class StructuredDeck:
    """A deck of a seed. Its marks have small counts, so that it has a bound, or any counts and more
    than a bound allows. On a loop in a loop, a mark without `inside` counts the rounds of the whole
    run. Unless the deck is wild, there are no branches in such a loop, nor on the way to it from
    where the outermost loop begins: so each round of all loops around comes through it."""

    PLAIN = [0, 10, 15, 19, 20, 24, 30, 35, 60, 64, 65, 69, 70, 71]
    BRANCHES = [44, 45, 46, 47]
    FEW = [1, 1, 2, 2, 3, 3, 4, 5, 7, 9, 14]
    MANY = [1, 2, 3, 10, 40, 99, 500, 999, 9999]
    LEVELS = 4
    MARKS = 8
    WORDS = 120

    def __init__(self, seed, is_large=False, is_wild=False):
        self.chance, self.is_wild = random.Random("%d %s %s" % (seed, is_large, is_wild)), is_wild
        while not self.made(is_large):
            pass

    def made(self, is_large):
        """Makes a deck; whether it is one that is wanted."""
        self.mosts = self.MANY if is_large else self.FEW
        self.words, self.lists, self.marks = {}, {}, []
        is_in_order = self.chance.random() < 0.3
        places = range(400) if is_in_order else self.chance.sample(range(400), 400)
        self.free = list(places)[::-1]
        stop = self.place()
        self.words[stop] = 1, 0, stop
        self.start = self.sequence(self.LEVELS, None, True, stop)
        size = len(self.words) + len(self.lists)
        if size > self.WORDS or not 0 < len(self.marks) <= self.MARKS:
            return False
        keys = size * prod(mark[2] + 1 for mark in self.marks)
        return (keys > KEYS) == is_large

    def place(self):
        return self.free.pop()

    def sequence(self, levels, loop, is_always, onward):
        """Some parts one after the other, the last of which goes on here: where they begin. The
        loop is the number of the mark around them; each round of all loops around comes through
        them always, or not."""
        parts = [self.part_of(levels) for _ in range(self.chance.choice([1, 2, 2, 3]))]
        for part in parts:
            onward = part(levels - 1, loop, is_always, onward)
        return onward

    def part_of(self, levels):
        if levels == 0 or len(self.marks) > self.MARKS:
            return self.plain
        return self.chance.choice([self.plain, self.branch, self.branch, self.loop, self.loop])

    def plain(self, levels, loop, is_always, onward):
        for _ in range(self.chance.choice([1, 1, 2, 3])):
            place, low = self.place(), self.chance.randrange(400, 900)
            op = self.chance.choice(self.PLAIN)
            if self.chance.random() < 0.05:
                self.lists[place] = [(op, low, low + self.chance.choice([0, 3, 30]), onward)]
            else:
                self.words[place] = op, low, onward
            onward = place
        return onward

    def branch(self, levels, loop, is_always, onward):
        """Two ways that come together; one of them may have nothing on it."""
        place = self.place()
        sides = [self.sequence(levels, loop, False, onward)]
        is_short = self.chance.random() < 0.3
        sides.append(onward if is_short else self.sequence(levels, loop, False, onward))
        self.chance.shuffle(sides)
        self.words[place] = self.chance.choice(self.BRANCHES), *sides
        return place

    def loop(self, levels, loop, is_always, onward):
        """A loop whose last word goes back, or on. Its mark says that it stands inside of the one
        around it, or, where it may, doesn't."""
        last, number = self.place(), len(self.marks)
        is_of_run = (self.is_wild or is_always) and self.chance.random() < 0.4
        inside = None if is_of_run else loop
        if is_of_run and loop is not None and not self.is_wild:
            levels = 0
        self.marks.append(None)
        first = self.sequence(levels, number + 1, loop is None or is_always, last)
        self.marks[number] = last, first, self.chance.choice(self.mosts), inside
        self.words[last] = self.chance.choice(self.BRANCHES), first, onward
        return first

    def written(self):
        """The texts of the deck and of the notes."""
        cards = ["%04d +%02d%04d%04d" % (place, *word) for place, word in self.words.items()]
        deck = "\n".join(cards) + "\nSTART %04d\n" % self.start
        return deck, notes_text(self.marks, self.lists)
