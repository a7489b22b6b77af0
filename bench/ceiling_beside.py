"""Random programs with marks that stand beside one another on one cycle, that the ceiling is
measured with: on branches, on entries of loops, twice on a loop, and passed in turn."""

from ceiling_programs import notes_text
from ceiling_structured import StructuredDeck

KINDS = {
    "on branches": ["branches"],
    "on entries": ["entries"],
    "twice on a loop": ["twice"],
    "passed in turn": ["turns"],
    "of all kinds": ["branches", "entries", "twice", "turns"],
}


class BesideDeck(StructuredDeck):
    """A deck of a seed, with marks of some kinds beside those that close loops. A mark of a loop
    stands inside of the one around it, or now and then of none; those beside it stand inside of a
    mark further out, or of none."""

    def __init__(self, seed, kind, is_large=False):
        self.kinds = KINDS[kind]
        super().__init__(100_000 * list(KINDS).index(kind) + seed, is_large)

    def made(self, is_large):
        self.beside, self.around = 0, []
        return super().made(is_large) and self.beside > 0

    def does(self, kind, chance):
        return kind in self.kinds and self.chance.random() < chance

    def outer(self, loop):
        """A mark further out than the loop with this number, or none."""
        outer = [one for one in self.around if one != loop]
        return self.chance.choice([None, *outer]) if outer else None

    def add_beside(self, source, target, inside):
        if len(self.marks) < self.MARKS:
            self.marks.append((source, target, self.chance.choice(self.mosts), inside))
            self.beside += 1

    def branch(self, levels, loop, is_always, onward):
        place = super().branch(levels, loop, is_always, onward)
        op, *sides = self.words[place]
        if sides[0] != sides[1] and self.does("branches", 0.5 if loop is None else 0.8):
            self.add_beside(place, self.chance.choice(sides), self.outer(loop))
        return place

    def loop(self, levels, loop, is_always, onward):
        """A loop with one way back, or with two that are taken in turn; with a word before it whose
        edge into it may have a mark, and one in it whose edge may."""
        last, number = self.place(), len(self.marks)
        inside = None if self.chance.random() < 0.15 else loop
        self.marks.append(None)
        self.around.append(number + 1)
        begin = self.sequence(levels, number + 1, is_always, last)
        if self.does("twice", 0.7):
            before = self.place()
            self.words[before] = self.chance.choice(self.PLAIN), 500, begin
            self.add_beside(before, begin, self.outer(number + 1))
            begin = before
        if self.does("turns", 0.7):
            begin = self.other_turn(begin, number + 1, inside, last)
        self.around.pop()
        self.marks[number] = last, begin, self.chance.choice(self.mosts), inside
        self.words[last] = self.chance.choice(self.BRANCHES), begin, onward
        if self.does("entries", 0.7):
            entry = self.place()
            self.words[entry] = self.chance.choice(self.PLAIN), 600, begin
            self.add_beside(entry, begin, self.outer(number + 1))
            begin = entry
        return begin

    def other_turn(self, begin, number, inside, last):
        """Another way around, with a mark of its own: a branch at the loop's begin goes into its
        body, or along some words that go back, or on to the loop's last."""
        if len(self.marks) >= self.MARKS:
            return begin
        branch, back = self.place(), self.place()
        side = self.plain(0, number, False, back)
        self.words[branch] = self.chance.choice(self.BRANCHES), begin, side
        self.words[back] = self.chance.choice(self.BRANCHES), branch, last
        self.add_beside(back, branch, inside)
        return branch
