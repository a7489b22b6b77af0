"""Random programs with calls of subroutines, that the ceiling is measured with. They are small
enough for the plain model to go through all of their walks."""

from math import prod

from ceiling_programs import notes_text
from ceiling_structured import StructuredDeck

CALL = "[[call]]\nfrom = %d\nto = %d\nexit = %d\nback = %d\n"


class CallDeck(StructuredDeck):
    """A deck of a seed, with one or two subroutines, each called from two places or more. The last
    word of a subroutine is its exit, which may become a way back to each of these. Its loops count
    the rounds of the whole run."""

    PLAIN = [0, 10, 15, 20, 24, 60, 65, 69]
    FEW = [1, 1, 2, 2, 3]
    LEVELS, MARKS, WORDS = 3, 4, 40
    # How many words and patterns there are at most, times the counts of the marks.
    STATES = 1500

    def made(self, is_large):
        self.calls, self.routines = [], None
        if not super().made(is_large):
            return False
        self.lists = {place: listed for place, listed in self.lists.items() if listed}
        states = (len(self.words) + len(self.calls)) * prod(mark[2] + 1 for mark in self.marks)
        exits = [exit for _, _, exit, _ in self.calls]
        return bool(exits) and min(map(exits.count, exits)) > 1 and states <= self.STATES

    def begun(self):
        """The first words of the subroutines and their exits, which are made with the first call."""
        if self.routines is None:
            self.routines = []
            for _ in range(self.chance.choice([1, 1, 2])):
                exit = self.place()
                self.lists[exit] = []
                first = self.sequence(1, None, False, exit)
                self.routines.append((first, exit))
        return self.routines

    def part_of(self, levels):
        if levels > 1 and self.chance.random() < 0.35:
            return self.call
        return super().part_of(levels)

    def call(self, levels, loop, is_always, onward):
        """A word that goes to a subroutine, which comes back where this goes on."""
        first, exit = self.chance.choice(self.begun())
        place = self.place()
        self.words[place] = self.chance.choice(self.PLAIN), 700, first
        self.calls.append((place, first, exit, onward))
        low = self.chance.randrange(400, 900)
        self.lists[exit].append((self.chance.choice(self.PLAIN), low, low, onward))
        return place

    def written(self):
        deck, _ = super().written()
        calls = "".join(CALL % one for one in self.calls)
        return deck, notes_text(self.marks, self.lists) + calls
