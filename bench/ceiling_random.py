"""Random decks with odd edges that the ceiling is measured with."""

import random

from ceiling_programs import notes_text


class RandomDeck:
    """A deck of a seed: words that branch and go back, marks on the edges that go back until no
    cycle is without one, and some elsewhere."""

    PLAIN = [0, 10, 15, 19, 20, 24, 30, 35, 60, 64, 65, 69, 70, 71]
    BRANCHES = [44, 45, 46, 47, 90, 95]
    MOSTS = [0, 1, 1, 2, 2, 3, 5, 10, 40, 99, 999, 9999]
    MARKS = 8

    def __init__(self, seed, branches=0.35, onward=0.75, least_marks=0):
        self.chance = random.Random(seed)
        self.branches, self.onwards = branches, onward
        while not (self.made() and len(self.marks) >= least_marks):
            pass

    def made(self):
        size = self.chance.choice([4, 6, 10, 15, 25, 40])
        self.places = self.chance.sample(range(0, 400), size)
        if self.chance.random() < 0.3:
            beside = self.chance.choice([8001, 8002, 8003])
            self.places.insert(self.chance.randrange(1, size + 1), beside)
        self.words, self.lists, self.marks = {}, {}, []
        for at, place in enumerate(self.places):
            if place >= 8000 or self.chance.random() < 0.1:
                patterns = self.chance.choice([1, 2, 3])
                self.lists[place] = [self.pattern(at) for _ in range(patterns)]
            else:
                self.words[place] = self.instruction(at)
        return self.mark_all()

    def onward(self, at):
        """Mostly the next place, or one a little further on; at times one before."""
        if self.chance.random() < self.onwards:
            return self.places[min(at + self.chance.choice([1, 1, 1, 2, 3]), len(self.places) - 1)]
        return self.places[self.chance.randrange(len(self.places))]

    def instruction(self, at):
        if at == len(self.places) - 1:
            return 1, 0, 0
        if self.chance.random() < self.branches:
            return self.chance.choice(self.BRANCHES), self.onward(at), self.onward(at)
        op = self.chance.choice(self.PLAIN)
        on = self.places[at + 1] if self.chance.random() < 0.9 else self.onward(at)
        return op, self.chance.randrange(400, 900), on

    def pattern(self, at):
        op, d, i = self.instruction(at)
        high = d if op in self.BRANCHES else d + self.chance.choice([0, 0, 3, 30, 100])
        return op, d, high, i

    def edges(self):
        for place in self.places:
            for op, d, *_, i in [self.words[place]] if place in self.words else self.lists[place]:
                if op != 1:
                    yield place, i
                if op in self.BRANCHES:
                    yield place, d

    def back_edge(self):
        """An edge that closes a cycle without marks, as a search from the start meets it."""
        marked = {mark[:2] for mark in self.marks}
        onto = {place: [] for place in self.places}
        for edge in self.edges():
            if edge not in marked:
                onto[edge[0]].append(edge[1])
        state, path = {}, []
        for root in self.places:
            path.append((root, 0))
            while path:
                place, passed = path.pop()
                state[place] = "open" if passed < len(onto[place]) else "done"
                if passed < len(onto[place]):
                    path.append((place, passed + 1))
                    then = onto[place][passed]
                    if state.get(then) == "open":
                        return place, then
                    if then not in state:
                        path.append((then, 0))
        return None

    def mark_all(self):
        while (edge := self.back_edge()) is not None:
            if len(self.marks) == self.MARKS:
                return False
            self.add(edge)
        while len(self.marks) < self.MARKS and self.chance.random() < 0.3:
            edge = self.chance.choice(list(self.edges()))
            if edge not in [mark[:2] for mark in self.marks]:
                self.add(edge)
        return True

    def add(self, edge):
        inside = None
        if self.marks and self.chance.random() < 0.4:
            inside = self.chance.randrange(len(self.marks)) + 1
        self.marks.append((*edge, self.chance.choice(self.MOSTS), inside))

    def written(self):
        cards = ["%04d +%02d%04d%04d" % (place, *word) for place, word in self.words.items()]
        first = next(place for place in self.places if place < 2000)
        return "\n".join(cards) + "\nSTART %04d\n" % first, notes_text(self.marks, self.lists)
