"""How much of what its notes allow a run of the plain model comes to: how often it passes each mark
at most, and which patterns of each list it meets."""

from marks import is_inside, place_on


def matches(pattern, number):
    """Whether a pattern matches the instruction of a word with these digits."""
    op, d, i = number // 10**8, number // 10**4 % 10**4, number % 10**4
    return (op, i) == (pattern["op"], pattern["i"]) and pattern["d_from"] <= d <= pattern["d_to"]


class Coverage:
    """What the steps of a run so far come to, of these marks and of the lists by location."""

    def __init__(self, marks, lists):
        self.marks, self.lists = marks, lists
        self.counts, self.highest = [0] * len(marks), [0] * len(marks)
        self.met = {place: set() for place in lists}

    def see(self, place, word, onto):
        """Takes in a step that fetched a word at a place, and where it goes on: at None, where it
        stops."""
        for number, pattern in enumerate(self.lists.get(place, [])):
            if matches(pattern, word[1]):
                self.met[place].add(number)
        passed = None if onto is None else place_on(self.marks, (place, onto))
        if passed is None:
            return
        for number in range(len(self.marks)):
            if is_inside(self.marks, number, passed):
                self.counts[number] = 0
        self.counts[passed] += 1
        self.highest = [max(pair) for pair in zip(self.highest, self.counts)]

    def lines(self):
        """A line for each mark, and one for each list."""
        for mark, highest in zip(self.marks, self.highest):
            line = "mark %04d %04d most-passed %d of %d" % (*mark.first, highest, mark.most)
            yield line + mark.ending()
        for place, patterns in self.lists.items():
            yield "list %04d patterns-met %d of %d" % (place, len(self.met[place]), len(patterns))
