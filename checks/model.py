"""A plain model of the machine and of its walks, written from docs/MACHINE.md and docs/FORMATS.md
apart from the product: it shares no code with it, and its search for the longest walk doesn't know
that an earlier clock is never overtaken. `checks/examples` and `checks/stored-run` use it;
`checks/results.py` uses its machine and its rules of waiting."""

import functools
import itertools
import sys
import tomllib
from math import prod

from calls import calls_of, none_open, onward
from coverage import Coverage
from marks import is_inside, marks_of, place_on

HALF = 10**10
WANTS_ANY = {10, 11, 14, 15, 16, 17, 18, 19, 60, 61, 64, 65, 66, 67, 68, 69}
WANTS_DRUM = {20, 21, 22, 23, 24, 70, 71}
STORES = {20, 21, 22, 23, 24}
WAITS_FOR_DATA = WANTS_ANY | STORES
MAY_STOP_LATE = {10, 11, 14, 15, 16, 17, 18, 19, 64}


def is_location(number):
    return 0 <= number < 2000 or 8000 <= number <= 8003


def suits(op, d):
    """Whether D is what the operation wants."""
    return (op not in WANTS_ANY or is_location(d)) and (op not in WANTS_DRUM or d < 2000)


def found(location, clock):
    """The first moment, at or after a clock, at which a location can be had."""
    if location < 2000:
        return clock + (location - clock) % 50
    if location < 8002:
        return clock
    return clock + (location - clock) % 2


def at_parity(parity, clock):
    return clock if parity == "any" else clock + (clock - (parity == "odd")) % 2


def read_times(path):
    with open(path, "rb") as file:
        return {int(op): entry for op, entry in tomllib.load(file)["op"].items()}


def read_word(text):
    return text[0] == "-", int(text[1:])


def sign_text(is_minus):
    return "-" if is_minus else "+"


def word_text(word):
    return "%s%010d" % (sign_text(word[0]), word[1])


def read_text(path):
    with open(path, encoding="latin-1", newline="\n") as file:
        return file.read()


def parts_of(text):
    """The parts of each line of a deck or of inputs; a comment has none."""
    lines = text.removesuffix("\n").split("\n") if text else []
    return [line.split(" ") for line in lines if not line.startswith("*")]


def deck_of(text):
    """The words of a deck, and its start."""
    words, start = {}, None
    for first, *rest in parts_of(text):
        if first == "START":
            start = int(rest[0])
        else:
            words.update(enumerate([read_word(text) for text in rest], int(first)))
    return words, start


class Machine:
    """The machine, set up by the texts of a deck and of a replay's inputs."""

    def __init__(self, deck, times, inputs):
        self.drum, self.sought = deck_of(deck)
        self.times, self.used, self.angle = times, 0, 0
        self.switches, self.distributor, self.accumulator = (False, 0), (False, 0), 0
        # The sign of the upper half, while a remainder's stands.
        self.upper_is_minus = None
        self.latch, self.stops_programmed, self.stops_on_overflow = False, True, True
        self.has_read_load = False
        # Each card has its load mark, and its words.
        self.cards, self.waits, self.punched = [], [], []
        for first, *rest in parts_of(inputs):
            self.take(first, rest)

    def take(self, first, rest):
        """Takes a line of the inputs, by its first part and the others."""
        if first == "ANGLE":
            self.angle = int(rest[0])
        elif first == "SWITCHES":
            self.switches = read_word(rest[0])
        elif first == "DISTRIBUTOR":
            self.distributor = read_word(rest[0])
        elif first == "ACCUMULATOR":
            self.accumulator = int(rest[0])
        elif first == "LATCH":
            self.latch = rest == ["ON"]
        elif first == "PROGRAMMED":
            self.stops_programmed = rest == ["STOP"]
        elif first == "ONOVERFLOW":
            self.stops_on_overflow = rest == ["STOP"]
        elif first in ("CARD", "LOAD"):
            self.cards.append((first == "LOAD", [read_word(text) for text in rest]))
        elif first == "WAIT":
            self.waits.append(int(rest[0]))
        else:
            words = [read_word(text) for text in rest]
            self.drum.update(enumerate(words, int(first)))

    def half(self, is_upper):
        sign = self.accumulator < 0
        if not is_upper:
            return sign, abs(self.accumulator) % HALF
        is_minus = sign if self.upper_is_minus is None else self.upper_is_minus
        return is_minus, abs(self.accumulator) // HALF

    def word(self, location):
        if location < 2000:
            return self.drum.get(location, (False, 0))
        return [self.switches, self.distributor, self.half(False), self.half(True)][location - 8000]

    def run(self):
        """Steps until the machine stops, and tells why."""
        why = None
        while why is None:
            why = self.step()
        return why

    def step(self):
        """One step; tells why the machine stops, where it does. It leaves the moments up to the one
        at which the operation has its data, and of one that acts its number and its D."""
        self.moments, self.acted, self.has_read_load = [], None, False
        at = self.reach("found", found(self.sought, self.angle + self.used))
        number = self.word(self.sought)[1]
        op, d, i = number // 10**8, number // 10**4 % 10**4, number % 10**4
        if op not in self.times:
            return "operation"
        entry = self.times[op]
        ready = self.reach("ready", at + entry["before"])
        if not suits(op, d):
            return "operand"
        if op == 70 and not self.cards:
            return "card"
        data = self.reach("data", found(d, ready) if op in WAITS_FOR_DATA else ready)
        self.acted = op, d
        units, wait, onto, why = self.work(op, d, i)
        end = at_parity(entry["parity"], data) + entry["after"] + entry.get("per", 0) * units + wait
        self.used = end - self.angle
        if why is None and not is_location(onto):
            return "next"
        self.sought = onto
        return why

    def reach(self, name, clock):
        """Notes a moment of a step. The clock counts from a moment of angle 0 on."""
        self.used = clock - self.angle
        self.moments.append("%s %d" % (name, self.used))
        return clock

    def work(self, op, d, i):
        """What an operation does: its units, its wait, the next location, and why it stops."""
        units, wait, why = 0, 0, None
        if op in WANTS_ANY:
            units, why = self.calculate(op, self.word(d))
        elif op in STORES:
            self.store(op, d)
        elif op in (30, 31, 35):
            units = self.shift(op, d % 10)
        elif op in (70, 71):
            wait = self.move_card(op, d // 50 * 50)
            i = d if self.has_read_load else i
        elif op in (44, 45, 46, 47):
            i = d if self.branches(op) else i
        elif op >= 90:
            digit = self.distributor[1] // 10 ** ((op % 10 or 10) - 1) % 10
            i = d if digit == 8 else i
            why = None if digit in (8, 9) else "digit"
        elif op == 1:
            why = "programmed" if self.stops_programmed else None
        else:
            assert op == 0, op
        return units, wait, i, why

    def calculate(self, op, word):
        """Adds, multiplies, divides or loads the distributor: the units, and why it stops."""
        self.distributor, before = word, self.accumulator
        if op == 69:
            return 0, None
        value = -word[1] if word[0] else word[1]
        upper, lower = divmod(abs(before), HALF)
        sign = -1 if (before < 0) != (value < 0) else 1
        if op in (14, 64):
            if upper >= abs(value):
                self.latch = True
                return 0, "quotient"
            quotient, rest = divmod(abs(before), abs(value))
            self.accumulator = sign * (quotient + (rest * HALF if op == 14 else 0))
            self.upper_is_minus = before < 0 if op == 14 else None
            return sum(map(int, str(quotient))), None
        if op == 19:
            why = self.become(sign * (upper * abs(value) + lower * HALF))
            return sum(map(int, str(upper))), why
        amounts = {0: value * HALF, 1: -value * HALF, 5: value, 6: -value}
        amounts.update({7: abs(value), 8: -abs(value)})
        return 0, self.become((0 if op >= 60 else before) + amounts[op % 10])

    def become(self, number):
        """Gives the accumulator a number, and tells why that stops."""
        size = abs(number)
        self.accumulator = size % HALF**2 * (-1 if number < 0 else 1)
        self.upper_is_minus = None
        if size < HALF**2:
            return None
        self.latch = True
        return "overflow" if self.stops_on_overflow else None

    def store(self, op, d):
        if op in (22, 23):
            sign, digits = self.distributor
            place = 10**4 if op == 22 else 1
            part = abs(self.accumulator) % HALF // place % 10**4
            self.distributor = sign, digits + (part - digits // place % 10**4) * place
        elif op != 24:
            self.distributor = self.half(op == 21)
        self.drum[d] = self.distributor

    def shift(self, op, places):
        """Shifts, and gives the units."""
        places = places or (10 if op == 31 else 0)
        size, sign = abs(self.accumulator), -1 if self.accumulator < 0 else 1
        if op == 31:
            size += 5 * 10 ** (places - 1)
        size = size * 10**places % HALF**2 if op == 35 else size // 10**places
        self.accumulator, self.upper_is_minus = sign * size, None
        return places

    def branches(self, op):
        """Whether a branch goes on at D."""
        number, latch = self.accumulator, self.latch
        self.latch = latch and op != 47
        return {44: abs(number) >= HALF, 45: number != 0, 46: number < 0, 47: latch}[op]

    def words(self, location):
        """Ten words of the drum."""
        return [self.word(location + place) for place in range(10)]

    def move_card(self, op, band):
        """Reads or punches a card, and gives the wait for it."""
        if op == 70:
            self.has_read_load, words = self.cards.pop(0)
            self.drum.update(enumerate(words, band + 1))
        else:
            self.punched.append(self.words(band + 27))
        entry = self.times[op]
        wait = self.waits.pop(0) if self.waits else entry["wait_max"]
        return min(max(wait, entry["wait_min"]), entry["wait_max"])

    def held_text(self):
        """The registers and the latch, as the line of a step tells them."""
        texts = ["accumulator %s%020d" % (sign_text(self.accumulator < 0), abs(self.accumulator))]
        if self.upper_is_minus is not None:
            texts.append("remainder " + sign_text(self.upper_is_minus))
        texts.append("distributor " + word_text(self.distributor))
        return " ".join(texts + ["latch " + ("on" if self.latch else "off")])

    def step_lines(self, step, place, word, begun):
        """The lines of the step of this number, once it is taken, which began here and then with
        this word."""
        fetched = "step %d %04d %s begun %d" % (step, place, word_text(word), begun)
        line = [fetched, *self.moments, "ended %d" % self.used, self.held_text()]
        op, d = self.acted or (None, None)
        if op in STORES:
            line.append("wrote %04d %s" % (d, word_text(self.word(d))))
        lines = [" ".join(line)]
        if op in (70, 71):
            name, first = ("read", 1) if op == 70 else ("punched", 27)
            first += d // 50 * 50
            lines.append(" ".join([name, "%04d" % first, *map(word_text, self.words(first))]))
        return lines


def machine_of(deck, times, inputs):
    """The machine that these files set up."""
    return Machine(read_text(deck), times, read_text(inputs))


class Walks:
    """The walks of a deck with its notes, of a text and a document."""

    def __init__(self, deck, times, notes):
        self.words, self.start = deck_of(deck)
        self.times = times
        self.programmed = notes["programmed"]
        self.has_load_cards = notes["load_cards"] == "any"
        self.marks, self.calls = marks_of(notes), calls_of(notes)
        self.lists = {one["location"]: one["pattern"] for one in notes.get("list", [])}

    def size(self):
        """How many instructions there may be, times the counts of the marks."""
        patterns = [pattern for listed in self.lists.values() for pattern in listed]
        listed = sum(pattern["d_to"] - pattern["d_from"] + 1 for pattern in patterns)
        return (len(self.words) + listed) * prod(mark.most + 1 for mark in self.marks)

    def is_set(self, machine):
        """Whether a machine's programmed switch stands as the notes say."""
        return self.programmed in ("any", "stop" if machine.stops_programmed else "run")

    def instructions(self, place):
        if place in self.words:
            number = self.words[place][1]
            yield number // 10**8, number // 10**4 % 10**4, number % 10**4
        for pattern in self.lists.get(place, []):
            for d in range(pattern["d_from"], pattern["d_to"] + 1):
                yield pattern["op"], d, pattern["i"]

    def ways(self, op, d, i):
        """Where an instruction may go on: a location, `early` or `late`."""
        if not suits(op, d):
            return {"early"}
        ways = {"early", i} if op == 70 else {i}
        if op == 1:
            ways = {"stop": {"late"}, "run": {i}, "any": {"late", i}}[self.programmed]
        if op in (44, 45, 46, 47) or op >= 90 or op == 70 and self.has_load_cards:
            ways.add(d)
        if op >= 90 or op in MAY_STOP_LATE:
            ways.add("late")
        return {way if way in ("early", "late") or is_location(way) else "late" for way in ways}

    def units(self, op, d):
        if op in (30, 31, 35):
            return [d % 10 or (10 if op == 31 else 0)]
        return range(91) if op in (14, 19, 64) else [0]

    def ends(self, op, d, ready):
        """When an instruction may end. Of the waits that end at one angle the longest stands for
        all."""
        entry = self.times[op]
        data = found(d, ready) if op in WAITS_FOR_DATA else ready
        acts = at_parity(entry["parity"], data) + entry["after"]
        if op in (70, 71):
            longest = entry["wait_max"]
            shorter = range(min(50, longest - entry["wait_min"] + 1))
            return [acts + longest - less for less in shorter]
        return sorted({acts + entry.get("per", 0) * units for units in self.units(op, d)})

    def allows(self, place, word):
        """Whether a word may stand at a location: without a list any may."""
        number = word[1]
        parts = number // 10**8, number // 10**4 % 10**4, number % 10**4
        return place not in self.lists or parts in self.instructions(place)

    def passed(self, counts, place, onto):
        """The counts after a step along an edge; None where a mark is passed too often."""
        number, counts = place_on(self.marks, (place, onto)), list(counts)
        if number is not None:
            counts[number] += 1
            if counts[number] > self.marks[number].most:
                return None
            for inner in range(number + 1, len(self.marks)):
                if is_inside(self.marks, inner, number):
                    counts[inner] = 0
        return tuple(counts)

    def onward(self, opened, place, onto):
        """What is open behind a step along an edge, where this is open before it; None where it
        may not be taken: it isn't the way back that is open at an exit."""
        return onward(self.calls, opened, (place, onto))

    def longest(self):
        """The most word times of all walks from all start angles: through all instructions, units,
        waits and angles."""
        sys.setrecursionlimit(1_000_000)

        @functools.lru_cache(maxsize=None)
        def behind(place, opened, counts, angle):
            most = 0
            for op, d, i in self.instructions(place):
                ready = found(place, angle) + self.times[op]["before"]
                for way in self.ways(op, d, i):
                    if way == "early":
                        most = max(most, ready - angle)
                        continue
                    after = self.passed(counts, place, way) if way != "late" else counts
                    then = self.onward(opened, place, way) if way != "late" else opened
                    if after is None or then is None:
                        continue
                    for end in self.ends(op, d, ready):
                        more = 0 if way == "late" else behind(way, then, after, end % 50)
                        most = max(most, end - angle + more)
            return most

        nothing = (0,) * len(self.marks)
        opened = none_open(self.calls)
        return max(behind(self.start, opened, nothing, angle) for angle in range(50))


def walks_of(deck, times, notes):
    """The walks of the files of a deck and of its notes."""
    with open(notes, "rb") as file:
        return Walks(read_text(deck), times, tomllib.load(file))


def traced(machine, walks, limit):
    """The lines of a run's trace, one by one. The last one is the verdict, which tells this limit of
    a run that keeps to the notes."""
    counts, coverage = (0,) * len(walks.marks), Coverage(walks.marks, walks.lists)
    opened = none_open(walks.calls)
    if not walks.is_set(machine):
        yield "left switch step 0 used 0"
        return
    for step in itertools.count(1):
        place, before = machine.sought, machine.used
        word = machine.word(place)
        why = machine.step()
        yield from machine.step_lines(step, place, word, before)
        coverage.see(place, word, None if why else machine.sought)
        if not walks.allows(place, word):
            left = "unlisted %04d %s" % (place, word_text(word))
        elif machine.has_read_load and not walks.has_load_cards:
            left = "loadcard"
        elif why:
            yield from coverage.lines()
            yield "kept used %d %s stop %s" % (machine.used, limit, why)
            return
        elif (opened := walks.onward(opened, place, machine.sought)) is None:
            left = "notback %04d %04d" % (place, machine.sought)
        else:
            left = "toooften %04d %04d" % (place, machine.sought)
            counts = walks.passed(counts, place, machine.sought)
            if counts is not None:
                continue
        yield from coverage.lines()
        yield "left %s step %d used %d" % (left, step, before)
        return


def trace(machine, walks, limit):
    """All lines of a run's trace."""
    return list(traced(machine, walks, limit))


def verdict(machine, walks, bound):
    """Runs the machine, and tells whether the run keeps to the notes, as a replay does."""
    return trace(machine, walks, "bound %d" % bound)[-1]
