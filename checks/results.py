"""Whether a result has its form and its lines go together: a bound, a report, a walk, its waits, a
picture or a verdict, of a deck, a timing table, notes and inputs that are accepted. Each function
gives what the result tells, or None where it isn't as docs/ANSWERS.md says."""

import functools
import re
import xml.etree.ElementTree as xml

from marks import marks_of
from model import WAITS_FOR_DATA, at_parity, found
from toml_text import document_of

NUMBER = "(0|[1-9][0-9]*)"
PLACE = "([01][0-9]{3}|800[0-3])"
WORD = "([+-][0-9]{10})"
STOPS = "programmed|operation|operand|card|quotient|overflow|digit|next"

BOUND = re.compile("bound %s\n" % NUMBER)
KEPT = re.compile("kept used {0} (bound|ceiling) {0} stop ({1})\n".format(NUMBER, STOPS))
LEFT = re.compile(
    "left (?:switch|loadcard|unlisted {0} {1}|(?:notback|toooften) {0} {0})"
    " step {2} used {2}\n".format(PLACE, WORD, NUMBER)
)
SPENT = "visits {0} time {0}".format(NUMBER)
CARD = re.compile("card ([0-9]{4}) " + SPENT)
OTHER = re.compile("other " + SPENT)
MARK = re.compile("mark {0} {0} passed {1} of {1}".format(PLACE, NUMBER))
HOP = "%s ([0-9][0-9]) ([0-9]{4}) ([0-9]{4}) (?:to %s|(late)|(early))" % (PLACE, PLACE)
VISIT = re.compile(
    HOP + " begun {0} found {0} ready {0}(?: data {0})? ended {0}".format(NUMBER)
)
ANGLE = "([0-9]|[1-4][0-9])"
WAIT = re.compile(
    HOP + " visits {0} time {0} instruction {0} data {0} work {0}".format(NUMBER)
    + "(?: data-at {0})?(?: next-at {0})?".format(ANGLE)
)
TOTAL = re.compile("total work {0} instruction {0} data {0} cards {0}".format(NUMBER))
# The operations that may wait for the card machine.
OF_CARDS = (70, 71)
# The operations whose units a walk reckons at their most.
COUNTING = (14, 19, 64)


@functools.lru_cache(maxsize=64)
def entries_of(times):
    """The entries of a timing table, by their operations."""
    return {int(op): entry for op, entry in document_of(times)["op"].items()}


def start_of(deck):
    return int(re.search(rb"^START ([0-9]{4})$", deck, re.M).group(1))


def cards_of(deck):
    """The cards of a deck: their lines, first locations and words."""
    for number, line in enumerate(deck.decode("latin-1").split("\n"), 1):
        first, *words = line.split(" ")
        if first.isdigit():
            yield number, int(first), words


def number_of(text):
    """The number that a text matched, and None where it matched nothing."""
    return None if text is None else int(text)


def bound_of(text):
    matched = BOUND.fullmatch(text)
    return matched and int(matched.group(1))


# Verdicts.


def kept_of(text):
    """The word times used of a run that keeps to the notes, and what limits them: how many, and
    whether by a bound or a ceiling."""
    matched = KEPT.fullmatch(text)
    used, most = map(int, matched.group(1, 3)) if matched else (1, 0)
    return (used, most, matched.group(2)) if used <= most else None


def left_of(text):
    """The step with which a run leaves the notes, and the word times used before it."""
    matched = LEFT.fullmatch(text)
    if not matched:
        return None
    step, used = int(matched.group(5)), int(matched.group(6))
    is_switch = text.startswith("left switch")
    return (step, used) if is_switch == (step == 0) and (step > 1 or used == 0) else None


# Reports.


def is_spent(visits, time):
    """Each visit takes a word time at least, and without one there is no time."""
    return visits <= time and (visits > 0 or time == 0)


def reported_bound(text, files):
    """The bound that ends a report, to which its times add up."""
    *lines, last = text.splitlines(keepends=True) or [""]
    marks = marks_of(document_of(files["notes"]))
    numbers = [number for number, _, _ in cards_of(files["deck"])]
    if len(lines) != len(numbers) + 1 + len(marks):
        return None
    spent = []
    for number, line in zip(numbers, lines):
        matched = CARD.fullmatch(line[:-1])
        if not matched or int(matched.group(1)) != number:
            return None
        spent.append(matched.group(2, 3))
    other = OTHER.fullmatch(lines[len(numbers)][:-1])
    if not other:
        return None
    spent = [tuple(map(int, pair)) for pair in spent + [other.group(1, 2)]]
    for mark, line in zip(marks, lines[len(numbers) + 1 :]):
        matched = MARK.fullmatch(line[:-1])
        told = matched and [int(matched.group(place)) for place in (1, 2, 4)]
        if told != [*mark.first, mark.most]:
            return None
    bound = bound_of(last)
    adds_up = sum(time for _, time in spent) == bound
    return bound if adds_up and all(is_spent(*pair) for pair in spent) else None


def report_of_walk(walk, files):
    """The report that is counted from the lines of a walk."""
    visits = [VISIT.fullmatch(line) for line in walk.splitlines()[:-1]]
    card_of, lines = {}, []
    for number, first, words in cards_of(files["deck"]):
        card_of.update((first + place, len(lines)) for place in range(len(words)))
        lines.append("card %04d" % number)
    spent, passes = [[0, 0] for _ in lines + ["other"]], {}
    for visit in visits:
        place, onto = int(visit.group(1)), number_of(visit.group(5))
        tally = spent[card_of.get(place, -1)]
        tally[0] += 1
        tally[1] += int(visit.group(12)) - int(visit.group(8))
        passes[place, onto] = passes.get((place, onto), 0) + 1
    lines.append("other")
    text = ["%s visits %d time %d" % (line, *tally) for line, tally in zip(lines, spent)]
    for mark in marks_of(document_of(files["notes"])):
        passed = sum(passes.get(edge, 0) for edge in mark.edges)
        told = *mark.first, passed, mark.most, mark.ending()
        text.append("mark %04d %04d passed %d of %d%s" % told)
    return "\n".join(text + walk.splitlines()[-1:]) + "\n"


# Walks.


def extra(op, d, entry):
    """The most that an operation may take beside what is before and after: its units, or a wait."""
    if op in (70, 71):
        return entry["wait_max"]
    if op in (30, 31, 35):
        return (d % 10 or (10 if op == 31 else 0)) * entry["per"]
    return 90 * entry["per"] if op in COUNTING else 0


def are_moments(angle, entry, place, instruction, moments):
    """Whether an instruction is found, ready, has its data and ends when the machine says. Without
    data it stops early."""
    op, d, _ = instruction
    begun, at, ready, data, ended = moments
    if angle + at != found(place, angle + begun) or ready != at + entry["before"]:
        return False
    if data is None:
        return ended == ready
    had = found(d, angle + ready) - angle if op in WAITS_FOR_DATA else ready
    acted = at_parity(entry["parity"], angle + data) - angle + entry["after"]
    return data == had and ended == acted + extra(op, d, entry)


def words_of(files):
    """The words that the deck has at its locations."""
    cards = cards_of(files["deck"])
    return {first + place: word for _, first, words in cards for place, word in enumerate(words)}


def instruction_of(word):
    return int(word[1:3]), int(word[3:7]), int(word[7:])


def lists_of(files):
    lists = document_of(files["notes"]).get("list", [])
    return {one["location"]: one["pattern"] for one in lists}


def is_allowed(at, lists, place, instruction):
    """Whether an instruction is what the deck or a list of the notes has at a location."""
    op, d, i = instruction
    return (place in at and instruction_of(at[place]) == instruction) or any(
        pattern["op"] == op and pattern["d_from"] <= d <= pattern["d_to"] and pattern["i"] == i
        for pattern in lists.get(place, [])
    )


def goes_on(visit, is_last):
    """Whether a visit goes on at its D or its I where another follows, and has data unless it
    stops early."""
    onto, late, early, data = visit.group(5, 6, 7, 11)
    if (data is None) != (early is not None) or (onto is None and not is_last):
        return False
    return onto is None or onto in visit.group(3, 4)


def walked_bound(text, files):
    """The bound that ends a walk, whose visits follow one another from 0 to the bound."""
    *lines, last = text.splitlines(keepends=True) or [""]
    entries, at, lists = entries_of(files["times"]), words_of(files), lists_of(files)
    place = start_of(files["deck"])
    angle, clock = place % 50 + 1, 0
    for number, line in enumerate(lines, 1):
        visit = VISIT.fullmatch(line[:-1])
        if not visit or int(visit.group(1)) != place or not goes_on(visit, number == len(lines)):
            return None
        instruction = tuple(map(int, visit.group(2, 3, 4)))
        moments = [number_of(moment) for moment in visit.group(8, 9, 10, 11, 12)]
        entry = entries.get(instruction[0])
        if moments[0] != clock or entry is None:
            return None
        if not is_allowed(at, lists, place, instruction):
            return None
        if not are_moments(angle, entry, place, instruction, moments):
            return None
        clock, place = moments[-1], number_of(visit.group(5))
    return clock if bound_of(last) == clock else None


# Waits.


def waited_bound(text):
    """The bound that ends the waits, to which their times add up, and so do the parts of the line
    of all: each time is its three parts, the dearest come first, and no kind comes twice."""
    *lines, all_spent, last = ["", *text.splitlines(keepends=True)]
    waits = [WAIT.fullmatch(line[:-1]) for line in lines[1:]]
    total = TOTAL.fullmatch(all_spent[:-1])
    if not all(waits) or total is None:
        return None
    spent = [tuple(map(int, wait.group(8, 9, 10, 11, 12))) for wait in waits]
    times = [time for _, time, *_ in spent]
    are_parts = all(time == sum(parts) for _, time, *parts in spent)
    are_apart = len({wait.group(*range(1, 8)) for wait in waits}) == len(waits)
    in_order = are_apart and times == sorted(times, reverse=True)
    bound = bound_of(last)
    is_all = in_order and sum(times) == bound and all(is_spent(*one[:2]) for one in spent)
    work, instruction, data, cards = map(int, total.groups())
    parts = [sum(one[part] for one in spent) for part in (2, 3, 4)]
    is_total = [instruction, data, work + cards] == parts
    return bound if are_parts and is_all and is_total else None


def angles_of(visit, angle):
    """What the line of a kind of hops tells of angles, by the first of its visits: those at which
    it would wait neither for its data nor for the next instruction."""
    parts = (1, 2, 3, 5, 10, 11, 12)
    place, op, d, onto, ready, data, ended = [number_of(visit.group(part)) for part in parts]
    text, is_on_drum = "", place < 2000
    if is_on_drum and op in WAITS_FOR_DATA and data is not None and d < 2000:
        text += " data-at %d" % ((angle + ready) % 50)
    if is_on_drum and onto is not None and onto < 2000:
        text += " next-at %d" % ((angle + ended) % 50)
    return text


def waits_of_walk(walk, files):
    """The waits that are counted from the lines of a walk."""
    *lines, last = walk.splitlines()
    angle, kinds, cards = start_of(files["deck"]) + 1, {}, 0
    for line in lines:
        visit = VISIT.fullmatch(line)
        op = int(visit.group(2))
        if op in OF_CARDS and not visit.group(7):
            cards += entries_of(files["times"])[op]["wait_max"]
        begun, at, ready, data, ended = [number_of(visit.group(part)) for part in range(8, 13)]
        kind = line.partition(" begun ")[0]
        sums, angles = kinds.setdefault(kind, ([0, 0, 0, 0], angles_of(visit, angle)))
        waited = 0 if data is None else data - ready
        for part, spent in enumerate([1, ended - begun, at - begun, waited]):
            sums[part] += spent
    text = []
    for kind, (sums, angles) in sorted(kinds.items(), key=lambda one: -one[1][0][1]):
        visits, time, instruction, waited = sums
        told = kind, visits, time, instruction, waited, time - instruction - waited, angles
        text.append("%s visits %d time %d instruction %d data %d work %d%s" % told)
    # Beside a ceiling there may be no walk.
    all_sums = [sums for sums, _ in kinds.values()] or [[0, 0, 0, 0]]
    _, time, instruction, data = map(sum, zip(*all_sums))
    told = time - instruction - data - cards, instruction, data, cards
    text.append("total work %d instruction %d data %d cards %d" % told)
    return "\n".join(text + [last]) + "\n"


# Pictures.


def pictured_texts(text):
    """The texts of a picture's parts; none where it isn't well-formed."""
    if not text.startswith("<svg") or not text.endswith("</svg>\n"):
        return []
    try:
        root = xml.fromstring(text)
    except xml.ParseError:
        return []
    return [part.text or "" for part in root.iter()]


def pictured_bound(text):
    """The bound that a picture names, or what the walk takes that it is of, where it is
    well-formed."""
    name = "(?:bound|reached) %s word times" % NUMBER
    named = [re.fullmatch(name, part) for part in pictured_texts(text)]
    bounds = [int(matched.group(1)) for matched in named if matched]
    return bounds[0] if len(bounds) == 1 else None


def pictured_verdict(text):
    """The line of the verdict on the run that a picture is of, where it is well-formed. How the run
    leaves the notes isn't told in the words of that line, so one way stands for all."""
    texts = pictured_texts(text)
    runs = [re.fullmatch("run %s word times" % NUMBER, part) for part in texts]
    used = [matched.group(1) for matched in runs if matched]
    if len(used) != 1:
        return None
    kept = r"kept to the notes until it stopped \([a-z0-9 ]+\); bound %s word times" % NUMBER
    left = "left the notes with step %s, begun at %s: .+" % (NUMBER, NUMBER)
    for part in texts:
        if matched := re.fullmatch(kept, part):
            return "kept used %s bound %s stop programmed\n" % (used[0], matched.group(1))
        if matched := re.fullmatch(left, part):
            return "left loadcard step %s used %s\n" % matched.groups()
        if part == "left the notes before any step: the programmed switch":
            return "left switch step 0 used 0\n"
    return None
