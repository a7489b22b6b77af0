"""Decks that the time of a ceiling is measured with: the texts of each deck and of its notes."""

NOTES = 'programmed = "stop"\nload_cards = "none"\n'
LOOPS = 60


def mark(source, target, most, inside=None):
    text = "[[mark]]\nfrom = %d\nto = %d\nmost = %d\n" % (source, target, most)
    return text if inside is None else text + "inside = %d\n" % inside


def nested_loops():
    """Two thousand words in eight loops, each inside of the one before, with marks of most 9999:
    the words go on at the next, and the last eight also go back."""
    cards = ["%04d +000000%04d" % (here, here + 1) for here in range(1992)]
    marks = []
    for loop in range(8):
        here, back = 1999 - loop, 100 * loop
        cards.append("%04d +44%04d%04d" % (here, back, min(here + 1, 1999)))
        marks.append(mark(here, back, 9999, loop or None))
    cards[-8] = "1999 +4400002000"
    return "\n".join(cards) + "\nSTART 0000\n", NOTES + "".join(marks)


def branched_loops():
    """Two thousand words: sixty loops one after the other, with marks of most 9999, each behind a
    branch that goes into it or past it; and the words that are left, up to a stop."""
    size = 2000 // LOOPS
    cards, marks = [], []
    for loop in range(LOOPS):
        branch = loop * size
        first, last, onward = branch + 1, branch + size - 1, branch + size
        cards.append("%04d +45%04d%04d" % (branch, first, onward))
        cards += ["%04d +000000%04d" % (here, here + 1) for here in range(first, last)]
        cards.append("%04d +44%04d%04d" % (last, first, onward))
        marks.append(mark(last, first, 9999))
    cards += ["%04d +000000%04d" % (here, here + 1) for here in range(LOOPS * size, 1999)]
    return "\n".join(cards) + "\n1999 +0100001999\nSTART 0000\n", NOTES + "".join(marks)


def all_listed():
    """Notes that list every location: each goes on at the next, whatever its D, and the last one
    stops."""
    places = list(range(2000)) + list(range(8000, 8004))
    pattern = "op = %d\nd_from = 0\nd_to = 9999\ni = %d\n"
    text = NOTES
    for place, following in zip(places, places[1:] + [8004]):
        text += "[[list]]\nlocation = %d\n[[list.pattern]]\n" % place
        text += pattern % (place == 8003, following)
    return text


def listed_places():
    """2004 executed words, each with a list of 10,000 instructions, and a mark, which makes their
    product with the counts too large for a bound."""
    return "START 0000\n", all_listed() + mark(0, 1, 1999)
