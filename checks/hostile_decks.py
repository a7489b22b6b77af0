"""Decks, devices and outputs that are made to defeat the program, for checks/hostile."""

import os
import subprocess
import threading
import xml.etree.ElementTree as xml

from hostile_case import (
    BOUND,
    DECK,
    KEPT,
    KEYS,
    NOTES,
    PARTS,
    Case,
    card,
    comments,
    fault,
    joined_of,
    listed,
    marks,
)

# The most bytes of a joined form, and those that a picture may have.
JOINED = 16_777_216
PICTURE = 1_000_000


# Decks.


def storing_drum(patterns):
    """2000 words, each of which stores anywhere and goes on to the next; the last stops.

    The first word, at angle 0, comes after 49 word times at the latest. A word at angle a is sought
    again 101 word times later at the latest: its D comes 3 to 52 word times after it, it ends 3
    after that, and where that is past angle a + 1 of the next revolution, at 52 to 55, the next
    word comes at 101. The stop takes 1."""
    deck = b"START 0000\n" + b"".join(card(here, 0, 0, here + 1) for here in range(1999))
    lists = b"".join(listed(here, 24, here + 1, patterns) for here in range(1999))
    last, stop = card(1999, 1, 0, 1999), listed(1999, 1, 1999, patterns)
    line = b"bound %d\n" % (49 + 1999 * 101 + 1)
    name = "2000 words with %d patterns each" % patterns
    return Case(name, line, deck=deck + last, notes=NOTES + lists + stop)


def loading_word():
    """One word that loads the distributor from anywhere: D at angle 2 is worst, which is sought at
    angle 3 and comes at 101; 3 after it the stop at angle 6 is sought, which comes at 105 and takes
    1."""
    deck = card(100, 1, 0, 100) + card(106, 1, 0, 106) + b"START 0100\n"
    notes = NOTES + listed(100, 69, 106, 64)
    return Case("one word with 64 patterns", b"bound 106\n", deck=deck, notes=notes)


def all_places():
    """A cycle through the drum in steps of 701, and through the four places beside it."""
    cycle = [step * 701 % 2000 for step in range(2000)] + [8003, 8001, 8000, 8002]
    following = dict(zip(cycle, cycle[1:] + cycle[:1]))
    deck = b"START 1234\n" + b"".join(card(here, 0, 0, following[here]) for here in range(2000))
    lists = b"".join(listed(here, 0, following[here], 1) for here in range(8000, 8004))
    line = fault(35, b"unbounded", *[b"%04d" % here for here in cycle])
    return Case("a cycle of 2004 places", line, deck=deck, notes=NOTES + lists)


def ring_deck():
    """2000 words, which each take 1 once the first has come."""
    cards = [card(here, 0, 0, (here + 1) % 2000) for here in range(2000)]
    return b"START 0000\n" + b"".join(cards)


def ring_notes(most):
    return NOTES + marks([(1999, 0, most, 0)])


def ring(most, command="bound", **more):
    """A ring of 2000 words: the first comes after 49 word times. The last hop of all would pass the
    mark once more than it may be."""
    keys = 2000 * (most + 1)
    line = fault(36, b"toolarge", b"%d" % keys)
    if keys <= KEYS:
        line = b"bound %d\n" % (49 + keys - 1)
    name = "%s of a ring of %d keys" % (command, keys)
    return Case(name, line, command, deck=ring_deck(), notes=ring_notes(most), **more)


def counting_deck():
    """A ring that counts down in the lower accumulator and then stops. From angle 0 on the words to
    1995 take 1 each, and 1996 comes at angle 46; it is ready at 49, when its data come, waits one
    for an even word time, and ends at 52. 1997 comes at 97 and ends at 100, when 0000 comes. So a
    round takes 2050, and the stop at 1998 comes 48 after the last."""
    deck = b"START 0000\n" + b"".join(card(here, 0, 0, here + 1) for here in range(1996))
    deck += card(1996, 16, 1999, 1997) + card(1997, 45, 0, 1998) + card(1998, 1, 0, 1998)
    return deck + b"1999 +0000000001\n"


# How often it goes round: 1999 words as often are 3,999,999 keys.
ROUNDS = 2001


def counting(command, **more):
    """A run of the ring that counts, from angle 0: 1998 steps a round, and the stop. None moves a
    card, so that a trace has one line for each, and one for the mark."""
    notes, inputs = NOTES + marks([(1997, 0, ROUNDS - 1, 0)]), b"ACCUMULATOR +%020d\n" % ROUNDS
    used = 2050 * ROUNDS + 48 + 1
    line = b"kept used %d bound %d stop programmed\n" % (used, 49 + used)
    name = "%s of %d steps" % (command, 1998 * ROUNDS + 1)
    return Case(name, line, command, deck=counting_deck(), notes=notes, inputs=inputs, **more)


def loops(mosts):
    """Eight words that branch back to the first, and a stop: each way back takes one revolution in
    all, whichever word it leaves from. The first comes after 49 word times, as often as the counts'
    product says, and at last 24 before the stop, which takes 1."""
    deck = b"".join(card(here, 45, 100, here + 3) for here in range(100, 124, 3))
    deck += card(124, 1, 0, 124) + b"START 0100\n"
    edges = [(121 - 3 * outer, 100, most, outer) for outer, most in enumerate(mosts)]
    counts = 1
    for most in mosts:
        counts *= most + 1
    keys = 9 * counts
    line = fault(36, b"toolarge", b"%d" % keys)
    if keys <= KEYS:
        line = b"bound %d\n" % (74 + 50 * (counts - 1))
    name = "eight nested marks of %d to %d" % (min(mosts), max(mosts))
    return Case(name, line, deck=deck, notes=NOTES + marks(edges))


def of_decks():
    yield storing_drum(8)
    yield storing_drum(64)
    yield loading_word()
    yield all_places()
    yield ring(1999)
    yield ring(2000)
    # 2 * 2 * 3 * 7 * 11 * 13 * 37 are 444,444 counts, and so 3,999,996 keys.
    yield loops([1, 1, 2, 6, 10, 12, 36, 0])
    yield loops([4, 4, 4, 4, 4, 4, 4, 5])
    yield loops([9999] * 8)
    stars = b"*" * 100 + b"\n"
    yield Case("a deck of 4000 full lines", BOUND, deck=stars * 3997 + DECK)
    yield Case("a deck of 4000 full comments", fault(5, b"deck", b"nostart"), deck=stars * 4000)
    yield Case("a deck of 4001 lines", fault(8, b"deck", b"toolong"), deck=b"x\n" + b"*\n" * 4000)
    line = fault(8, b"deck", b"toolong")
    yield Case("a deck with a line of 101 bytes", line, deck=b"*" + stars + DECK)


# Long results.


def has_lines(count, last):
    """That a file has so many lines, of which this is the last. It isn't held whole."""

    def look(path):
        lines, line = 0, b""
        with open(path, "rb") as file:
            for line in file:
                lines += 1
        if (lines, line) == (count, last):
            return None
        return "%d lines, the last %r" % (lines, line[:200])

    return look


def is_picture(name):
    """That a file is a well-formed picture that says this, and is small."""

    def look(path):
        if os.path.getsize(path) > PICTURE:
            return "%d bytes" % os.path.getsize(path)
        try:
            texts = [part.text for part in xml.parse(path).getroot().iter()]
        except xml.ParseError as error:
            return "no XML: %s" % error
        return None if name in texts else "it doesn't say %r" % name

    return look


def everywhere(command):
    """The graph of 2000 words, each of which goes on at every word, and stores into every one; or
    its outline, which is the same."""
    patterns = "{op=45,d_from=0,d_to=1999,i=0},{op=24,d_from=0,d_to=1999,i=0}"
    one = "[[list]]\nlocation=%d\npattern=[%s]\n"
    lists = "".join(one % (here, patterns) for here in range(2000))
    # Four lines, of each word a box and two arrows to each, and the last.
    holds = has_lines(4 + 2000 * (1 + 2 * 2000) + 1, b"}\n")
    parts = {"deck": b"START 0000\n", "notes": NOTES + lists.encode(), "holds": holds}
    return Case("%s of 8,000,000 arrows" % command, b"}\n", command, **parts)


def of_results():
    last = ring(1999).line
    yield ring(1999, "report", holds=has_lines(2000 + 3, last))
    yield ring(1999, "walk", holds=has_lines(KEYS, last))
    yield ring(1999, "waits", holds=has_lines(2000 + 2, last))
    yield ring(1999, "draw", holds=is_picture("bound %d word times" % (49 + KEYS - 1)))
    # The last word is come to for the last time, of 2000, as the bound is reached.
    last = b"1999 angle 49 counts 1999 time %d\n" % (49 + KEYS - 1)
    parts = {"deck": ring_deck(), "notes": ring_notes(1999), "holds": has_lines(KEYS, last)}
    yield Case("table of 4,000,000 entries", last, "table", **parts)
    yield everywhere("graph")
    yield everywhere("outline")
    deck, notes = ring_deck(), ring_notes(1999)
    left = b"left toooften 1999 0000 step 4000000 used 3999999\n"
    for command, holds in [("replay", None), ("trace", has_lines(KEYS + 2, left))]:
        name = "%s of 4,000,000 steps that leaves the notes" % command
        yield Case(name, left, command, deck=deck, notes=notes, holds=holds)
    kept = counting("replay")
    yield kept
    yield counting("trace", holds=has_lines(1998 * ROUNDS + 3, kept.line))
    yield counting("draw", holds=is_picture("run %d word times" % (2050 * ROUNDS + 48 + 1)))


def of_checks():
    """Every word goes on at every word, and half of the words alter the other half."""
    every = b"".join(
        b"[[list]]\nlocation=%d\npattern=[{op=45,d_from=0,d_to=1999,i=0}]\n" % here
        for here in range(2000)
    )
    # Each edge that doesn't go on to a greater number goes back: a line, and four lines of a mark.
    # One line more says that these make long notes.
    last = b"to = 1999\n"
    holds = has_lines(5 * 2000 * 2001 // 2 + 1, last)
    parts = {"deck": b"START 0000\n", "notes": NOTES + every, "holds": holds}
    yield Case("check of 2,001,000 loops", last, "check", **parts)
    # Eight of these edges are marked. Seven loops stand inside that of the start, by one line each.
    edges = [(1999 - mark, mark, 1, 0) for mark in range(8)]
    parts["notes"] += marks(edges)
    parts["holds"] = has_lines(5 * (2000 * 2001 // 2 - 8) + 7 + 1, last)
    yield Case("check of 2,000,992 loops and eight marks", last, "check", **parts)
    halves = b"".join(
        b"[[list]]\nlocation=%d\npattern=[{op=20,d_from=0,d_to=1999,i=%d}]\n" % (here, here + 1)
        for here in range(1000)
    )
    deck = b"START 0000\n" + b"".join(card(here, 0, 0, here + 1) for here in range(1000, 1999))
    deck += card(1999, 1, 0, 1999)
    last = b"pattern = [{ op = , d_from = , d_to = , i = }] # loaded: +0100001999\n"
    holds = has_lines(1000 * 1000 + 3 * 1000, last)
    parts = {"deck": deck, "notes": NOTES + halves, "holds": holds}
    yield Case("check of 1,000,000 words that are altered", last, "check", **parts)
    stored = storing_drum(64)
    name = "check of %s" % stored.name.removeprefix("bound of ")
    yield Case(name, b"", "check", **stored.parts)
    # Every line of a deck but the first is a second card for a location, or no card at all.
    twice = card(0, 1, 0, 0) * 4000
    line = fault(5, b"deck", b"nostart")
    yield Case("check of 3999 locations given twice", line, "check", deck=twice, lists=7999)
    slips = b"start 0000\r\n" * 4000
    yield Case("check of 4000 lines of small letters", line, "check", deck=slips, lists=4)
    # Each line of inputs is looked for among all that stand before it.
    again = b"ANGLE 00\n" + b"*\n" * 1999 + b"ANGLE 01\n" * 2000
    line = b"the first is here\n"
    name = "check of an angle that is given 2001 times"
    yield Case(name, line, "check", inputs=again, lists=4000)


def of_outputs():
    """Outputs that can't be written, where a result is one line and where it is long."""
    for out in ["/dev/full", "closed", "broken"]:
        for command in COMMANDS:
            line = KEPT if command in ("replay", "trace") else BOUND
            yield Case("%s, %s" % (command, OUTPUTS[out]), line, command, status=3, out=out)
        name = "bound of a joined form, %s" % OUTPUTS[out]
        yield Case(name, BOUND, status=3, out=out, joined=joined_of())
        for case in [ring(1999, "walk", status=3, out=out), counting("trace", status=3, out=out)]:
            case.name += ", %s" % OUTPUTS[out]
            yield case


COMMANDS = ["bound", "report", "walk", "waits", "draw", "ceiling", "replay", "trace"]
OUTPUTS = {
    "/dev/full": "to /dev/full",
    "closed": "to a closed output",
    "broken": "to a pipe that nobody reads",
}


# The joined form, and files that are none.


def device(path):
    return lambda folder: path


def directory(folder):
    path = os.path.join(folder, "directory")
    os.mkdir(path)
    return path


def fifo(source):
    """A pipe with a name, which another process writes to: what `source` prints."""

    def make(folder):
        path = os.path.join(folder, "fifo")
        os.mkfifo(path)

        def feed():
            with open(path, "wb") as pipe:
                subprocess.run(source, stdout=pipe, stderr=subprocess.DEVNULL)

        threading.Thread(target=feed, daemon=True).start()
        return path

    return make


def of_joined():
    joined, toolong = joined_of(), fault(52, b"input", b"toolong")
    yield Case("a joined form of 16 MiB", BOUND, joined=comments(joined, JOINED))
    long = comments(joined, JOINED) + b"\n"
    yield Case("a joined form of one byte more", toolong, status=3, joined=long)
    stars = b"*" * (JOINED - len(joined)) + b"\n" + joined[1:]
    line = fault(8, b"deck", b"toolong")
    yield Case("a joined form of 16 MiB of deck", line, joined=stars)
    yield Case("/dev/zero as the joined form", toolong, status=3, stdin="/dev/zero")
    yield Case("`yes '*'` as the joined form", toolong, status=3, stdin=["yes", "*"])
    yield Case("no joined form", fault(51, b"nopart"), joined=b"")
    line = fault(52, b"input", b"read")
    yield Case("a directory as the joined form", line, status=3, stdin="/")


def of_devices():
    limits = {
        "deck": (fault(8, b"deck", b"toolong"), 1, fault(1, b"deck", b"read")),
        "times": (fault(52, b"times", b"toolong"), 3, fault(52, b"times", b"read")),
        "notes": (fault(52, b"notes", b"toolong"), 3, fault(52, b"notes", b"read")),
        "inputs": (fault(46, b"inputs", b"toolong"), 1, fault(41, b"inputs", b"read")),
    }
    for part, (long, status, read) in limits.items():
        for name, file, line, status in [
            ("/dev/zero as", device("/dev/zero"), long, status),
            ("`yes '*'` as", fifo(["yes", "*"]), long, status),
            ("a directory as", directory, read, 3),
            ("a name of 100,000 bytes as", device("n" * 100_000), unopened(part), 3),
            ("a pipe as", fifo(["printf", "%s", PARTS[part].decode()]), KEPT, 0),
        ]:
            yield Case("%s %s" % (name, part), line, "replay", status=status, **{part: file})


def unopened(part):
    return fault(52, part.encode(), b"open")


def cases():
    yield from of_decks()
    yield from of_results()
    yield from of_checks()
    yield from of_outputs()
    yield from of_joined()
    yield from of_devices()
