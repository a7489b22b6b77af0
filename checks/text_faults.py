"""All faults of texts, as `check` tells them: those of a deck, of notes and of inputs worked out
from their texts, and of a timing table, line by line, whether they may be told."""

import re
from collections import Counter

from damage import FILES
from faults import LINES, REFUSED, fault_of, lines_of, names_what_is_there
from note_faults import notes_faults

# The most bytes of a line of a deck.
LINE = 100

CARD = re.compile(rb"([0-9]{4})((?: [+-][0-9]{10}){1,7})")
START = re.compile(rb"START ([0-9]{4})")
WORD = re.compile(rb"[-+][0-9]{10}")

UTF16 = "the text is UTF-16"


def word_slip_of(line):
    """What is to be told of the words of a line."""
    pieces = line.split(b" ")
    words = sum(1 for piece in pieces if WORD.fullmatch(piece))
    begins = re.match(rb"[0-9]", line)
    if begins and words and any(re.match(rb"[^-+0-9]", piece) for piece in pieces):
        return "a comment stands behind the words"
    if re.search(rb"[Oo][0-9]|[0-9][Oo]", line):
        return "the line has a letter O for a zero"
    if re.search(rb"[Il][0-9]|[0-9][Il]", line):
        return "the line has a letter l for a one"
    if any(re.fullmatch(rb"[0-9]{10}", piece) for piece in pieces):
        return "a word has no sign"
    if begins and words > 7:
        return "the line has more than 7 words"
    return form_slip_of(line, pieces)


def form_slip_of(line, pieces):
    """What is to be told of the form of a line with these pieces."""
    if re.match(rb"[0-9]{4} [-+]?[0-9]{2} [0-9]{4} [0-9]{4}", line):
        return "the instruction is in parts"
    if any(re.fullmatch(rb"[0-9]{10}[-+]", piece) for piece in pieces):
        return "a sign stands behind its word"
    if re.match(rb"[0-9]{4}:", line):
        return "a colon stands behind the location"
    if line.startswith((b"CARD ", b"LOAD ")) and len(pieces) != 11:
        return "a card has ten words"
    if re.fullmatch(rb"ANGLE [0-9]", line):
        return "the angle has two digits"
    return "the line has small letters" if re.search(rb"[a-z]", line) else None


def is_utf16(line):
    """Whether a line is of a text in UTF-16."""
    return line.startswith((b"\xff\xfe", b"\xfe\xff")) or b"\0" in line


def slip_of(line):
    """What was done to a line that is none of a deck."""
    if line.startswith(b"\xef\xbb\xbf"):
        return "the line begins with a byte order mark"
    if is_utf16(line):
        return UTF16
    if line.endswith(b"\r"):
        return "the line ends with a carriage return"
    if not line:
        return "the line is empty"
    if b"\t" in line:
        return "the line has a tab"
    return "the line ends with a blank" if line.endswith(b" ") else word_slip_of(line)


def too_long_lines(name, number, line, fault):
    """The lines of a fault of a text whose line of this number is past a limit."""
    told = ["%s:%d: %s" % (name, number, fault)]
    return told + (["%s:%d: %s" % (name, number, UTF16)] if is_utf16(line) else [])


def told_once(told, name):
    """The lines that are told of faults, each with its slip, its number, and its own lines: of ten
    and more with one slip the first, and how many more there are."""
    counts, lines, done = Counter(slip for slip, _, _ in told), [], set()
    for slip, number, own in told:
        if slip is None or counts[slip] < 10:
            lines += own
        elif slip not in done:
            lines += own + ["%s: %d more lines like line %d" % (name, counts[slip] - 1, number)]
        done.add(slip)
    return lines


class Deck:
    """What the lines of a deck gave so far, and the lines that are told of their faults."""

    def __init__(self, name):
        self.name = name
        self.givers, self.start, self.has_start, self.told = {}, None, False, []

    def tell(self, number, fault, *behind, slip=None):
        lines = ["%s:%d: fault %s" % (self.name, number, fault)]
        lines += ["%s:%d: %s" % (self.name, *one) for one in behind]
        self.told.append((slip, number, lines))

    def take(self, number, line):
        card, start = CARD.fullmatch(line), START.fullmatch(line)
        if start:
            self.take_start(number, int(start.group(1)))
        elif card:
            first = int(card.group(1))
            self.take_card(number, range(first, first + card.group(2).count(b" ")))
        elif not line.startswith(b"*"):
            slip = slip_of(line)
            behind = [(number, slip)] if slip else []
            self.tell(number, "3 deck card %d" % number, *behind, slip=slip)

    def take_start(self, number, place):
        self.has_start = True
        if place >= 2000:
            self.tell(number, "7 deck pastdrum %d" % number)
        elif self.start:
            self.tell(number, "6 deck twostarts %d" % number, (self.start, "the first is here"))
        else:
            self.start = number

    def take_card(self, number, places):
        given = [place for place in places if place in self.givers]
        if places.stop > 2000:
            self.tell(number, "7 deck pastdrum %d" % number)
        elif given:
            earlier = self.givers[given[0]]
            self.tell(number, "4 deck twice %04d" % given[0], (earlier, "the first is here"))
        else:
            self.givers.update(dict.fromkeys(places, number))


def deck_lines(text, name):
    """The lines of all faults of a deck's text, in the file of this name."""
    lines = lines_of(text)
    for number, line in enumerate(lines, 1):
        if number > LINES or len(line) > LINE:
            return too_long_lines(name, number, line, "fault 8 deck toolong")
    deck = Deck(name)
    for number, line in enumerate(lines, 1):
        deck.take(number, line)
    told = told_once(deck.told, name)
    return told + ([] if deck.has_start else ["%s: fault 5 deck nostart" % name])


# What each line of inputs is, by its form, and what it is a setting of.
SETTINGS = {
    "ANGLE": rb"ANGLE [0-4][0-9]",
    "SWITCHES": rb"SWITCHES [+-][0-9]{10}",
    "DISTRIBUTOR": rb"DISTRIBUTOR [+-][0-9]{10}",
    "ACCUMULATOR": rb"ACCUMULATOR [+-][0-9]{20}",
    "LATCH": rb"LATCH (?:ON|OFF)",
    "PROGRAMMED": rb"PROGRAMMED (?:STOP|RUN)",
    "ONOVERFLOW": rb"ONOVERFLOW (?:STOP|SENSE)",
}
FED = re.compile(rb"(?:CARD|LOAD)(?: [+-][0-9]{10}){10}")
WAIT = re.compile(rb"WAIT ([0-9]{1,7})")

# The most bytes of a line of inputs.
INPUT_LINE = 200


def said_by(line):
    """What a line of inputs says, once at most each: settings by name, drum locations by number;
    None where it is no line of inputs."""
    card, wait = CARD.fullmatch(line), WAIT.fullmatch(line)
    if card:
        first = int(card.group(1))
        return list(range(first, first + card.group(2).count(b" ")))
    if line.startswith(b"*") or FED.fullmatch(line) or wait and int(wait.group(1)) <= 1000000:
        return []
    return next(([key] for key, form in SETTINGS.items() if re.fullmatch(form, line)), None)


def inputs_lines(text, name):
    """The lines of all faults of a text of inputs, in the file of this name."""
    lines, said, told = lines_of(text), {}, []
    for number, line in enumerate(lines, 1):
        if number > LINES or len(line) > INPUT_LINE:
            return too_long_lines(name, number, line, "fault 46 inputs toolong")
    for number, line in enumerate(lines, 1):
        here, at = said_by(line), "%s:%d: " % (name, number)
        if here is None:
            slip = slip_of(line)
            own = [at + "fault 43 inputs line %d" % number] + ([at + slip] if slip else [])
            told.append((slip, number, own))
        elif any(isinstance(one, int) and one >= 2000 for one in here):
            told.append((None, number, [at + "fault 45 inputs pastdrum %d" % number]))
        elif any(one in said for one in here):
            first = min(said[one] for one in here if one in said)
            own = [at + "fault 44 inputs repeated %d" % number]
            told.append((None, number, own + ["%s:%d: the first is here" % (name, first)]))
        else:
            said.update(dict.fromkeys(here, number))
    return told_once(told, name)


# What stands in front of a line of a document's fault, and of what `toml` says.
FRONT = re.compile("(?:%s): (?=fault )" % "|".join(FILES))
SAID = re.compile("(?:%s):([0-9]+):[0-9]+: .*\n" % "|".join(FILES))
# What stands in front of a line of a fault of inputs.
LINED = re.compile("(?:%s):[0-9]+: fault " % "|".join(FILES))


def fault_at(text, place):
    """The fault whose line begins at a place of a text, and where it ends: at the first line feed
    behind which another line begins, since a key may have line feeds."""
    end = text.find("\n", place) + 1
    while end and text[end:] and not any(one.match(text, end) for one in (FRONT, SAID, LINED)):
        end = text.find("\n", end) + 1
    return fault_of(text[place:end], REFUSED), end


def document_faults(text, place, part, files):
    """The faults that are told of a document at a place of a text, and where they end; None where
    they may not be told."""
    faults, front = [], FRONT.match(text, place)
    while front:
        fault, end = fault_at(text, front.end())
        if fault is None or fault.about != part:
            break
        if not names_what_is_there(fault, files):
            return None, place
        faults.append(fault)
        place = end
        if fault.ending == "toml":
            said = SAID.match(text, place)
            is_there = said and 0 < int(said.group(1)) <= files[part].count(b"\n") + 1
            return (faults, said.end()) if is_there and len(faults) == 1 else (None, place)
        front = FRONT.match(text, place)
    return faults, place


def told_lines(text, place, files, part, lines_by):
    """The lines that stand at a place of a text of all that is wrong with a part, in the file of
    whichever name it is."""
    of_names = ["".join(line + "\n" for line in lines_by(files[part], name)) for name in FILES]
    return next((lines for lines in of_names if lines and text.startswith(lines, place)), of_names[0])


def notes_lines(text, name):
    """The lines of all faults of a document of notes, in the file of this name."""
    return ["%s: %s" % (name, line) for line in notes_faults(text, True)]


def notes_told(text, place, files):
    """The faults that are told of notes at a place of a text, and where they end; None where they
    may not be told."""
    if notes_faults(files["notes"], True) is None:
        return document_faults(text, place, "notes", files)
    lines = told_lines(text, place, files, "notes", notes_lines)
    faults = [fault_of(line + "\n", REFUSED) for line in notes_faults(files["notes"], True)]
    return (faults, place + len(lines)) if text.startswith(lines, place) else (None, place)


def loaded_lines(files, name):
    """The lines of what sound inputs and a sound deck both load."""
    loaded = {place for line in lines_of(files["deck"]) for place in said_by(line) or []}
    given = (place for line in lines_of(files["inputs"]) for place in said_by(line) or [])
    return ["%s: fault 47 inputs loaded %04d" % (name, place) for place in given if place in loaded]


def inputs_told(text, place, files, is_deck_sound):
    """The lines that stand at a place of a text of all that is wrong with inputs."""
    told = told_lines(text, place, files, "inputs", inputs_lines)
    if told or not is_deck_sound:
        return told
    return told_lines(text, place, files, "inputs", lambda _, name: loaded_lines(files, name))


def listed_faults(text, files, has_inputs):
    """The faults that a check tells of texts; None where they may not be told so."""
    of_deck = told_lines(text, 0, files, "deck", deck_lines)
    if not text.startswith(of_deck):
        return None
    faults, place = own_faults(of_deck), len(of_deck)
    of_times, place = document_faults(text, place, "times", files)
    of_notes, place = (None, place) if of_times is None else notes_told(text, place, files)
    if of_notes is None:
        return None
    faults += of_times + of_notes
    of_inputs = inputs_told(text, place, files, not of_deck) if has_inputs else ""
    faults += own_faults(of_inputs)
    return faults if faults and text[place:] == of_inputs else None


def own_faults(lines):
    """The faults of lines that stand behind their files' names."""
    return [
        fault_of(line.split(" ", 1)[1] + "\n", REFUSED)
        for line in lines.splitlines()
        if ": fault " in line
    ]
