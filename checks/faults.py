"""The lines of faults: which there are, and whether what they name is there.
checks/damaged-inputs holds the program's to it, by checks/judge.py."""

import re
from collections import namedtuple

from damage import FILES
from findings import Flow
from results import NUMBER, PLACE
from toml_text import document_of

# A fault's line, taken apart: what it is of, what stands behind its words, and that itself.
Fault = namedtuple("Fault", "about ending rest")

REFUSED, FAILED = 1, 3
# The most words that may be executed at all counts of the marks, and the most lines of a text.
KEYS = 4_000_000
LINES = 4000

# What stands behind the words of a fault's line: nothing, a number or locations, or a key.
FORMS = dict.fromkeys(["nothing", "nopart", "open", "fail", "toml", "nostart", "toolong"], "")
FORMS["toomany"] = ""
FORMS.update(dict.fromkeys(["noline", "pastdrum", "repeated", "start", "product"], NUMBER))
FORMS.update(dict.fromkeys(["twice", "loaded", "notloaded", "location"], PLACE))
FORMS.update(dict.fromkeys(["missing", "known", "unknown"], "(?s:(.*))"))
FORMS["locations"] = "(%s %s)" % (PLACE, PLACE)
FORMS["operation"] = "(%s [0-9][0-9])" % PLACE
FORMS["cycle"] = "(%s(?: %s)*)" % (PLACE, PLACE)

# Every line that there is, behind `fault `.
FAULTS = [
    ("1 deck read", "deck", "fail"),
    ("2 deck memory", "deck", "fail"),
    ("3 deck card ", "deck", "noline"),
    ("4 deck twice ", "deck", "twice"),
    ("5 deck nostart", "deck", "nostart"),
    ("6 deck twostarts ", "deck", "start"),
    ("7 deck pastdrum ", "deck", "pastdrum"),
    ("8 deck toolong", "deck", "toolong"),
    ("17 notes twomarks ", "notes", "locations"),
    ("18 notes twolists ", "notes", "location"),
    ("31 memory", "analysis", "fail"),
    ("32 notinprofile ", "analysis", "operation"),
    ("33 notloaded ", "analysis", "notloaded"),
    ("34 alters ", "analysis", "locations"),
    ("35 unbounded ", "analysis", "cycle"),
    ("36 toolarge ", "analysis", "product"),
    ("37 toomany", "analysis", "toomany"),
    ("41 inputs read", "inputs", "fail"),
    ("42 inputs memory", "inputs", "fail"),
    ("43 inputs line ", "inputs", "noline"),
    ("44 inputs repeated ", "inputs", "repeated"),
    ("45 inputs pastdrum ", "inputs", "pastdrum"),
    ("46 inputs toolong", "inputs", "toolong"),
    ("47 inputs loaded ", "inputs", "loaded"),
    ("51 nopart", "joined", "nopart"),
    ("52 input read", "joined", "fail"),
    ("52 input toolong", "joined", "fail"),
    ("53 memory", "joined", "fail"),
]
FAULTS += [("52 %s open" % part, part, "open") for part in FILES]
for part in ["times", "notes"]:
    FAULTS += [
        ("11 %s toml" % part, part, "toml"),
        ("12 %s memory" % part, part, "fail"),
        ("13 %s missing " % part, part, "missing"),
        ("14 %s unknown " % part, part, "unknown"),
        ("15 %s range " % part, part, "known"),
        ("16 %s kind " % part, part, "known"),
        ("52 %s read" % part, part, "fail"),
        ("52 %s toolong" % part, part, "fail"),
    ]
FAULTS = [
    (re.compile("fault %s%s\n" % (re.escape(words), FORMS[ending])), about, ending)
    for words, about, ending in FAULTS
]

# The keys of a timing table, and those that notes have to have and that they may have beside.
OP = r"op\.(?:0[01]|1[014-9]|2[0-4]|3[015]|4[4-7]|6[014-9]|7[01]|9[0-9])"
TIMES_KEYS = re.compile(
    r"op|%s(?:\.(?:before|after|parity))?|op\.(?:14|19|30|31|35|64)\.per" % OP
    + r"|op\.7[01]\.wait_(?:min|max)"
)
WANTED_KEYS = re.compile(
    r"programmed|load_cards|mark\.N\.(?:from|to|most)|list\.N\.(?:location|pattern)"
    r"|list\.N\.pattern\.N\.(?:op|d_from|d_to|i)"
    r"|call\.N\.(?:from|to|exit|back)".replace("N", "[0-9]+")
)
OTHER_KEYS = re.compile(
    r"mark(?:\.N(?:\.inside|\.name|\.edges(?:\.N(?:\.[12])?)?)?)?"
    r"|list(?:\.N(?:\.pattern\.N)?)?|call(?:\.N)?".replace("N", "[0-9]+")
)

# What a line of a deck and one of inputs may be.
CARD = b"[0-9]{4}(?: [+-][0-9]{10}){1,7}"
LINE_FORMS = {
    "deck": re.compile(rb"(?s:\*.*)|START [0-9]{4}|" + CARD),
    "inputs": re.compile(
        rb"(?s:\*.*)|ANGLE [0-4][0-9]|(?:SWITCHES|DISTRIBUTOR) [+-][0-9]{10}"
        rb"|ACCUMULATOR [+-][0-9]{20}|LATCH (?:ON|OFF)|PROGRAMMED (?:STOP|RUN)"
        rb"|ONOVERFLOW (?:STOP|SENSE)|(?:CARD|LOAD)(?: [+-][0-9]{10}){10}"
        rb"|WAIT (?:[0-9]{1,6}|0[0-9]{6}|1000000)|" + CARD
    ),
}


def fault_of(line, status):
    """The fault of a line that goes with a status."""
    for form, about, ending in FAULTS:
        matched = form.fullmatch(line)
        if matched and status == (FAILED if ending in ("open", "fail") else REFUSED):
            return Fault(about, ending, matched.group(1) if form.groups else "")
    return None


def lines_of(text):
    """The lines of a text. Nothing behind its last line feed is one."""
    return text.removesuffix(b"\n").split(b"\n") if text else []


def lines_up_to(text, number):
    """The line of this number, and those before it; comments where there is none."""
    lines = lines_of(text)
    if not 0 < int(number) <= len(lines):
        return b"*", lines
    return lines[int(number) - 1], lines[: int(number) - 1]


def is_well_formed(text, about):
    """Whether each line of a text is one of those that a deck or inputs may have."""
    return all(LINE_FORMS[about].fullmatch(line) for line in lines_of(text))


def is_no_line(text, number, about):
    """Whether a line is none of those that there may be, and the first."""
    line, before = lines_up_to(text, number)
    return not LINE_FORMS[about].fullmatch(line) and is_well_formed(b"\n".join(before), about)


def is_past_drum(line):
    """Whether a line names a location past 1999."""
    first, *words = line.removeprefix(b"START ").split(b" ")
    return first.isdigit() and int(first) + max(len(words), 1) > 2000


def is_repeated(text, number):
    """Whether a line of inputs sets what an earlier one does."""
    line, before = lines_up_to(text, number)
    first, *words = line.split(b" ")
    if not first.isdigit():
        return first not in (b"CARD", b"LOAD", b"WAIT") and any(
            earlier.split(b" ")[0] == first for earlier in before
        )
    places = range(int(first), int(first) + len(words))
    return any(gives(earlier, place) for earlier in before for place in places)


def gives(line, place):
    """Whether a line is that of words for this location, among others."""
    first = line[:4]
    return first.isdigit() and int(first) <= place < int(first) + (len(line) - 4) // 12


def giving(text, place):
    """How many lines of a text give a location a word."""
    return sum(gives(line, int(place)) for line in lines_of(text))


def integers_of(value):
    """The whole numbers in a document."""
    if isinstance(value, (dict, list)):
        for part in value.values() if isinstance(value, dict) else value:
            yield from integers_of(part)
    elif isinstance(value, int):
        yield value


def is_document(text):
    """Whether a text is a TOML document, with no number past 64 bits."""
    document = document_of(text)
    if document is None:
        return False
    return all(-(2**63) <= number < 2**63 for number in integers_of(document))


def stands_in(key, text):
    """Whether each part of a key stands in a document, or numbers an element for which there is
    room, as far as that can be seen: an escape may spell any."""
    text = text.decode()
    parts = key.split(".")
    has = lambda part: part in text or (part.isdigit() and int(part) <= len(text))
    return "\\" in text or all(map(has, parts))


def is_wanted(about, key):
    return (TIMES_KEYS if about == "times" else WANTED_KEYS).fullmatch(key)


def is_known(about, key):
    return is_wanted(about, key) or about == "notes" and OTHER_KEYS.fullmatch(key)


def is_cycle(text, notes):
    """Whether locations begin with the smallest, and none of them stands twice; where notes have
    calls one may, with something else open."""
    places = text.split(" ")
    may_come_again = bool(document_of(notes).get("call"))
    return places[0] == min(places) and (may_come_again or len(set(places)) == len(places))


def is_too_long(about, text):
    most = 100 if about == "deck" else 200
    return len(lines_of(text)) > LINES or any(len(line) > most for line in lines_of(text))


def names_what_is_there(fault, files):
    """Whether the text that a fault's line is of has what the line names."""
    about, ending, rest = fault
    deck, inputs = files["deck"], files["inputs"]
    text = files.get(about, deck)
    if ending in ("missing", "known", "unknown"):
        is_one = {"missing": is_wanted, "known": is_known}.get(ending, lambda *_: True)
        return is_one(about, rest) and (ending == "missing" or stands_in(rest, text))
    answers = {
        "noline": lambda: is_no_line(text, rest, about),
        "pastdrum": lambda: is_past_drum(lines_up_to(text, rest)[0]),
        "repeated": lambda: is_repeated(text, rest),
        "start": lambda: lines_up_to(text, rest)[0].startswith(b"START "),
        "twice": lambda: giving(deck, rest) >= 2,
        "loaded": lambda: giving(deck, rest) == 1 and giving(inputs, rest) == 1,
        "notloaded": lambda: giving(deck, rest) == 0,
        "operation": lambda: not re.fullmatch(OP, "op." + rest[-2:]),
        "cycle": lambda: is_cycle(rest, files["notes"]),
        "product": lambda: int(rest) > KEYS,
        "toomany": lambda: Flow(files).are_too_many(),
        "toml": lambda: not is_document(text),
        "nostart": lambda: not any(line.startswith(b"START ") for line in lines_of(text)),
        "toolong": lambda: is_too_long(about, text),
        "location": lambda: True,
        "locations": lambda: True,
    }
    # Where a part is missing, can't be opened or fails, nothing was asked for that is there.
    return ending in answers and answers[ending]()


# That what isn't refused has its form.


def is_accepted(fault, part):
    """Whether a run goes past a part: it has no fault, or one of what is looked at later."""
    order = ["joined"] + FILES + ["analysis"]
    return fault is None or order.index(fault.about) > order.index(part)


def has_its_form(part, text):
    """Whether a text is a deck with one start, a document, or inputs, as far as lines tell."""
    if part in ("times", "notes"):
        return is_document(text)
    lines = lines_of(text)
    starts = sum(line.startswith(b"START ") for line in lines)
    is_long, is_past = is_too_long(part, text), any(map(is_past_drum, lines))
    return is_well_formed(text, part) and not is_long and not is_past and starts == (part == "deck")
