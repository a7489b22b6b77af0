"""All faults of notes, short and long, in their order, worked out from their document by
docs/FORMATS.md. checks/damaged-inputs holds the program's to them, by checks/judge.py."""

import functools
import re

from calls import MOST as MOST_CALLS
from faults import is_document
from marks import MOST, MOST_SHORT
from model import is_location
from toml_text import document_of

NOTE_KEYS = ["programmed", "load_cards", "mark", "list"]
LIST_KEYS = ["location", "pattern"]
PATTERN_KEYS = ["op", "d_from", "d_to", "i"]
CALL_KEYS = ["from", "to", "exit", "back"]
NAME = re.compile("[A-Za-z0-9-]{1,20}")

# How many patterns a list has at most, and how many edges a mark.
PATTERNS, EDGES = 64, 64


def is_number(value):
    return isinstance(value, int) and not isinstance(value, bool)


def is_edge(value):
    return isinstance(value, list) and len(value) == 2 and all(map(is_number, value))


class Faults:
    """The lines of the faults of a document's parts. A part is known by its path: nothing, or one
    that ends in a dot."""

    def __init__(self):
        self.lines = []

    def add(self, number, what, about):
        self.lines.append("fault %d notes %s %s" % (number, what, about))

    def keys(self, at, table, known, wanted):
        """The keys that a table may not have, in byte order, and those that it lacks."""
        for key in sorted(table, key=str.encode):
            if key not in known:
                self.add(14, "unknown", at + key)
        for key in wanted:
            if key not in table:
                self.add(13, "missing", at + key)

    def number(self, path, value, is_one):
        if not is_number(value):
            self.add(16, "kind", path)
        elif not is_one(value):
            self.add(15, "range", path)

    def text(self, path, value, is_one):
        if not isinstance(value, str):
            self.add(16, "kind", path)
        elif not is_one(value):
            self.add(15, "range", path)

    def numbers(self, at, table, ranges):
        """Numbers at these keys, each with its range."""
        for key, is_one in ranges.items():
            if key in table:
                self.number(at + key, table[key], is_one)

    def array(self, path, value, low, high, check):
        """An array of so many elements, each of which is checked with its path and its number."""
        if not isinstance(value, list):
            self.add(16, "kind", path)
        elif len(value) < low or high is not None and len(value) > high:
            self.add(15, "range", path)
        else:
            for number, one in enumerate(value, 1):
                check("%s.%d" % (path, number), one, number)

    def tables(self, at, table, key, low, high, check):
        """The tables at a key; each is checked with its path, itself and its number."""

        def look(path, one, number):
            if isinstance(one, dict):
                check(path + ".", one, number)
            else:
                self.add(16, "kind", path)

        if key in table:
            self.array(at + key, table[key], low, high, look)

    def pattern(self, at, table, _):
        self.keys(at, table, PATTERN_KEYS, PATTERN_KEYS)
        least = table.get("d_from")
        least = least if is_number(least) and least >= 0 else 0
        self.numbers(
            at,
            table,
            {
                "op": lambda op: 0 <= op <= 99,
                "d_from": lambda d: 0 <= d <= 9999,
                "d_to": lambda d: least <= d <= 9999,
                "i": lambda i: 0 <= i <= 9999,
            },
        )

    def list(self, at, table, _):
        self.keys(at, table, LIST_KEYS, LIST_KEYS)
        self.numbers(at, table, {"location": is_location})
        self.tables(at, table, "pattern", 1, PATTERNS, self.pattern)

    def edge(self, path, value, _):
        """An element of a mark's edges."""
        if not isinstance(value, list):
            self.add(16, "kind", path)
        elif len(value) != 2:
            self.add(15, "range", path)
        else:
            for number, place in enumerate(value, 1):
                self.number("%s.%d" % (path, number), place, is_location)

    def short_mark(self, at, table, number):
        self.keys(at, table, ["from", "to", "most", "inside"], ["from", "to", "most"])
        self.numbers(
            at,
            table,
            {
                "from": is_location,
                "to": is_location,
                "most": lambda most: 0 <= most <= 9999,
                "inside": lambda outer: 1 <= outer < number,
            },
        )

    def long_mark(self, at, table, number, names):
        """A mark of long notes, whose marks before it have these names."""
        ends = [] if lists_edges(table) else ["from", "to"]
        known = (ends or ["edges"]) + ["most", "inside", "name"]
        self.keys(at, table, known, ends + ["most"])
        if not ends:
            self.array(at + "edges", table["edges"], 1, EDGES, self.edge)
        places = dict.fromkeys(ends, is_location)
        self.numbers(at, table, dict(places, most=lambda most: 0 <= most <= 9999))
        outer = table.get("inside")
        if isinstance(outer, str):
            self.text(at + "inside", outer, lambda name: name in names)
        else:
            self.numbers(at, table, {"inside": lambda outer: 1 <= outer < number})
        if "name" in table:
            is_new = lambda name: NAME.fullmatch(name) and name not in names
            self.text(at + "name", table["name"], is_new)

    def marks(self, document, is_long):
        """Those of the marks, and of two on one edge, which are compared last."""
        names = [text_in(table, "name") for table in tables_at(document, "mark")]
        before = len(self.lines)
        if is_long:
            check = lambda at, table, number: self.long_mark(at, table, number, names[: number - 1])
            self.tables("", document, "mark", 0, MOST, check)
        else:
            self.tables("", document, "mark", 0, MOST_SHORT, self.short_mark)
        return [] if len(self.lines) > before else edges_at(document)

    def call(self, at, table, earlier):
        """A call of long notes, with the edges and exits of those before it."""
        self.keys(at, table, CALL_KEYS, CALL_KEYS)
        opening = opening_of(table)
        is_new = lambda place: is_location(place) and (opening is None or opening not in earlier)
        self.numbers(at, table, dict.fromkeys(["from", "to"], is_location))
        self.numbers(at, table, {"exit": is_new, "back": is_location})

    def calls(self, document):
        openings = [opening_of(table) for table in tables_at(document, "call")]
        check = lambda at, table, number: self.call(at, table, openings[: number - 1])
        self.tables("", document, "call", 0, MOST_CALLS, check)

    def twice(self, number, what, ones, form):
        """What is there a second time."""
        for place, one in enumerate(ones):
            if one in ones[:place]:
                self.add(number, what, form % one)

    def notes(self, document, is_long):
        known = NOTE_KEYS + ["call"] if is_long else NOTE_KEYS
        self.keys("", document, known, NOTE_KEYS[:2])
        for key, texts in [("programmed", ["stop", "run", "any"]), ("load_cards", ["none", "any"])]:
            if key in document:
                self.text(key, document[key], lambda text, texts=texts: text in texts)
        edges = self.marks(document, is_long)
        self.tables("", document, "list", 0, None, self.list)
        if is_long:
            self.calls(document)
        self.twice(17, "twomarks", edges, "%04d %04d")
        self.twice(18, "twolists", locations_at(document), "%04d")
        return self.lines


def lists_edges(table):
    """Whether a mark's table lists its edges."""
    return "edges" in table and "from" not in table and "to" not in table


def opening_of(table):
    """The edge and the exit of a call's table; None where one of their locations isn't right."""
    places = [table.get(key) for key in CALL_KEYS[:3]]
    return places if all(is_number(one) and is_location(one) for one in places) else None


def text_in(table, key):
    """The text at a key; None where there is none."""
    text = table.get(key)
    return text if isinstance(text, str) else None


def tables_at(document, key):
    """The elements of the array at a key, with an empty table for each that is no table."""
    values = document.get(key)
    values = values if isinstance(values, list) else []
    return [value if isinstance(value, dict) else {} for value in values]


def edges_at(document):
    """The edges of marks without a fault."""
    edges = []
    for table in tables_at(document, "mark"):
        listed = table["edges"] if "edges" in table else [(table["from"], table["to"])]
        edges += map(tuple, listed)
    return edges


def locations_at(document):
    """The locations that lists are for, of those that say one."""
    places = [table.get("location") for table in tables_at(document, "list")]
    return [place for place in places if is_number(place) and is_location(place)]


@functools.lru_cache(maxsize=64)
def notes_faults(text, is_long):
    """The lines of all faults of a text that is to be notes, short or long; None where it is no
    document."""
    return Faults().notes(document_of(text), is_long) if is_document(text) else None
