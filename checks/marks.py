"""The marks of notes, short and long, as a document says them. The other scripts of checks/ take
them from here."""

from collections import namedtuple

# How many marks notes have at most, and how many short ones have.
MOST, MOST_SHORT = 64, 8


class Mark(namedtuple("Mark", "edges most inside name")):
    """A mark: its edges in order, how often it is passed at most along all of them, the place of
    the mark that it stands inside of, from 0, and its name; None where it has none."""

    @property
    def first(self):
        return self.edges[0]

    def is_plain(self):
        """Whether it has one edge, and no name."""
        return len(self.edges) == 1 and self.name is None

    def ending(self):
        """What ends the lines on it."""
        return "" if self.name is None else " name %s" % self.name


def edges_of(table):
    """The edges of a mark's table."""
    if "edges" in table:
        return [(source, target) for source, target in table["edges"]]
    return [(table["from"], table["to"])]


def place_of(inside, names):
    """The place of the mark of this number or name, of marks that have these names."""
    return names.index(inside) if isinstance(inside, str) else inside - 1


def marks_of(notes):
    """The marks of notes, which have no fault."""
    tables, marks = notes.get("mark", []), []
    names = [table.get("name") for table in tables]
    for table in tables:
        inside = place_of(table["inside"], names) if "inside" in table else None
        marks.append(Mark(edges_of(table), table["most"], inside, table.get("name")))
    return marks


def are_short(marks, calls=()):
    """Whether notes with these marks and calls are short."""
    return len(marks) <= MOST_SHORT and all(mark.is_plain() for mark in marks) and not calls


def place_on(marks, edge):
    """The place of the mark on an edge; None where there is none."""
    return next((place for place, mark in enumerate(marks) if edge in mark.edges), None)


def is_inside(marks, inner, outer):
    """Whether the mark at one place says that it stands inside the one at another, directly or
    through others."""
    around = marks[inner].inside
    return around is not None and (around == outer or is_inside(marks, around, outer))



def short_text(notes):
    """The text of notes as a document of short ones, whose marks have one edge each and no name;
    all else that they say stays."""
    lines = ['%s = "%s"' % (key, notes[key]) for key in ("programmed", "load_cards")]
    for mark in marks_of(notes):
        lines += ["[[mark]]", "from = %d" % mark.first[0], "to = %d" % mark.first[1]]
        lines += ["most = %d" % mark.most]
        lines += [] if mark.inside is None else ["inside = %d" % (mark.inside + 1)]
    for one in notes.get("list", []):
        lines += ["[[list]]", "location = %d" % one["location"]]
        for pattern in one["pattern"]:
            keys = ("op", "d_from", "d_to", "i")
            lines += ["[[list.pattern]]"] + ["%s = %d" % (key, pattern[key]) for key in keys]
    return "\n".join(lines) + "\n"
