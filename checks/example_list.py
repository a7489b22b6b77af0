"""The examples, as checks/examples and checks/stored-run go through them. All share one timing
table."""

from collections import namedtuple

TIMES = "examples/times.toml"

# A title, a folder of examples/, in it a deck with its notes, and the files of inputs of its
# replays: each with what the drum holds in the end, a number for a location, or None where the run
# leaves the notes.
Example = namedtuple("Example", "title folder deck notes runs")

UNSORTED = [31, 41, -59, 26, 53, 58, 97, 93, 23, 84]


def from_300(numbers):
    return dict(enumerate(numbers, 300))


EXAMPLES = [
    Example("two words", "first", "deck", "notes.toml", {"inputs": {}}),
    Example("an altered word", "altered", "deck", "notes.toml", {"inputs": {106: 112340106}}),
    Example("a loop", "loop", "deck", "notes.toml", {"inputs": None}),
    Example("a count", "count", "deck", "notes.toml", {"inputs": {}}),
    Example("a sum, in order", "sum", "in-order.deck", "in-order.toml", {"inputs": {25: 46050}}),
    Example("a sum, placed", "sum", "placed.deck", "placed.toml", {"inputs": {18: 46050}}),
    Example("a search", "search", "deck", "notes.toml", {"inputs": {41: 49}, "no-digit": None}),
    Example(
        "a subroutine",
        "subroutine",
        "deck",
        "notes.toml",
        {"inputs": {51: 300**2 + 400**2}, "largest": {51: 2 * 70000**2}},
    ),
    Example(
        "a square root",
        "root",
        "deck",
        "notes.toml",
        {
            "inputs-3": {101: 1},
            "inputs-2000000": {101: 1414},
            "inputs-9999999999": {101: 99999},
        },
    ),
    Example(
        "cards",
        "cards",
        "deck",
        "notes.toml",
        {
            "inputs": {20: 6912, 177: 6912},
            "full": {20: 210, 177: 210},
            "no-last": {20: 3},
        },
    ),
    Example(
        "a sort",
        "sort",
        "deck",
        "notes.toml",
        {"inputs": from_300(sorted(UNSORTED)), "backwards": from_300(range(1, 11))},
    ),
    Example("twelve loops in a row", "twelve", "deck", "notes.toml", {"inputs": {}}),
    Example("a loop with two ways back", "ways", "deck", "notes.toml", {"inputs": {50: 0, 60: -1}}),
    Example("a payroll", "payroll", "deck", "notes.toml", {"inputs": {}, "fifty": {}}),
    Example("a payroll with a word moved", "payroll", "placed.deck", "notes.toml", {"inputs": {}}),
    Example("a payroll by marks alone", "payroll", "deck", "marks.toml", {"inputs": {}}),
    Example("a payroll with a wrong way back", "payroll", "deck", "wrong.toml", {"inputs": None}),
    Example("cards that load themselves", "loader", "deck", "notes.toml", {"inputs": None}),
    Example("a loader", "loader", "seven.deck", "seven.toml", {"seven.inputs": None}),
]

# Decks to hold an emulator to: what each shows, its name, and its notes where it has notes of its
# own. The trace of each stands beside it.
EMULATOR = "emulator"
SHORT_RUNS = [
    ("operations that add", "adding", None),
    ("products and quotients", "multiplying", None),
    ("quotients of each pair of signs", "dividing", None),
    ("stores and loads", "storing", None),
    ("shifts", "shifting", None),
    ("shifts by each number of places", "places", None),
    ("both ways of a branch", "branching", None),
    ("positions of the distributor", "positions", None),
    ("cards and waits", "cards", "cards.toml"),
    ("instructions at 8000 to 8003", "addresses", "addresses.toml"),
    ("a quotient that is too long", "quotient", None),
    ("an overflow that stops", "overflow", None),
    ("a digit that is neither 8 nor 9", "digit", None),
    ("an operand that can't be used", "operand", None),
    ("a next location that is none", "next", None),
    ("a reader without cards", "empty-reader", None),
]
EXAMPLES += [
    Example(title, EMULATOR, name + ".deck", notes or "notes.toml", {name + ".inputs": {}})
    for title, name, notes in SHORT_RUNS
]


def files_of(example):
    """The names of an example's deck and notes, from the repository's top on."""
    return ["examples/%s/%s" % (example.folder, name) for name in (example.deck, example.notes)]


def file_of(example, name):
    return "examples/%s/%s" % (example.folder, name)
