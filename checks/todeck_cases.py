"""What examples/from/todeck is to make of listings, of cards and of dumps, as checks/examples tries
it. Each case has a title and the words after the script's name."""

# Files, and the file of the deck.
OF_FILES = [
    ("a listing", "listing --start 0000 examples/from/count.listing", "examples/count/deck"),
    (
        "a listing with other columns",
        "listing --columns 41-44,47- --others comment --start 0000 examples/from/count.soap",
        "examples/from/count.deck",
    ),
    (
        "cards of seven words",
        "cards --start 0000 examples/from/search.cards",
        "examples/from/search.deck",
    ),
    (
        "load cards",
        "cards --head-word 3 --head 24AAAA8000 --others skip --start 0100 examples/loader/cards",
        "examples/first/deck",
    ),
    (
        "a dump",
        "dump --sign after --start 0000 examples/from/search.dump",
        "examples/from/search.deck",
    ),
]

# The lines of standard input, and those of the deck.
OF_LINES = [
    (
        "signs before the words",
        "listing",
        ["0100 69 0103 0106", "0101 +69 0103 0106", "0102 - 6901030106", "1999: -6901030106  A, 2"],
        ["0100 +6901030106", "0101 +6901030106", "0102 -6901030106", "* A, 2", "1999 -6901030106"],
    ),
    (
        "signs after the words",
        "dump --sign after",
        ["0100 6901030106- 0000000000 - 65 0020 0001 +"],
        ["0100 -6901030106 -0000000000 +6500200001"],
    ),
    (
        "signs over the last digits",
        "dump --sign over -",
        ["0100 000000000{ 000000000A 0000000005", "0103:000000000}000000000J00 0000 000R"],
        ["0100 +0000000000 +0000000001 +0000000005", "0103 -0000000000 -0000000001 -0000000009"],
    ),
    (
        "words that touch",
        "cards",
        ["0001000003+0000000001-00000000020000000003+0000000000"],
        ["0100 +0000000001 -0000000002 +0000000003"],
    ),
    (
        "columns in another order",
        "listing --columns 17-20,1,4-15,22-24",
        ["-  69 0103 0106 0100 ONE 7", "", "   01 0000 0000 0101"],
        ["* ONE", "0100 -6901030106", "0101 +0100000000"],
    ),
    (
        "more words than a line of a deck has",
        "dump --start 1999",
        ["0100" + " 0000000001" * 15],
        [at + " +0000000001" * 7 for at in ("0100", "0107")] + ["0114 +0000000001", "START 1999"],
    ),
    (
        "words of nought left out",
        "dump --without-noughts",
        ["0100 0000000000 0000000001 -0000000000 +0000000000 0000000002", "0105 0000000000"],
        ["0101 +0000000001 -0000000000", "0104 +0000000002"],
    ),
    (
        "a head of another kind",
        "cards --head-word 2 --head .NN...AAAA",
        ["0000000001 0020000100 0000000001 0000000002", "9999999999 7019991999 0000000003"],
        ["0100 +0000000001 +0000000002", "1999 +0000000003"],
    ),
    (
        "cards of two words each",
        "cards --head 24AAAA1911 --count 2",
        ["2401001911 0000000001 0000000002", "2402001911 -0000000003 0000000000 +0000000000"],
        ["0100 +0000000001 +0000000002", "0200 -0000000003 +0000000000"],
    ),
    (
        "other lines as comments",
        "cards --others comment",
        ["0001000001 0000000007", "  THE LAST ONE ", "0001010000"],
        ["0100 +0000000007", "* THE LAST ONE", "* 0001010000"],
    ),
    (
        "other lines left out, carriage returns, tabs and a new page",
        "listing --others skip",
        ["PAGE 1\r", "\f0100\t69 0103\t0106\r", "\r", "0101 69 0103\r"],
        ["0100 +6901030106"],
    ),
    (
        "comments, two of them too long",
        "listing",
        ["*", "*" + " 23456789" * 12, "*" + "1" * 100, "0100 0000000000"],
        ["*", "*" + " 23456789" * 11, "* 23456789", "*" + "1" * 99, "* 1", "0100 +0000000000"],
    ),
]

# The lines of standard input, and their faults.
LISTING = "this is no location with one word, and perhaps a remark"
REFUSED = [
    (
        "lines of no listing",
        "listing",
        ["0100 69 0103 0106", "0101 69 0103", "69 0103 0106"],
        [":2: " + LISTING, ":3: " + LISTING],
    ),
    ("a second word", "listing", ["0100 6901030106 0100000106"], [":1: " + LISTING]),
    ("a remark with a digit first", "listing", ["0100 6901030106 10 TIMES"], [":1: " + LISTING]),
    (
        "a sign after a word",
        "dump",
        ["0100 6901030106- 6901030106"],
        [":1: these aren't words alone"],
    ),
    (
        "a sign before a word",
        "dump --sign after",
        ["0100 6901030106 -6901030106"],
        [":1: these aren't words alone"],
    ),
    ("no dump", "dump", ["100 6901030106"], [":1: this is no location with words"]),
    (
        "a remark in a dump, and a word that isn't there",
        "dump",
        ["0100 6901030106 X", "0100 6901030106" + " " * 10 + "6901030106", "0100 "],
        [":%d: these aren't words alone" % line for line in (1, 2, 3)],
    ),
    (
        "two words at one location",
        "dump",
        ["0100 0000000001 0000000002", "0101 0000000002"],
        [":2: 0101 has a word of line 1 already"],
    ),
    (
        "a word of nought that is left out, and another there",
        "dump --without-noughts",
        ["0100 0000000000", "0100 0000000001"],
        [":2: 0100 has a word of line 1 already"],
    ),
    (
        "words past the drum",
        "dump",
        ["1999 0000000001 0000000002", "8000 0000000001"],
        [":1: 2000 is past the drum", ":2: 8000 is past the drum"],
    ),
    (
        "heads that don't fit their cards",
        "cards",
        [
            "0001000002 0000000001",
            "0001000001 0000000001 0000000002",
            "0001000000",
            "0100000001",
            "0001000011",
        ],
        [
            ":1: words after the head: 1, not 2",
            ":2: words after the head: 2, not 1",
            ":3: the head counts no words",
            ":4: word 1 isn't as the head is said to be",
            ":5: word 1 isn't as the head is said to be",
        ],
    ),
    (
        "a card without a head",
        "cards --head-word 3",
        ["0001000001 0000000001"],
        [":1: word 3 isn't as the head is said to be"],
    ),
    ("no words", "listing --others skip", ["* A comment.", "TITLE"], [": there is no word"]),
]

# Words that are wrong.
WRONG = [
    "",
    "tape",
    "listing --start 2000",
    "listing --start 100",
    "listing --sign beside",
    "listing --columns 0-3",
    "listing --columns 7-3",
    "listing --columns 7,",
    "listing --others drop",
    "listing --head 00AAAA000N",
    "dump --count 1",
    "cards --head AAAA",
    "cards --head 00AAA0000N",
    "cards --head AAAA00AAAA",
    "cards --head N0AAAA000N",
    "cards --head-word 11",
    "listing one two",
]
