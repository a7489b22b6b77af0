"""The programs that the ceiling is measured with.

A program is lines `NAME OP D I` and `NAME = WORD`, where D and I are numbers, names or `.` (of the
line below); `@NAME` before them is a location that only the list behind it gives a word. They are
placed in three ways: one word after the other, each where the drum is when it is wanted, and
scattered."""

import random

PLACINGS = ["in order", "placed", "scattered"]
COUNT_DOWN = """
    {0}a 65 {1} .
    {0}b 16 one .
    {0}c 20 {1} .
    {0}d 45 {2} {3}"""
END = "\n    end 01 0 end\n    one = 1"
SUM = """
    first 65 add 8002
    next 15 step .
    store 20 now .
    last 97 8002 keep
    keep 21 sum end
    add = 1008000000:next
    step = 10000
    now = 0
    sum = 0"""
HORNER = """
    go 65 made .
    h1 15 step .
    h2 20 made .
    h3 20 load .
    h4 60 sum .
    h5 19 x .
    h6 20 sum load
    @load
    h7 15 sum .
    h8 20 sum ha""" + COUNT_DOWN.format("h", "left", "go", "end") + """
    made = 6508000000:h7
    step = 10000
    sum = 0
    x = 7
    left = 11"""
ROOT = """
    r0 69 big .
    r1 24 x .
    go 65 n .
    r3 64 x .
    r4 15 x .
    r5 64 two .
    r6 20 y .
    r7 16 x .
    r8 46 r9 end
    r9 69 y .
    back 24 x go
    big = 100000
    two = 2
    n = 2000000
    x = 0
    y = 0"""
CARDS = """
    read 70 100 .
    c1 65 101 .
    c2 46 out .
    c3 15 sum .
    c4 20 sum read
    out 65 sum .
    o1 20 177 .
    o2 71 150 end
    sum = 0"""
SORT = """
    go 65 first .
    s1 20 pair .
    next 65 pair .
    s3 69 ia .
    s4 22 a .
    s5 69 id .
    s6 22 d .
    s7 69 ie .
    s8 22 e .
    s9 15 step .
    t1 69 ib .
    t2 22 b .
    t3 69 if .
    t4 22 f .
    t5 69 ig .
    t6 22 g a
    @a
    @b
    u1 46 on .
    u2 45 . on
    u3 20 less d
    @d
    u4 16 less e
    @e
    @f
    u5 15 less g
    @g
    on 65 pair .
    v1 15 step .
    v2 20 pair .
    v3 16 stop .
    turn 45 next oa""" + COUNT_DOWN.format("o", "left", "go", "end") + """
    first = 3000000
    pair = 0
    step = 10000
    stop = 3090000
    left = 9
    less = 0
    ia = 6500000000:b
    ib = 1600000000:u1
    id = 6500000000:u4
    ie = 2000000000:f
    if = 6500000000:u5
    ig = 2000000000:on"""
SORT_LISTS = [("a", 65, 300, 308, "b"), ("b", 16, 301, 309, "u1"), ("d", 65, 300, 308, "u4"),
    ("e", 20, 300, 308, "f"), ("f", 65, 301, 309, "u5"), ("g", 20, 301, 309, "on")]
SEARCH = """
    go 65 made .
    s1 15 step .
    s2 20 made .
    s3 20 less .
    s4 65 key less
    @less
    s5 45 ca out
    out 69 made .
    o1 24 at end""" + COUNT_DOWN.format("c", "left", "go", "end") + """
    made = 1608000000:s5
    step = 10000
    key = 17
    at = 0
    left = 20"""
SQUARES = """
    go 65 square .
    s1 15 odd .
    s2 20 square .
    s3 20 127 .
    s4 71 100 .
    s5 65 odd .
    s6 15 two .
    s7 20 odd ca""" + COUNT_DOWN.format("c", "left", "go", "end") + """
    square = 0
    odd = 1
    two = 2
    left = 30"""
PRODUCTS = """
    go 65 factor .
    p1 35 1 .
    p2 20 factor .
    p3 21 digit .
    p4 65 digit .
    p5 45 add sh
    add 65 product .
    q1 15 other .
    q2 20 product ia""" + COUNT_DOWN.format("i", "digit", "add", "sh") + """
    sh 65 product .
    q4 35 1 .
    q5 20 product oa""" + COUNT_DOWN.format("o", "places", "go", "end") + """
    factor = 12345
    other = 678
    product = 0
    digit = 0
    places = 10"""
TOTALS = """
    read 70 100 .
    t1 65 101 .
    t2 46 group .
    t3 16 group# .
    t4 45 group add
    add 65 102 .
    t5 15 sum .
    t6 20 sum read
    group 65 sum .
    g1 20 127 .
    g2 71 100 .
    g3 65 nought .
    g4 20 sum .
    g5 65 101 .
    g6 20 group# .
    g7 46 end add
    group# = 1
    sum = 0
    nought = 0"""
POLYNOMIAL = """
    value 65 nought .
    v1 20 sum .
    v2 65 made# .
    v3 20 made coef
    coef 65 made .
    c1 15 step .
    c2 20 made .
    c3 20 load .
    c4 60 sum .
    c5 19 x .
    c6 20 sum load
    @load
    c7 15 sum .
    c8 20 sum .
    c9 65 made .
    d1 16 last .
    turn 45 coef d2
    d2 69 sum .
    d3 24 127 .
    d4 71 100 .
    d5 65 x .
    d6 15 one .
    d7 20 x oa""" + COUNT_DOWN.format("o", "left", "value", "end") + """
    made = 0
    made# = 6508000000:c7
    last = 6508060000:c7
    nought = 0
    sum = 0
    step = 10000
    x = 1
    left = 12"""
# Name: the text, the marks (from, to, most and the outer mark's number), the lists.
THREE_WAYS = {
    "sum": (SUM, [("last", 8002, 99, None)], [(8002, 10, 800, 899, "next")]),
    "horner": (HORNER, [("hd", "go", 10, None)], [("load", 65, 800, 811, "h7")]),
    "root": (ROOT, [("back", "go", 18, None)], []),
    "cards": (CARDS, [("read", "c1", 21, None)], []),
    "sort": (SORT, [("od", "go", 8, None), ("turn", "next", 8, 1)], SORT_LISTS),
    "search": (SEARCH, [("cd", "go", 19, None)], [("less", 16, 800, 820, "s5")])}
PLACED = {
    "squares": (SQUARES, [("cd", "go", 29, None)], []),
    "products": (PRODUCTS, [("od", "go", 9, None), ("id", "add", 8, 1)], []),
    "totals": (TOTALS, [("read", "t1", 40, None), ("group", "g1", 12, None)], []),
    "polynomial": (POLYNOMIAL, [("od", "value", 11, None), ("turn", "coef", 5, 1)],
                   [("load", 65, 800, 806, "c7")])}


class Program:
    """The lines of a program, each with the names of those that it needs."""

    def __init__(self, text, marks, lists):
        self.marks, self.lists = marks, lists
        self.instructions, self.data, self.listed = {}, {}, []
        lines = [line.split() for line in (text + END).splitlines() if line.strip()]
        for at, parts in enumerate(lines):
            if parts[0].startswith("@"):
                self.listed.append(parts[0][1:])
            elif parts[1] == "=":
                self.data[parts[0]] = parts[2]
            else:
                below = lines[at + 1][0].lstrip("@") if at + 1 < len(lines) else None
                one = [below if part == "." else part for part in parts]
                while len(one) < 4:
                    one.append(below)
                self.instructions[one[0]] = (int(one[1]), one[2], one[3])

    def in_order(self):
        names = list(self.instructions) + self.listed + list(self.data)
        return {name: at for at, name in enumerate(names)}

    def scattered(self):
        names = list(self.instructions) + self.listed + list(self.data)
        return dict(zip(names, random.Random(len(names)).sample(range(400, 800), len(names))))

    def placed(self, times):
        """Each word at the first free place that comes by when it is wanted, as far as a pass
        through the lines tells; places from 400 on."""
        where, free = {}, set(range(400, 800))
        clock = 0

        def put(name, angle):
            if name in self.instructions or name in self.data or name in self.listed:
                if name not in where:
                    place = min(free, key=lambda at: ((at - angle) % 50, at))
                    free.discard(place)
                    where[name] = place
                return where[name]
            return int(name)

        for name, (op, d, i) in self.instructions.items():
            clock = put(name, clock) % 50
            entry, clock = times[op], clock + times[op]["before"]
            if not op >= 90 and op not in (44, 45, 46, 0, 1, 30, 35, 70, 71):
                at = put(d, clock)
                clock += (at - clock) % 50 if at < 2000 else 0
            clock += entry["after"] + clock % 2 * (entry["parity"] != "any")
            for onto in [i, d] if op in (44, 45, 46) or op >= 90 else [i]:
                put(onto, clock)
        for name in list(self.listed) + list(self.data):
            put(name, 0)
        return where

    def written(self, where):
        """The texts of the deck and of the notes."""

        def at(name):
            return where[name] if name in where else int(name)

        cards = ["%04d +%02d%04d%04d" % (where[name], op, at(d), at(i))
                 for name, (op, d, i) in self.instructions.items()]
        for name, word in self.data.items():
            number, _, onto = word.partition(":")
            cards.append("%04d +%010d" % (where[name], int(number) + (at(onto) if onto else 0)))
        deck = "\n".join(sorted(cards)) + "\nSTART %04d\n" % where[next(iter(self.instructions))]
        marks = [(at(source), at(target), most, inside)
                 for source, target, most, inside in self.marks]
        lists = {}
        for name, op, low, high, onto in self.lists:
            lists.setdefault(at(name), []).append((op, low, high, at(onto)))
        return deck, notes_text(marks, lists)


def notes_text(marks, lists):
    text = ['programmed = "stop"', 'load_cards = "none"']
    for place, patterns in lists.items():
        told = ["{ op = %d, d_from = %d, d_to = %d, i = %d }" % one for one in patterns]
        text += ["[[list]]", "location = %d" % place, "pattern = [ %s ]" % ", ".join(told)]
    for source, target, most, inside in marks:
        text += ["[[mark]]", "from = %d" % source, "to = %d" % target, "most = %d" % most]
        text += [] if inside is None else ["inside = %d" % inside]
    return "\n".join(text) + "\n"


def programs(times):
    """The name, the deck and the notes of each of the 22 programs."""
    for name, parts in THREE_WAYS.items():
        program = Program(*parts)
        ways = [program.in_order(), program.placed(times), program.scattered()]
        for placing, where in zip(PLACINGS, ways):
            yield "%s, %s" % (name, placing), *program.written(where)
    for name, parts in PLACED.items():
        program = Program(*parts)
        yield "%s, placed" % name, *program.written(program.placed(times))
