"""All that keeps a deck from a bound, or under long notes from a ceiling, worked out from its text
and its notes, and whether what `check` prints is that. Which edges it tells for the loops is held
to what is asked of them: that they are enough, and that none can be spared."""

import re
from math import prod

from calls import MOST_NODES, calls_of, none_open, onward
from marks import Mark, are_short, is_inside, marks_of, place_on
from model import is_location, suits
from results import cards_of, entries_of, start_of
from toml_text import document_of

# The most words times counts, and the most edges of marks whose loops are looked at one in the
# other.
KEYS = 4_000_000
EDGES = 64
# The operations that have their data address for a word on the drum.
DATA = {10, 11, *range(14, 20), *range(20, 25), 60, 61, *range(64, 70)}
# What stands behind the `inside` of a mark that is lacking, what in place of it where there are
# several, and what stands before marks that make long notes.
RUN = " # without this line, most is of the whole run"
SEVERAL = "# inside several ways back of one loop: most is of the whole run"
LONG = "# long notes (64 marks at most): "
LONG += "not for bound, report, table, size, replay or draw with inputs"


class Flow:
    """The flow graph of a deck under its notes, whatever stands at its locations. A node is a
    location with what is open there at the exits of calls; a link leads from one to another."""

    def __init__(self, files):
        self.loaded = {
            place: word
            for _, first, words in cards_of(files["deck"])
            for place, word in enumerate(words, first)
        }
        self.words = {place: parts_of(word) for place, word in self.loaded.items()}
        self.notes = document_of(files["notes"])
        self.profile = set(entries_of(files["times"]))
        self.lists = {one["location"]: one["pattern"] for one in self.notes.get("list", [])}
        self.marks, self.calls, self.led = marks_of(self.notes), calls_of(self.notes), {}
        self.discover((start_of(files["deck"]), none_open(self.calls)))

    def discover(self, first):
        """Finds the nodes, and of each where its links lead, from the first on; no more where there
        are too many. The executed locations, and where edges lead from each, are those of nodes."""
        self.nodes, self.links, nexts = {first: None}, {}, {}
        todo = [first]
        for node in todo:
            place = node[0]
            nexts[place] = nexts.get(place) or list(dict.fromkeys(self.nexts_at(place)))
            self.links[node] = list(self.links_from(node, nexts[place]))
            new = [onto for onto in self.links[node] if onto not in self.nodes]
            self.nodes.update(dict.fromkeys(new))
            todo += new
            if len(todo) > MOST_NODES:
                break
        self.order = list(dict.fromkeys(place for place, _ in self.nodes))
        led = {(node[0], onto[0]) for node in self.links for onto in self.links[node]}
        self.targets = {
            place: [onto for onto in nexts.get(place, []) if (place, onto) in led]
            for place in self.order
        }

    def links_from(self, node, nexts):
        """Where links lead from a node whose instructions go on at these locations."""
        place, opened = node
        for onto in nexts:
            behind = onward(self.calls, opened, (place, onto))
            if behind is not None:
                yield onto, behind

    def are_too_many(self):
        return len(self.nodes) > MOST_NODES

    def instructions(self, place):
        if place in self.words:
            yield self.words[place]
        for pattern in self.lists.get(place, []):
            for d in range(pattern["d_from"], pattern["d_to"] + 1):
                yield pattern["op"], d, pattern["i"]

    def nexts_at(self, place):
        for op, d, i in self.instructions(place):
            if op in self.profile and suits(op, d):
                yield from filter(is_location, self.nexts(op, d, i))

    def nexts(self, op, d, i):
        """Where an instruction may go on, D before I."""
        if op == 1 and self.notes["programmed"] == "stop":
            return []
        is_branch = op in (44, 45, 46, 47) or op >= 90
        is_load = op == 70 and self.notes["load_cards"] == "any"
        return [d, i] if is_branch or is_load else [i]

    def unfit(self, place):
        """What is wrong with a location by itself."""
        if place not in self.words and place not in self.lists:
            yield "notloaded %04d" % place
        for op in dict.fromkeys(op for op, _, _ in self.instructions(place)):
            if op not in self.profile:
                yield "notinprofile %04d %02d" % (place, op)

    def altering(self, place):
        """The executed words without a list that the instructions of a location write."""
        fixed = set(self.order) - set(self.lists)
        written = (word for op, d, _ in self.instructions(place) for word in writes(op, d))
        for word in dict.fromkeys(written):
            if word in fixed:
                yield "alters %04d %04d" % (place, word)

    def product(self):
        """Executed words times counts, as they are told: 2^127 in place of what is more."""
        counts = prod(mark.most + 1 for mark in self.marks)
        return min(len(self.order) * counts, 2**127)

    def too_large(self):
        is_past = are_short(self.marks, self.calls) and self.product() > KEYS
        return ["toolarge %d" % self.product()] if is_past else []

    def is_there(self, edge):
        return edge[1] in self.targets.get(edge[0], [])

    def unused(self):
        """Edges of marks that aren't there, lists of locations that aren't executed, and calls
        whose edge isn't there, or whose exit isn't executed."""
        for mark in self.marks:
            for edge in mark.edges:
                if not self.is_there(edge):
                    yield "unused mark %04d %04d" % edge
        for place in sorted(set(self.lists) - set(self.order)):
            yield "unused list %04d" % place
        for call in self.calls:
            if not self.is_there(call.edge) or call.exit not in self.targets:
                yield "unused call %04d %04d" % call.edge

    def idle(self):
        """Loaded words that are neither executed nor named as data by an executed instruction: three
        and more that follow one another at once."""
        named = {
            word
            for place in self.order
            for op, d, _ in set(self.instructions(place))
            for word in names(op, d)
        }
        stretches = []
        for place in sorted(set(self.words) - set(self.order) - named):
            if stretches and stretches[-1][-1] == place - 1:
                stretches[-1].append(place)
            else:
                stretches.append([place])
        for places in stretches:
            if len(places) > 2:
                yield "idle %04d to %04d" % (places[0], places[-1])
            else:
                yield from ("idle %04d" % place for place in places)

    def all_links(self):
        return [(node, onto) for node in self.links for onto in self.links[node]]

    def reached_past(self, head, node):
        """The nodes that links lead to from one, none of them onto one at the head."""
        if (head, node) not in self.led:
            links = [link for link in self.all_links() if link[1][0] != head]
            self.led[head, node] = reached(links, node)
        return self.led[head, node]

    def goes_round(self, node, outer, inner):
        """Whether links lead from a node at the inner loop's head round that loop, to this node
        again, and to the outer edge, none of them onto the outer loop's head."""
        led = self.reached_past(outer[1], node)
        is_round = any(one[0] == inner[0] and node in self.links.get(one, []) for one in led)
        nexts = {onto[0] for one in led if one[0] == outer[0] for onto in self.links.get(one, [])}
        return is_round and outer[1] in nexts

    def is_nested(self, outer, inner):
        """Whether the loop of one edge stands inside that of another: past the outer loop's head
        the inner one's leads round its loop and to the outer edge, and the start leads to it
        through that head alone."""
        head, place, start = outer[1], inner[1], next(iter(self.nodes))
        heads = [node for node in self.nodes if node[0] == place]
        if place == head or not any(self.goes_round(node, outer, inner) for node in heads):
            return False
        return start[0] == head or not self.reached_past(head, start) & set(heads)

    def around(self, edges, mark):
        """The edges of a mark inside whose loops that of one of these edges stands."""
        return [
            outer
            for outer in filter(self.is_there, mark.edges)
            if any(self.is_nested(outer, inner) for inner in filter(self.is_there, edges))
        ]

    def edges(self):
        """The edges of all marks, in order."""
        return [edge for mark in self.marks for edge in mark.edges]

    def unsaid(self):
        """Marks whose loop stands inside another one's where the notes don't say so."""
        if len(self.edges()) > EDGES:
            return
        for at, mark in enumerate(self.marks):
            around = [self.around(mark.edges, other) for other in self.marks]
            for outer, edges in enumerate(around):
                is_asked = edges and outer != at and not is_inside(self.marks, at, outer)
                if is_asked and not are_several_ways(around):
                    first = self.marks[outer].first
                    yield "inside %04d %04d %04d %04d" % (*mark.first, *first)

    def is_few(self, told):
        """Whether the marks and these edges have few enough edges for all loops to be looked at one
        in the other."""
        return len(self.edges()) + len(told) <= EDGES

    def rounds(self, inner, edges):
        """How many of some edges there are inside whose loop that of another one stands."""
        return sum(self.is_nested(outer, inner) for outer in edges)

    def in_order(self, told):
        """The edges of loops, those first that stand inside fewer of them."""
        return sorted(told, key=lambda edge: self.rounds(edge, told)) if self.is_few(told) else told

    def is_shared(self, ways, told):
        """Whether these edges, which go back to one location, share a mark: the loop of some edge
        stands inside those of two of them."""
        edges = [*filter(self.is_there, self.edges()), *told]
        return any(self.rounds(inner, ways) > 1 for inner in edges)

    def pasted(self, told):
        """The edges of each mark that is lacking, where these edges were told for the loops."""
        if not self.is_few(told):
            return [[edge] for edge in told]
        shared, tables = set(), []
        for edge in told:
            ways = [other for other in told if other[1] == edge[1]]
            if edge[1] not in shared:
                is_shared = self.is_shared(ways, told)
                shared |= {edge[1]} if is_shared else set()
                tables.append(ways if is_shared else [edge])
        return tables

    def insides(self, tables):
        """For each mark that is lacking, by its edges, the lines that say inside which mark it
        stands: the last one before it inside whose loop its own stands."""
        marks = self.marks + [Mark(edges, None, None, None) for edges in tables]
        for place, edges in enumerate(tables, len(self.marks)):
            around = [self.around(edges, mark) for mark in marks]
            numbers = [number for number, ones in enumerate(around[:place], 1) if ones]
            if are_several_ways(around):
                yield [SEVERAL]
            else:
                yield ["inside = %d%s" % (numbers[-1], RUN)] if numbers else []

    def lacking_marks(self, told):
        """The marks that are lacking, as TOML."""
        tables = self.pasted(told)
        marks = self.marks + [Mark(edges, None, None, None) for edges in tables]
        yield from [LONG] if tables and not are_short(marks, self.calls) else []
        insides = self.insides(tables) if self.is_few(told) else [[]] * len(tables)
        for edges, inside in zip(tables, insides):
            yield from ["[[mark]]", "most ="]
            if len(edges) == 1:
                yield from ["from = %d" % edges[0][0], "to = %d" % edges[0][1]]
            else:
                yield "edges = [%s]" % ", ".join("[%d, %d]" % edge for edge in edges)
            yield from inside

    def lines(self):
        """All that comes before the loops."""
        unfit = [line for place in self.order for line in self.unfit(place)]
        altering = [line for place in self.order for line in self.altering(place)]
        return unfit + altering + self.too_large()

    def lacking(self, told):
        """The notes that are lacking, as TOML, where these edges were told for the loops."""
        yield from self.lacking_marks(told)
        writers = {}
        for place in self.order:
            for line in self.altering(place):
                writers.setdefault(int(line.split(" ")[2]), []).append(place)
        for word in writers:
            yield from ["[[list]]", "location = %d" % word, self.pattern(word, writers[word])]

    def pattern(self, word, writers):
        """A word's own instruction, without what a writer changes: a 22 without a list the data
        address, such a 23 the address of the next instruction, any other all of it."""
        changed = {22: {"d"}, 23: {"i"}}
        free = set()
        for place in writers:
            op = self.words[place][0] if place in self.words and place not in self.lists else None
            free |= changed.get(op, {"op", "d", "i"})
        if word not in self.words:
            return "pattern = [{ op = , d_from = , d_to = , i = }]"
        own = dict(zip(["op", "d", "i"], self.words[word]))
        op, d, i = ("" if part in free else own[part] for part in ["op", "d", "i"])
        gap = "" if "i" in free else " "
        text = "pattern = [{ op = %s, d_from = %s, d_to = %s, i = %s%s}]" % (op, d, d, i, gap)
        return text + " # loaded: %s" % self.loaded[word]

    def free_edges(self):
        """The edges without a mark, in order."""
        edges = [(place, onto) for place in self.order for onto in self.targets[place]]
        return [edge for edge in edges if place_on(self.marks, edge) is None]

    def free_links(self):
        return [link for link in self.all_links() if place_on(self.marks, edge_of(link)) is None]


def are_several_ways(around):
    """Whether edges of two different marks go back to one location, of those that are listed of
    each mark."""
    heads = [head for edges in around for head in {onto for _, onto in edges}]
    return len(heads) > len(set(heads))


def parts_of(word):
    """Operation, data address and next address of a word."""
    number = int(word[1:])
    return number // 10**8, number // 10**4 % 10**4, number % 10**4


def edge_of(link):
    """The edge of a link's locations."""
    return link[0][0], link[1][0]


def writes(op, d):
    """The drum words that an instruction writes."""
    if d >= 2000:
        return []
    band = d // 50 * 50
    return [d] if 20 <= op <= 24 else range(band + 1, band + 11) if op == 70 else []


def names(op, d):
    """The drum words that an instruction names as data: those that 71 punches, those that 70 reads
    a card into, and D for each other operation that has to have it on the drum or beside it."""
    if op in (70, 71):
        first = d // 50 * 50 + {70: 1, 71: 27}[op]
        return range(first, first + 10) if d < 2000 else []
    return [d] if op in DATA and d < 2000 else []


def reached(edges, place):
    """What edges lead to from one place, or links from one node."""
    nexts = {}
    for source, target in edges:
        nexts.setdefault(source, []).append(target)
    found, order = {place}, [place]
    for one in order:
        new = [onto for onto in dict.fromkeys(nexts.get(one, [])) if onto not in found]
        found.update(new)
        order += new
    return found


def are_closing(told, flow):
    """Whether these are edges in order, without which no links go round, and each of which is
    needed for that. Where notes have calls, those that stand inside as many loops may stand in any
    order."""
    edges = [edge for edge in flow.free_edges() if edge in set(told)]
    is_in_order = told == flow.in_order(told if flow.calls else edges)
    are_those = is_in_order and sorted(told) == sorted(edges)
    links, left, closing = flow.free_links(), [], {edge: [] for edge in told}
    for link in links:
        closing.get(edge_of(link), left).append(link)
    are_needed = all(go_round(left + ones, ones) for ones in closing.values())
    return are_those and are_needed and not go_round(left, left)


def go_round(links, ones):
    """Whether links lead round with one of these among them."""
    return any(source in reached(links, target) for source, target in ones)


def is_check(text, files):
    """Whether a text is what a check of a deck with its notes tells."""
    flow = Flow(files)
    loops = re.findall("^loop ([0-9]{4}) ([0-9]{4})$", text, re.M)
    told = [tuple(map(int, edge)) for edge in loops]
    lines = flow.lines() + ["loop %04d %04d" % edge for edge in told]
    lines += [*flow.unused(), *flow.idle(), *flow.unsaid(), *flow.lacking(told)]
    is_one = text == "".join(line + "\n" for line in lines)
    return is_one and are_closing(told, flow)


def is_loose_end(line):
    return line.startswith(("unused ", "idle ", "inside "))


def is_first_of(line, told):
    """Whether what a fault line of the analysis tells is the first that a check tells; of a round
    that no mark bounds a check tells an edge of its own choice."""
    words = line.rstrip("\n").split(" ", 2)[2]
    first = told.splitlines()[0]
    return first.startswith("loop ") if words.startswith("unbounded ") else first == words
