"""Whether a table of worst times, and a flow graph and its outline in DOT, are what
docs/ANSWERS.md says, of a deck, a timing table and notes that are accepted."""

import math
import re

from findings import Flow, are_closing, writes
from latest import table
from marks import place_on
from model import MAY_STOP_LATE, Walks, is_location, suits
from results import NUMBER, PLACE, entries_of
from toml_text import document_of

ROW = re.compile("{0} angle {1} counts((?: {1})*) time {1}".format(PLACE, NUMBER))

SIZE = re.compile("words {0}\nhops {0}\ncounts {0}\nkeys {0}\n".format(NUMBER))

# The plain model works a table out where there is no more to go through than this.
FEW = 3000


class TextWalks(Walks):
    """The walks of a deck with its notes, of texts."""

    def __init__(self, files):
        self.files = files
        deck, notes = files["deck"].decode("latin-1"), document_of(files["notes"])
        super().__init__(deck, entries_of(files["times"]), notes)

    def is_small(self):
        """Whether the model can go through all walks."""
        return self.size() <= FEW and (not self.calls or len(Flow(self.files).nodes) <= FEW)

    def hops(self, op, d, i):
        """How many hops an instruction has: where both its ways lead to one location, two."""
        is_branch = op in (44, 45, 46, 47) or op >= 90 or op == 70 and self.has_load_cards
        is_double = is_branch and suits(op, d) and d == i and is_location(i)
        return len(self.ways(op, d, i)) + is_double


def tabled(text, files):
    """Whether each line of a table has its form, at the angle of its time, in order; and where the
    model can tell, whether they are its lines."""
    walks, rows = TextWalks(files), []
    for line in text.splitlines():
        matched = ROW.fullmatch(line)
        if not matched:
            return None
        counts = [int(count) for count in matched.group(3).split()]
        angle, time = int(matched.group(2)), int(matched.group(5))
        are_within = len(counts) == len(walks.marks) and all(
            count <= mark.most for count, mark in zip(counts, walks.marks)
        )
        if not are_within or angle != (walks.start + 1 + time) % 50:
            return None
        rows.append((int(matched.group(1)), counts[::-1]))
    in_order = rows == sorted(rows) and all(one != next for one, next in zip(rows, rows[1:]))
    is_whole = not walks.is_small() or text.splitlines() == table(walks)
    return True if rows and in_order and is_whole else None


def sized(text, files):
    """Whether a text says how large an analysis is: its words, their hops and the counts; and its
    keys where the model can tell."""
    walks, matched = TextWalks(files), SIZE.fullmatch(text)
    if not matched:
        return None
    words, hops, counts, keys = map(int, matched.groups())
    order = Flow(files).order
    all_hops = sum(walks.hops(*one) for place in order for one in walks.instructions(place))
    all_counts = math.prod(mark.most + 1 for mark in walks.marks)
    is_whole = not walks.is_small() or keys == len(table(walks))
    is_right = (words, counts) == (len(order), all_counts) and 1 <= keys <= words * counts
    return True if is_right and hops == all_hops and is_whole else None


class Drawn(Flow):
    """The flow graph of a deck under its notes, as it is drawn, where these edges were told for
    those that close loops."""

    def __init__(self, files, loops):
        super().__init__(files)
        self.loops = loops

    def may_stop(self, place):
        return any(self.stops(*one) for one in self.instructions(place) if one[0] in self.profile)

    def stops(self, op, d, i):
        """Whether an instruction of the profile may end a run."""
        if not suits(op, d) or op in MAY_STOP_LATE or op == 70 or op >= 90:
            return True
        if op == 1 and self.notes["programmed"] != "run":
            return True
        return not all(map(is_location, self.nexts(op, d, i)))

    def written(self, place):
        """The executed words that the instructions of a location write."""
        words = (word for op, d, _ in self.instructions(place) for word in self.writes(op, d))
        return [word for word in dict.fromkeys(words) if word in self.targets]

    def writes(self, op, d):
        return writes(op, d) if op in self.profile else []

    def label(self, place):
        """A location with the operations that are allowed there."""
        operations = dict.fromkeys(op for op, _, _ in self.instructions(place))
        return "".join(["%04d" % place] + [" %02d" % op for op in operations])

    def arrow(self, first, place, onto):
        """The arrow of an edge, from the first word of its box, with the mark on it, if there is
        one."""
        number = place_on(self.marks, (place, onto))
        text = "%04d -> %04d" % (first, onto)
        if number is not None:
            mark = self.marks[number]
            inside = "" if mark.inside is None else " inside %d" % (mark.inside + 1)
            told = number + 1, mark.most, inside, mark.ending()
            text += ' [label="mark %d most %d%s%s" penwidth=3]' % told
        return text + (" [color=red]" if (place, onto) in self.loops else "")

    def style(self, places):
        """How the box of these locations is drawn."""
        place = places[0]
        is_listed, is_unfit = place in self.lists, any(self.unfit(place))
        dashed = '"dashed,filled"' if is_unfit else "dashed"
        text = " style=%s" % (dashed if is_listed else "filled") if is_listed or is_unfit else ""
        text += " fillcolor=lightgrey" if is_unfit else ""
        return text + (" peripheries=2" if any(map(self.may_stop, places)) else "")

    def text(self):
        yield from ["digraph deck {", "node [shape=box]", "start [shape=point]"]
        yield "start -> %04d" % self.order[0]
        for box in self.boxes():
            first, last = box[0], box[-1]
            label = self.label(first)
            if len(box) > 1:
                label = "%04d .. %04d %d words" % (first, last, len(box))
            yield '%04d [label="%s"%s]' % (first, label, self.style(box))
            yield from (self.arrow(first, last, onto) for onto in self.targets[last])
            for word in dict.fromkeys(word for place in box for word in self.written(place)):
                yield "%04d -> %04d [style=dotted]" % (first, word)
        yield "}"

    def boxes(self):
        return [[place] for place in self.order]


class Outlined(Drawn):
    """The outline of a flow graph, in which words that go straight on from one to the next are one
    box."""

    def boxes(self):
        boxes = []
        for place in self.order:
            before = [box for box in boxes if self.goes_straight(box[-1], place)]
            if before and self.may_follow(place):
                before[0].append(place)
            else:
                boxes.append([place])
        return boxes

    def may_follow(self, place):
        """Whether a word may stand in a box behind another."""
        is_plain = place not in self.lists and not any(self.unfit(place))
        is_written = any(place in self.written(one) for one in self.order)
        comers = [one for one in self.order if place in self.targets[one]]
        return is_plain and not is_written and place != self.order[0] and len(comers) == 1

    def goes_straight(self, place, onto):
        """Whether a word goes on at another alone, by an edge that neither has nor lacks a mark."""
        is_bare = place_on(self.marks, (place, onto)) is None and (place, onto) not in self.loops
        is_alone = place not in self.lists and self.targets[place] == [onto]
        return is_alone and is_bare


def graphed(text, files, kind=Drawn):
    """Whether a text is the flow graph, or its outline."""
    ends = dict(re.findall('^([0-9]{4}) \\[label="[0-9]{4} [.][.] ([0-9]{4})', text, re.M))
    loops = re.findall("^([0-9]{4}) -> ([0-9]{4}) \\[color=red\\]$", text, re.M)
    told = [(int(ends.get(first, first)), int(onto)) for first, onto in loops]
    drawn = kind(files, set(told))
    is_one = text == "".join(line + "\n" for line in drawn.text())
    order = [edge for edge in drawn.free_edges() if edge in drawn.loops]
    return True if is_one and are_closing(drawn.in_order(order), drawn) else None


def outlined(text, files):
    """Whether a text is the outline of the flow graph."""
    return graphed(text, files, Outlined)
