"""The linear programs that a ceiling is compared with, over the graph of a deck's hops, as `glpsol`
reads them.

Flow goes from the start through the hops, and ends somewhere. What is left to say is how often each
mark's edges are passed, together:

- `of the whole run`: as often as any walk can pass them at all, whatever it passes beside. The
  optimum is what prices alone come to, with the same price for each of these passes.
- `by entries`, as timing analysis mostly has it: in its region, a mark is passed at most `most`
  times for each time that the region is come into, or that a mark is passed there of which it says
  that it stands inside. And over the whole run at most `most` times, and as often again for each
  pass of such a mark.

A region is where a pass of the mark leads, and all from where its edge can be come to again without
a pass of a mark that it stands inside of.
"""

import os
import re
import shutil
import subprocess
import sys

TOP = os.path.dirname(os.path.dirname(os.path.abspath(__file__)))
sys.path.insert(0, os.path.join(TOP, "checks"))

import model
from marks import is_inside, place_on

FIRST_WAIT = 49
SOLVER = shutil.which("glpsol")


class Graph:
    """The hops of a deck. A node is a location and the angle at which its instruction is found.

    `stops` has for each node the most word times until a hop ends there that passes no mark, and
    `marked` those until one ends that passes a mark, by node and mark; None where there is none.
    `edges` has those until the next instruction is found, by both nodes and the mark. Hops that a
    mark of most 0 bars are left out."""

    def __init__(self, walks):
        self.walks, self.marks = walks, walks.marks
        self.start = walks.start, walks.start % 50
        self.stops, self.marked, self.edges, self.targets = {}, {}, {}, {}
        todo = [self.start]
        while todo:
            node = todo.pop()
            if node not in self.stops:
                self.take(node)
                todo += self.targets[node]

    def take(self, node):
        place, angle = node
        self.stops[node], self.targets[node] = None, []
        for op, d, i in self.walks.instructions(place):
            ready = angle + self.walks.times[op]["before"]
            for way in self.walks.ways(op, d, i):
                end = ready if way == "early" else max(self.walks.ends(op, d, ready))
                self.take_hop(node, way, end)

    def take_hop(self, node, way, end):
        place, angle = node
        goes_on = way not in ("early", "late")
        mark = place_on(self.marks, (place, way)) if goes_on else None
        if mark is None:
            self.stops[node] = max(end - angle, self.stops[node] or 0)
        elif self.marks[mark].most == 0:
            return
        else:
            self.marked[node, mark] = max(end - angle, self.marked.get((node, mark), 0))
        if goes_on:
            found = model.found(way, end)
            edge = node, (way, found % 50), mark
            self.edges[edge] = max(found - angle, self.edges.get(edge, 0))
            self.targets[node].append(edge[1])

    def outer(self, mark):
        """The marks that a mark stands inside of."""
        return [one for one in range(mark) if is_inside(self.marks, mark, one)]

    def region(self, mark):
        """The nodes of a mark's region."""
        heads = {onto for _, onto, on in self.edges if on == mark}
        tails = {node for node, _, on in self.edges if on == mark}
        barred = {mark, *self.outer(mark)}
        hops = [(node, onto) for node, onto, on in self.edges if on not in barred]
        return reached(heads, hops) & reached(tails, [(onto, node) for node, onto in hops])

    def passes(self, mark):
        """How often a mark can be passed at all."""
        passes, outer = self.marks[mark].most, self.marks[mark].inside
        while outer is not None:
            passes *= self.marks[outer].most + 1
            outer = self.marks[outer].inside
        return passes


def reached(begun, hops):
    """All nodes that hops lead to from some nodes, and these."""
    onto, seen, todo = {}, set(begun), list(begun)
    for one, other in hops:
        onto.setdefault(one, []).append(other)
    while todo:
        for node in onto.get(todo.pop(), []):
            if node not in seen:
                seen.add(node)
                todo.append(node)
    return seen


class Program:
    """A linear program, as CPLEX writes one, of columns that are 0 or more. Each sum is a list of
    columns with what they are taken times."""

    def __init__(self, graph):
        self.graph = graph
        self.nodes = {node: at for at, node in enumerate(graph.stops)}
        self.worth, self.rows = [], []
        self.flow = {node: [] for node in graph.stops}
        for at, (edge, time) in enumerate(graph.edges.items()):
            self.put("f%d" % at, time, edge[0], edge[1])

    def put(self, column, worth, node, onto=None):
        """A column of what goes from a node, to another one or to the end of the walk."""
        self.worth.append((worth, column))
        if node != onto:
            self.flow[node].append((-1, column))
            if onto is not None:
                self.flow[onto].append((1, column))

    def passed(self, holds):
        """The columns of the hops between two nodes for which this holds."""
        return ["f%d" % at for at, edge in enumerate(self.graph.edges) if holds(*edge)]

    def text(self):
        rows = [(sum, "=", -(node == self.graph.start)) for node, sum in self.flow.items()]
        lines = ["Maximize", " time: " + written(self.worth), "Subject To"]
        for at, (sum, sign, number) in enumerate(rows + self.rows):
            if sum:
                lines.append(" r%d: %s %s %d" % (at, written(sum), sign, number))
        return "\n".join(lines + ["End", ""])


def written(sum):
    return "\n ".join("%s %d %s" % ("-" if by < 0 else "+", abs(by), of) for by, of in sum)


def of_whole_run(graph):
    """A walk that ends where a mark's edge leads, or at the start, pays for the search there, as
    the prices do."""
    program = Program(graph)
    heads = {onto for _, onto, mark in graph.edges if mark is not None} | {graph.start}
    for node, at in program.nodes.items():
        end = graph.stops[node]
        worth = max(0 if end is None else FIRST_WAIT + end, FIRST_WAIT if node in heads else 0)
        program.put("e%d" % at, worth, node)
    for mark in range(len(graph.marks)):
        columns = program.passed(lambda node, onto, on: on == mark)
        program.rows.append(([(1, one) for one in columns], "<=", graph.passes(mark)))
    return program


def by_entries(graph):
    """A walk may end with any hop, one that passes a mark too. The first search is added to what
    this comes to."""
    program = Program(graph)
    for node, at in program.nodes.items():
        if graph.stops[node] is not None:
            program.put("e%d" % at, graph.stops[node], node)
    for at, ((node, mark), end) in enumerate(graph.marked.items()):
        program.put("g%d" % at, end, node)

    def last(mark, within):
        """The columns of the walks that end with a pass of a mark, from these nodes."""
        return [
            "g%d" % at
            for at, (node, on) in enumerate(graph.marked)
            if on == mark and (within is None or node in within)
        ]

    def all_passes(mark):
        return program.passed(lambda node, onto, on: on == mark) + last(mark, None)

    for mark in range(len(graph.marks)):
        most, outer, region = graph.marks[mark].most, graph.outer(mark), graph.region(mark)
        inside = program.passed(lambda node, onto, on: on == mark and node in region)
        entered = program.passed(
            lambda node, onto, on: onto in region
            and on != mark
            and (node not in region or on in outer)
        )
        begun = program.passed(
            lambda node, onto, on: on == mark and node not in region and onto in region
        )
        sum = [(1, one) for one in inside + last(mark, region)]
        sum += [(-most, one) for one in entered] + [(1 - most, one) for one in begun]
        program.rows.append((sum, "<=", most * (graph.start in region)))
        sum = [(1, one) for one in all_passes(mark)]
        sum += [(-most, one) for other in outer for one in all_passes(other)]
        program.rows.append((sum, "<=", most))
    return program


def optimum(program, path):
    """The optimum, through files whose names begin so."""
    with open(path + ".lp", "w") as file:
        file.write(program.text())
    words = [SOLVER, "--lp", path + ".lp", "-w", path + ".solved"]
    subprocess.run(words, check=True, capture_output=True)
    with open(path + ".solved") as file:
        found = re.search(r"^s bas \d+ \d+ f f (\S+)$", file.read(), re.M)
    return float(found[1])


def optima(walks, path):
    """The optimum of the whole run, and that by entries; both None without `glpsol`."""
    if SOLVER is None:
        return None, None
    graph = Graph(walks)
    whole = optimum(of_whole_run(graph), path)
    # A walk that can't take a hop takes no time.
    has_hops = graph.stops[graph.start] is not None or graph.targets[graph.start]
    return whole, FIRST_WAIT + optimum(by_entries(graph), path) if has_hops else 0.0
