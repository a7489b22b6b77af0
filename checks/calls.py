"""The calls of long notes, as a document says them, and what is open at their exits: the rule of
crates/machine_steps/specs/Calls.antt, in plain words. The other scripts of checks/ take it from
here."""

from collections import namedtuple

# How many calls notes have at most, and how many nodes a flow graph.
MOST, MOST_NODES = 64, 65_536

# A call: a step along its edge opens its exit, with this way back. What is open is held for each
# call, in the order of the notes: the way back that is open at its exit, or None.
Call = namedtuple("Call", "edge exit back")


def calls_of(notes):
    """The calls of notes, which have no fault."""
    tables = notes.get("call", [])
    return [Call((one["from"], one["to"]), one["exit"], one["back"]) for one in tables]


def none_open(calls):
    return (None,) * len(calls)


def may_go(calls, ways, edge):
    """Whether a step may go along an edge, where this is open: from the exit of a call it goes to
    the way back that is open."""
    return all(way == edge[1] for call, way in zip(calls, ways) if call.exit == edge[0])


def open_after(calls, ways, edge):
    """What is open behind a step along an edge: it closes the exit that it stands at, and then
    opens those of its calls."""
    opened = {call.exit: call.back for call in calls if call.edge == edge}
    left = [None if call.exit == edge[0] else way for call, way in zip(calls, ways)]
    return tuple(opened.get(call.exit, way) for call, way in zip(calls, left))


def onward(calls, ways, edge):
    """What is open behind a step along an edge; None where the step may not go along it."""
    return open_after(calls, ways, edge) if may_go(calls, ways, edge) else None
