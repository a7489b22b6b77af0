"""Whether a trace is what docs/ANSWERS.md says, of a deck, a timing table, notes and inputs that
are accepted."""

import itertools

from model import Machine, traced
from results import entries_of, kept_of
from tables import TextWalks


def traced_verdict(text, files):
    """The line of the verdict, where all lines are those of the plain model, whatever limits the
    word times and how many there may be."""
    lines = text.splitlines(keepends=True)
    kept = kept_of(lines[-1]) if lines else None
    limit = "%s %d" % (kept[2], kept[1]) if kept else ""
    deck, inputs = (files[name].decode("latin-1") for name in ("deck", "inputs"))
    machine = Machine(deck, entries_of(files["times"]), inputs)
    told = (line + "\n" for line in traced(machine, TextWalks(files), limit))
    # The model's lines are taken one by one: it may go on where the program has left off.
    is_one = all(one == other for one, other in itertools.zip_longest(lines, told))
    return lines[-1] if lines and is_one else None
