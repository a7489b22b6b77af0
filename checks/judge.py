"""What is to hold of every run of the program, whatever its words and texts say.
checks/damaged-inputs holds to it the cases of checks/damage.py."""

from collections import namedtuple

from calls import calls_of
from ceilings import bracket_of, ceiling_of, least_ceiling, may_be_too_large
from damage import CHECKS, FILES, LEAST, PICTURES, files_of_joined, joined
from faults import Fault, fault_of, has_its_form, is_accepted, names_what_is_there
from findings import Flow, is_check, is_first_of, is_loose_end
from marks import are_short, marks_of, short_text
from note_faults import notes_faults
from results import (
    bound_of,
    kept_of,
    left_of,
    pictured_bound,
    pictured_verdict,
    report_of_walk,
    reported_bound,
    waited_bound,
    waits_of_walk,
    walked_bound,
)
from rounds import passes_of, rounded, waited_in_rounds, waits_in_rounds
from tables import graphed, outlined, sized, tabled
from text_faults import listed_faults
from toml_text import document_of
from traces import traced_verdict

# What a run gave: its status and both outputs.
Ran = namedtuple("Ran", "status out err")
# What is told: its kind, a bound or what stands for it, the word times used, a fault, and of a run
# whether `bound` or `ceiling` limits it.
Told = namedtuple("Told", "kind bound used fault by", defaults=[None, None, None, None])

# The commands that tell of the worst walk, line by line.
WALKED = ["walk", "report", "waits"]
# Those that read long notes, and of these the ones that go by the bound all the same.
OF_LONG = [*CHECKS, "graph", "outline", "ceiling", "walk", "waits", "draw", "trace"]
# Of these, past the bound, by the walk beside a ceiling.
PAST_BOUND = ["walk", "waits", "draw"]
# Those that tell of any deck, whatever an analysis refuses it for.
OF_ANY = [*CHECKS, "graph", "outline"]
# Those that look at inputs.
OF_INPUTS = ["replay", "trace", CHECKS[1], PICTURES[1]]

# From so many word times on no trace goes by a ceiling.
LONGEST = 2**50

DONE, REFUSED, USAGE, FAILED, LEFT = range(5)


class Broken(Exception):
    """The property that a run breaks."""


def hold(property, is_kept):
    if not is_kept:
        raise Broken(property)


# What a run told.


def verdict_of(line, status):
    kept, left = kept_of(line), left_of(line)
    if kept and status == DONE:
        used, most, by = kept
        return Told("kept", most, used, by=by)
    return Told("left", None, left[1]) if left and status == LEFT else None


def status_of_check(text):
    """A word that nothing comes to may be meant so, and a mark that doesn't say that it stands
    inside another one."""
    may_be_meant = all(line.startswith(("idle ", "inside ")) for line in text.splitlines())
    return DONE if may_be_meant else REFUSED


def faults_of_notes(asked):
    """The lines of all faults of the notes that were asked about; None where they are no
    document."""
    command, files = asked
    return notes_faults(files["notes"], command in OF_LONG)


def is_by_bound(text):
    """Whether the last line of a result is a bound."""
    return text.endswith("\n") and text.rsplit("\n", 2)[-2].startswith("bound ")


def walked(text, files):
    """What a walk takes, where its lines are in order, by the bound or in rounds."""
    return walked_bound(text, files) if is_by_bound(text) else rounded(text, files)


def waited(text):
    """The same of where its word times go."""
    return waited_bound(text) if is_by_bound(text) else waited_in_rounds(text)


def result_of(asked, status, text):
    """What a result tells that was asked for; None where it is none."""
    command, files = asked
    if faults_of_notes(asked) != []:
        return None
    if command in CHECKS:
        is_told = status == status_of_check(text) and is_check(text, files)
        return Told("check") if is_told else None
    if command == "replay":
        told = verdict_of(text, status)
        return told if told and told.by != "ceiling" else None
    if command == "trace":
        line = traced_verdict(text, files)
        return line and verdict_of(line, status)
    if command == PICTURES[1]:
        line = pictured_verdict(text)
        return line and verdict_of(line, status)
    kinds = {
        "report": ("report", lambda: reported_bound(text, files)),
        "walk": ("walk", lambda: walked(text, files)),
        "waits": ("waits", lambda: waited(text)),
        "table": ("table", lambda: tabled(text, files)),
        "size": ("size", lambda: sized(text, files)),
        "graph": ("graph", lambda: graphed(text, files)),
        "outline": ("outline", lambda: outlined(text, files)),
        "draw": ("picture", lambda: pictured_bound(text)),
        "ceiling": ("ceiling", lambda: ceiling_of(text, files)),
    }
    kind, read = kinds.get(command, ("bound", lambda: bound_of(text)))
    bound = read()
    return Told(kind, bound) if bound is not None and status == DONE else None


def is_list(asked, ran):
    """Whether a run told the faults of texts, each with its file's name in front."""
    is_refused = asked and asked[0] in CHECKS and ran.status == REFUSED and ran.out == b""
    return is_refused and not ran.err.startswith(b"fault ")


def told_of(asked, ran):
    """What a run told that was asked for this, or for no command over files that there are; None
    where it is nothing that may be told then."""
    try:
        out, err = ran.out.decode(), ran.err.decode()
    except UnicodeDecodeError:
        return None
    is_checked = asked and asked[0] in CHECKS and ran.status == REFUSED and out
    if ran.status in (DONE, LEFT) or is_checked:
        if asked:
            return result_of(asked, ran.status, out)
        return Told("help") if ran.status == DONE else None
    if ran.status == USAGE:
        return None if asked else Told("usage")
    fault = fault_of(err, ran.status)
    if is_list(asked, ran):
        fault = (listed_faults(err, asked[1], asked[0] == CHECKS[1]) or [None])[0]
    kind = "unopened" if fault and fault.ending == "open" else "refused"
    return fault and Told(kind, fault=fault)


# That the commands agree with one another.


def ends_alike(long, bound):
    """Whether a longer result ends in the line of the bound, or both have one fault."""
    is_one = (long.status, long.err) == (bound.status, bound.err)
    return is_one and long.out.endswith(bound.out)


def is_said_of_joined(files, bound, run):
    """Whether the joined form gives the same, where its parts can be told apart."""
    text = joined(files)
    return files_of_joined(text, files["inputs"]) != files or run([], files, text) == bound


def are_counted(walk, report, waits, files):
    """Whether a report and the waits are what their walk counts up to."""
    if walk.status != DONE:
        return True
    lines = walk.out.decode()
    is_report = report_of_walk(lines, files) == report.out.decode()
    return is_report and waits_of_walk(lines, files) == waits.out.decode()


def is_within(told, bound, files):
    """Whether a verdict goes with what `bound` gives: no time in it is above the bound, and without
    a bound it has the same fault, or one of the inputs, which are looked at before."""
    other = told_of(("bound", files), bound)
    if other is None:
        return False
    if told.fault:
        is_of_inputs = told.fault.about == "inputs"
        if other.fault:
            return told.fault == other.fault or is_of_inputs and other.fault.about == "analysis"
        return is_of_inputs
    return other.fault is None and told.used <= other.bound and told.bound in (None, other.bound)


def words_of(command):
    """The words of a command over the files."""
    for kinds in (CHECKS, PICTURES):
        if command in kinds:
            return [kinds[0]] + FILES[: 3 + kinds.index(command)]
    return [command] + FILES[: 4 if command in ("replay", "trace") else 3]


def is_no_lower(told, bound, files):
    """Whether a ceiling goes with what `bound` gives: it isn't below the bound, and has the same
    fault; where a bound has too many counts there is a ceiling, or a round without a mark, or the
    deck is large enough for none."""
    other = told_of(("bound", files), bound)
    if other is None:
        return False
    if other.fault and other.fault.ending == "product":
        is_free = told.fault is None or told.fault.ending == "cycle"
        return is_free or told.fault == other.fault and may_be_too_large(files)
    return told.fault == other.fault and (told.fault is not None or other.bound <= told.bound)


def is_said_first(ran, told, limit, other):
    """Whether a check goes with what `bound` gives, or under long notes `ceiling`, which ran so and
    told this: it tells of loose ends at most where there is a limit (or a ceiling past all
    numbers), else its first line is that of the analysis's fault; a fault of a text is the same."""
    if other is None or told.fault:
        return other is not None and told.fault == other.fault
    if all(map(is_loose_end, ran.out.decode().splitlines())):
        return other.fault is None or other.fault.ending == "product"
    is_refused = other.fault is not None and other.fault.about == "analysis"
    return is_refused and is_first_of(limit.err.decode(), ran.out.decode())


def is_within_ceiling(told, other, past):
    """Whether a trace without a bound goes with what `ceiling` told: it tells that, no time in it
    is above it, and without one it has the same fault, or one of the inputs; a ceiling that is too
    long is no better than none, and has a fault of its own."""
    if other is None:
        return False
    if told.fault:
        is_too_long = other.fault is None and other.bound >= LONGEST
        fault = past if is_too_long else other.fault
        return told.fault.about == "inputs" or told.fault == fault
    is_told = told.bound in (None, other.bound) and told.by in (None, "ceiling")
    return other.fault is None and told.used <= other.bound < LONGEST and is_told


def are_read_alike(text):
    """Whether all commands come to the same with a text of notes: it is of short ones, or has the
    same first fault as short and as long ones."""
    short, long = (notes_faults(text, is_long) for is_long in (False, True))
    return short is None or short[:1] == long[:1]


def fault_before_notes(files, run):
    """The fault of a deck or of a timing table, if there is one."""
    plain = dict(files, notes=LEAST.encode())
    fault = told_of(("bound", plain), run(words_of("bound"), plain, b"")).fault
    return fault if fault and fault.about in ("deck", "times") else None


def is_as_of_short(asked, ran, told, run):
    """Whether a run over notes that say what short ones do gives what it does over these."""
    command, files = asked
    short = dict(files, notes=short_text(document_of(files["notes"])).encode())
    other = run(words_of(command), short, b"")
    is_one = (ran.status, ran.out) == (other.status, other.out)
    return is_one and told == told_of((command, short), other)


def goes_with_ceiling(asked, ran, told, run):
    """Whether a walk, its waits, or a picture of one, is that which stands beside the ceiling: it
    takes what is reached and passes each mark as often, and its waits are what its visits add up to;
    or both have one fault."""
    command, files = asked
    ceiling = run(words_of("ceiling"), files, b"")
    if ceiling.status != DONE:
        return told.fault is not None and (ran.status, ran.err) == (ceiling.status, ceiling.err)
    beside = bracket_of(ceiling.out.decode(), marks_of(document_of(files["notes"])))
    if told.fault is not None or told.bound != beside.reached:
        return False
    if command == "draw":
        return True
    totals = b"".join(ceiling.out.splitlines(keepends=True)[-2:])
    if not ran.out.endswith(totals):
        return False
    if command == "waits":
        walk = run(words_of("walk"), files, b"")
        waits = waits_in_rounds(walk.out.decode(), files)
        return walk.status == DONE and waits in (None, ran.out.decode())
    return passes_of(ran.out.decode(), files) in (None, beside.passes)


def agrees_of_long(asked, ran, told, run):
    """Whether a run over long notes without a fault agrees with what the other commands tell."""
    command, files = asked
    ceiling = ran if command == "ceiling" else run(words_of("ceiling"), files, b"")
    limit = told_of(("ceiling", files), ceiling)
    past = Fault("analysis", "product", str(Flow(files).product()))
    if limit is None:
        return False
    if limit.fault and limit.fault.ending == "product":
        if limit.fault != past or not may_be_too_large(files):
            return False
    if command in ("graph", "outline"):
        return told.fault is None
    if command in PAST_BOUND:
        return goes_with_ceiling(asked, ran, told, run)
    if command == "ceiling":
        check = run(words_of(CHECKS[0]), files, b"")
        checked = told_of((CHECKS[0], files), check)
        is_first = checked is not None and is_said_first(check, checked, ceiling, limit)
        return is_first and (told.fault is not None or least_ceiling(files) <= told.bound)
    if command == "trace":
        return is_within_ceiling(told, limit, past)
    if told.fault and told.fault.about == "inputs":
        trace = told_of(("trace", files), run(words_of("trace"), files, b""))
        return trace is not None and told.fault == trace.fault
    return is_said_first(ran, told, ceiling, limit)


def agrees_apart(asked, ran, told, run):
    """Whether a run agrees with what the other commands tell of the same files, the notes among
    which aren't read alike."""
    command, files = asked
    before = fault_before_notes(files, run)
    if before or faults_of_notes(asked):
        # Which one of the notes is told is held to the model.
        return told.fault is not None and told.fault == (before or told.fault)
    notes = document_of(files["notes"])
    if are_short(marks_of(notes), calls_of(notes)):
        return is_as_of_short(asked, ran, told, run)
    return agrees_of_long(asked, ran, told, run)


def agrees(asked, ran, told, run):
    """Whether a run agrees with what the other commands tell of the same files."""
    command, files = asked
    if command == PICTURES[1]:
        replay = run(words_of("replay"), files, b"")
        is_one = (ran.status, ran.err) == (replay.status, replay.err)
        return is_one and told == told_of(("replay", files), replay)
    if not are_read_alike(files["notes"]):
        return agrees_apart(asked, ran, told, run)
    other = lambda command: run(words_of(command), files, b"")
    bound = other("bound")
    if command == "joined":
        return ran == bound
    if command == "bound":
        return ends_alike(other("report"), ran) and is_said_of_joined(files, ran, run)
    past = told_of(("bound", files), bound)
    if command in PAST_BOUND and past.fault and past.fault.ending == "product":
        return goes_with_ceiling(asked, ran, told, run)
    if command in WALKED:
        if past.fault and past.fault.ending == "product":
            return ends_alike(ran, bound)
        all_three = [ran if name == command else other(name) for name in WALKED]
        is_one = all(ends_alike(one, bound) for one in all_three)
        return is_one and are_counted(*all_three, files)
    if command in CHECKS:
        if command == CHECKS[1] and told.fault:
            replay = told_of(("replay", files), other("replay"))
            return replay is not None and told.fault == replay.fault
        return is_said_first(ran, told, bound, told_of(("bound", files), bound))
    if command in ("table", "size"):
        return (ran.status, ran.err) == (bound.status, bound.err)
    if command in ("graph", "outline"):
        fault = told_of(("bound", files), bound).fault
        is_refused = fault is not None and fault.about != "analysis"
        return told.fault == fault if is_refused else told.fault is None
    if command == "ceiling":
        return is_no_lower(told, bound, files)
    if command == "draw":
        is_one = (ran.status, ran.err) == (bound.status, bound.err)
        return is_one and (told.fault is not None or bound.out == b"bound %d\n" % told.bound)
    trace, replay = (other("trace"), ran) if command == "replay" else (ran, other("replay"))
    traced, replayed = told_of(("trace", files), trace), told_of(("replay", files), replay)
    if traced is None or replayed is None or not is_within(replayed, bound, files):
        return False
    limit = told_of(("bound", files), bound).fault
    if limit and limit.ending == "product":
        return is_within_ceiling(traced, told_of(("ceiling", files), other("ceiling")), limit)
    return ends_alike(trace, replay) and traced == replayed


# The properties.


def reads_notes(asked, told):
    """Whether a run that comes to the notes tells their first fault, or goes past them where they
    have none."""
    fault, lines = told.fault, faults_of_notes(asked)
    if fault is None or is_accepted(fault, "notes"):
        return lines == []
    if fault.about != "notes" or fault.ending in ("open", "fail", "toml"):
        return True
    return bool(lines) and fault == fault_of(lines[0] + "\n", REFUSED)


def writes_where_its_status_says(ran, asked):
    """Whether a run wrote to the one output that goes with its status, and nothing to the other. A
    check that finds nothing writes nothing, and what it finds ends with the status of a fault."""
    if asked and asked[0] in CHECKS and ran.err == b"":
        return ran.status in (DONE, REFUSED) and (ran.out != b"" or ran.status == DONE)
    is_line = {DONE: ran.out, LEFT: ran.out, REFUSED: ran.err, FAILED: ran.err}
    written = is_line.get(ran.status, b"")
    if ran.status == USAGE:
        return ran.out == b"" and ran.err != b""
    return written.endswith(b"\n") and b"" in (ran.out, ran.err)


def tells_why_it_does_nothing(case, told):
    """Whether a run that wasn't asked for a command over files that there are told why: help where
    that was asked for; with no words, that a part is missing; else what is wrong with the words, or
    a fault before the file that there isn't."""
    if told.kind == "help":
        return "--help" in case.words or "-h" in case.words
    if told.kind == "usage":
        return case.words != []
    return told.fault is not None and (case.words == []) == (told.fault.about == "joined")


def judged(case, ran, run):
    """What a run told, where it keeps to every property. `run` takes words, the files' texts and
    the standard input."""
    asked = case.asked()
    hold("writes where its status says", writes_where_its_status_says(ran, asked))
    hold("says the same once more", run(case.words, case.files, case.text) == ran)
    # An escape in a document may spell a key with a line feed.
    has_escape = any(b"\\" in text for text in [case.text, *case.files.values()])
    is_fault = ran.status in (REFUSED, FAILED) and ran.out == b""
    is_one = is_list(asked, ran) or ran.err.count(b"\n") == 1
    hold("tells a fault in one line", not is_fault or has_escape or is_one)
    told = told_of(asked, ran)
    hold("says what may be said", told is not None)
    hold("wants for nothing", not told.fault or told.fault.ending != "fail")
    if not asked:
        hold("tells why it does nothing", tells_why_it_does_nothing(case, told))
        return told
    command, files = asked
    if told.fault:
        is_refused = told.fault.about == "analysis" and told.fault.ending != "toomany"
        hold("tells of any deck", not is_refused or command not in OF_ANY)
        hold("names what is there", names_what_is_there(told.fault, files))
    hold("reads notes", reads_notes(asked, told))
    for part in FILES[: 4 if command in OF_INPUTS else 3]:
        is_taken = is_accepted(told.fault, part)
        hold("takes what has its form", not is_taken or has_its_form(part, files[part]))
    hold("agrees with other commands", agrees(asked, ran, told, run))
    return told
