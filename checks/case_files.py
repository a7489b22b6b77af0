"""The cases of a file of cases/, whose README.md says how a case is written. checks/cases runs
them."""

import os

TOP = os.path.dirname(os.path.dirname(os.path.abspath(__file__)))
# What begins each line of a file that a case writes.
INDENT = "  "
# The notes that allow the least.
NOTES = 'programmed = "stop"\nload_cards = "none"\n'
# The files that every case has.
GIVEN = {
    "deck": "examples/first/deck",
    "times": "examples/times.toml",
    "notes": "examples/first/notes.toml",
    "inputs": "examples/first/inputs",
}
JOINTS = ["", "%TIMES\n", "%NOTES\n"]


class Meaningless(Exception):
    """A line means nothing where it stands."""


class Stream:
    """What is to go out on one output: a text, or parts that stand somewhere in it."""

    def __init__(self):
        self.text, self.parts = "", []

    def add(self, line):
        if line.startswith("~ "):
            self.parts.append(line[2:])
        else:
            self.text += line.removeprefix(" ") + "\n"

    def fits(self, came):
        if self.parts:
            return all(part.encode() in came for part in self.parts)
        return came == self.text.encode()

    def __str__(self):
        return self.text + "".join(".. %s ..\n" % part for part in self.parts)


class Command:
    """A command's line, with what is to come of it."""

    def __init__(self, line):
        self.line, self.out, self.err, self.status = line, Stream(), Stream(), 0

    def fits(self, ran):
        return self.status == ran.status and self.out.fits(ran.out) and self.err.fits(ran.err)

    def __str__(self):
        return told(self.out, self.err, self.status)


def told(out, err, status):
    """Both outputs and a status, to be read."""
    return "standard output:\n%sstandard error:\n%sstatus: %s\n" % (out, err, status)


class File:
    """A file that a case writes, behind other pieces of it."""

    def __init__(self, name, before):
        self.name, self.before, self.bytes = name, before, bytearray()


class Case:
    """Files and commands under one title. A command has the files that stand before it."""

    def __init__(self, title):
        self.title, self.pieces = title, []

    def last(self, kind):
        if not self.pieces or not isinstance(self.pieces[-1], kind):
            raise Meaningless
        return self.pieces[-1]


def text_of(name, pieces):
    """What a file holds behind these pieces: of two of one name the later stands."""
    for piece in reversed(pieces):
        if isinstance(piece, File) and piece.name == name:
            return bytes(piece.bytes)
    path = GIVEN.get(name, name if name.startswith("examples/") else None)
    if path is None or not os.path.isfile(os.path.join(TOP, path)):
        return None
    with open(os.path.join(TOP, path), "rb") as file:
        return file.read()


def joined(names, pieces):
    """The joined form of a deck, a timing table and notes; None where one isn't there."""
    whole = b""
    for joint, name in zip(JOINTS, names):
        text = text_of(name, pieces)
        if text is None:
            return None
        if whole and not whole.endswith(b"\n"):
            whole += b"\n"
        whole += joint.encode() + text
    return whole


def with_entry(said):
    """The timing table, with an entry in place of that of its operation, where there is one."""
    op, _, entry = said.partition(" ")
    lines = text_of("examples/times.toml", []).decode().splitlines()
    shown = [op + " = " + entry if op and line.startswith(op) else line for line in lines]
    return "".join(line + "\n" for line in shown)


def mark(words):
    source, target, most, *inside = words
    lines = ["[[mark]]", "from = " + source, "to = " + target, "most = " + most]
    if inside:
        word, number = inside
        lines.append("%s = %s" % (word, number))
    return "\n".join(lines) + "\n"


def one_list(words):
    location, op, least, most, i = words
    values = location, op, least, most, i
    pattern = "{ op = %s, d_from = %s, d_to = %s, i = %s }" % values[1:]
    return "[[list]]\nlocation = %s\npattern = [%s]\n" % (location, pattern)


def numbered(number, line):
    """A line with numbers in the place of `{0}`, which is this one, to `{9}`, nine more."""
    for more in range(10):
        line = line.replace("{%d}" % more, "%04d" % (number + more))
    return line


def each(said):
    least, most, line = said.split(" ", 2)
    return "".join(numbered(it, line) + "\n" for it in range(int(least), int(most) + 1))


def repeated(said):
    count, line = said.split(" ", 1)
    return int(count) * (line + "\n")


def one_line(said):
    """One line of parts, of which each may stand many times: `80*[|80*]`."""
    parts = [part.partition("*") for part in said.split("|")]
    return "".join(
        int(count) * part if star and count.isdecimal() else count + star + part
        for count, star, part in parts
    ) + "\n"


def add_short(file, word, said):
    """Puts what a short line stands for, by its word and what is said behind it, to a file."""
    if word == "pad":
        file.bytes += b"#" + b"*" * (int(said) - len(file.bytes) - 1)
    elif word == "byte":
        file.bytes.append(int(said))
    elif word == "cut":
        del file.bytes[-1:]
    elif word == "joined":
        whole = joined(said.split(), file.before)
        if whole is None:
            raise Meaningless
        file.bytes += whole
    else:
        file.bytes += TEXTS[word](said).encode()


# What short lines stand for that are text.
TEXTS = {
    "": lambda said: "\n",
    "E": with_entry,
    "N": lambda said: NOTES,
    "mark": lambda said: mark(said.split()),
    "list": lambda said: one_list(said.split()),
    "repeat": repeated,
    "each": each,
    "line": one_line,
}


def take(cases, line):
    """Takes the next line of a file of cases."""
    if line.startswith(INDENT):
        file, line = cases[-1].last(File), line.removeprefix(INDENT)
        if line.startswith("@"):
            word, _, said = line[1:].partition(" ")
            add_short(file, word, said)
        else:
            file.bytes += line.encode() + b"\n"
    elif line.startswith("= "):
        cases.append(Case(line[2:]))
    elif line.startswith("$"):
        cases[-1].pieces.append(Command(line[1:]))
    elif line.startswith(">"):
        cases[-1].last(Command).out.add(line[1:])
    elif line.startswith("!"):
        cases[-1].last(Command).err.add(line[1:])
    elif line.startswith("status "):
        cases[-1].last(Command).status = int(line[7:])
    elif line.endswith(":"):
        pieces = cases[-1].pieces
        pieces.append(File(line[:-1], list(pieces)))
    else:
        raise Meaningless


def cases_of(path):
    """The cases of a file. A line that means nothing ends the script."""
    cases = []
    with open(path, encoding="utf-8", newline="\n") as file:
        for number, line in enumerate(file.read().split("\n"), 1):
            if not line or line.startswith("#"):
                continue
            try:
                take(cases, line)
            except (Meaningless, ValueError, LookupError):
                raise SystemExit("%s:%d: means nothing where it stands" % (path, number))
    return cases
