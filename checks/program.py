"""Finds the built program that the scripts of checks/ and bench/ run, and tells which it is: unless
one is named, the one in out/, else that in bin/, which is of the sources that stand here."""

import os
import subprocess
import sys

TOP = os.path.dirname(os.path.dirname(os.path.abspath(__file__)))
# Holds the program that was told of, so that the scripts that a script starts needn't tell again.
TOLD = "DRUM650_TOLD"


def sources_of(folder):
    """The sum of the sources that the program in a folder was built of, as its BUILT says; None where
    there is no such program."""
    program, built = (os.path.join(TOP, folder, name) for name in ("drum650", "BUILT"))
    if not (os.access(program, os.X_OK) and os.path.isfile(built)):
        return None
    with open(built) as file:
        return dict(line.split(" ", 1) for line in file.read().splitlines()).get("sources")


def program_of_sources():
    """The path of the program that is of the sources that stand here."""
    script = os.path.join(TOP, "checks", "sources")
    sources = subprocess.check_output([script], text=True).strip()
    for folder in ("out", "bin"):
        if sources_of(folder) == sources:
            return os.path.join(TOP, folder, "drum650")
    name = os.path.relpath(os.path.abspath(sys.argv[0]), TOP)
    sys.exit("%s: no program of these sources: run ./drum650 --build first, or name one" % name)


def built_program(given=None):
    """The absolute path of the program: of the one that is given, else of the one that is of the
    sources that stand here. Without one the script ends."""
    program = os.path.abspath(given) if given else program_of_sources()
    if not (os.path.isfile(program) and os.access(program, os.X_OK)):
        sys.exit("%s: no program at %s" % (os.path.basename(sys.argv[0]), program))
    if os.environ.get(TOLD) != program:
        os.environ[TOLD] = program
        is_own = os.path.commonpath([TOP, program]) == TOP
        print("program: %s" % (os.path.relpath(program, TOP) if is_own else program), file=sys.stderr)
    return program
