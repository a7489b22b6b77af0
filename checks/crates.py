"""The crates of crates.txt, and what the toolchain's checker is told of each."""

import os
import subprocess


class Crates:
    """What each crate of a checkout, or of a copy of one, uses."""

    def __init__(self, top):
        self.top = top
        with open(os.path.join(top, "crates.txt")) as file:
            lines = [line.split(":") for line in file if line[0].isalpha()]
        self.uses = {name: used.split() for name, used in lines}

    def own(self, crate):
        """The libraries of the repository that a crate names."""
        return [used for used in self.uses[crate] if used in self.uses]

    def of_kit(self, crate):
        """The libraries of the toolchain that a crate names, and the standard one."""
        return ["std", *(used for used in self.uses[crate] if used not in self.uses)]

    def below(self, crate):
        """The crates of the repository that a crate stands on, lowest first."""
        found = []
        for used in self.own(crate):
            found += [it for it in [*self.below(used), used] if it not in found]
        return found

    def folder(self, crate):
        return os.path.join(self.top, "crates", crate)

    def root(self, crate):
        """The root file of a crate, in its folder."""
        is_program = os.path.isfile(os.path.join(self.folder(crate), "src/main.rt"))
        return "src/main.rt" if is_program else "src/lib.rt"

    def files(self, crate, parts=("src", "specs", "proofs")):
        """The files of a crate that the checker reads, in order; not those that editors leave."""
        found = []
        for part in parts:
            for folder, _, names in os.walk(os.path.join(self.folder(crate), part)):
                found += [os.path.join(folder, name) for name in names if is_source(name)]
        return sorted(found)


def is_source(name):
    """Whether a file of this name is one that somebody wrote: editors begin theirs with `.` or
    `#`, or give them other ends."""
    return name.endswith((".rt", ".antt")) and not name.startswith((".", "#"))


def kit():
    """The folder of the toolchain."""
    return os.path.dirname(subprocess.check_output(["rt", "doc"], text=True).strip())
