"""The results, one line for each mutant that was tried: crate, function, mutant, verdict, and the state of the crate.

A state is a hash of the crate's code, definitions and proofs without the lines that name other crates, so that it stays
when a crate is renamed. A crate that is renamed keeps its results: its name is changed in the first column.
"""

import hashlib
import os
from dataclasses import dataclass

HEADER = "# crate\tfunction\tmutant\tverdict\tstate"
NAMING = ("use ", "ghost use ", "pub use ")


@dataclass
class Result:
    crate: str
    function: str
    mutant: str
    verdict: str
    state: str

    def key(self):
        return self.crate, self.function, self.mutant

    def line(self):
        return "\t".join((*self.key(), self.verdict, self.state))


class Results:
    """The lines of a file, which is written anew after each verdict."""

    def __init__(self, path):
        self.path = path
        self.rows = {}
        if os.path.isfile(path):
            with open(path, encoding="utf-8") as file:
                for line in file.read().splitlines():
                    if line and not line.startswith("#"):
                        row = Result(*line.split("\t"))
                        self.rows[row.key()] = row

    def verdict(self, key):
        return self.rows[key].verdict if key in self.rows else None

    def add(self, row):
        self.rows[row.key()] = row
        self.write()

    def keep(self, keys):
        """Keeps the results of these mutants alone, and says how many went."""
        gone = [key for key in self.rows if key not in keys]
        for key in gone:
            del self.rows[key]
        self.write()
        return len(gone)

    def write(self):
        text = "\n".join([HEADER] + [self.rows[key].line() for key in sorted(self.rows)])
        with open(self.path + ".new", "w", encoding="utf-8") as file:
            file.write(text + "\n")
        os.replace(self.path + ".new", self.path)


def files_below(folder):
    return sorted(os.path.join(place, name) for place, _, names in os.walk(folder) for name in names)


def state_of(folder):
    """The state of the crate that stands in a folder."""
    sum_of = hashlib.sha256()
    for part in ("src", "specs", "proofs"):
        for path in files_below(os.path.join(folder, part)):
            sum_of.update(os.path.relpath(path, folder).encode() + b"\n")
            with open(path, encoding="utf-8") as file:
                for line in file:
                    if not line.startswith(NAMING):
                        sum_of.update(line.encode())
    return sum_of.hexdigest()[:12]
