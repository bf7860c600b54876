"""The mutants of a crate, and its must-fail edits."""

import os
from collections import Counter
from dataclasses import dataclass

from mutants.contracts import contract_edits
from mutants.edits import Edit, body_edits, table_edits
from mutants.source import Declarations, constants_of, declare, functions_of, tokens_of

WIDE = 100
EDITS = "must-fail"


@dataclass
class Mutant:
    """One mistake: the texts that it puts in place of files', by path. It is drawn among those of its group."""

    crate: str
    function: str
    group: str
    name: str
    texts: dict

    def key(self):
        return self.crate, self.function, self.name

    def __str__(self):
        return f"{self.crate} {self.function}: {self.name}"


def short(text):
    words = " ".join(text.split())
    return words if len(words) <= WIDE else words[:WIDE] + " .."


def described(text, edit: Edit):
    """The edit in words that stay where lines are added before it."""
    line = text.count("\n", 0, edit.start)
    whole = text.splitlines()[line]
    return f"{edit.kind}: `{short(text[edit.start:edit.end])}` -> `{short(edit.new)}` in `{short(whole)}`"


def mutated(text, edit):
    return text[:edit.start] + edit.new + text[edit.end:]


class Repository:
    """The crates of a repository and what their code declares."""

    def __init__(self, root):
        self.root = root
        lines = (line.split("#")[0] for line in self.read("crates.txt").splitlines())
        self.crates = [line.split(":")[0].split()[0] for line in lines if ":" in line]
        self.declared = Declarations()
        for crate in self.crates:
            for file in self.sources(crate):
                declare(self.declared, tokens_of(self.read(file)))

    def read(self, path):
        with open(os.path.join(self.root, path), encoding="utf-8") as file:
            return file.read()

    def folder(self, crate):
        return os.path.join(self.root, "crates", crate)

    def sources(self, crate):
        names = sorted(os.listdir(os.path.join(self.folder(crate), "src")))
        return [
            os.path.join("crates", crate, "src", name) for name in names if name.endswith(".rt") and name != "tests.rt"
        ]

    def functions(self, crate):
        """The functions' names, those of a file that is not the first with the file's before them."""
        return [name for file in self.sources(crate) for name, _ in self.named(file, tokens_of(self.read(file)))]

    def named(self, file, tokens):
        stem = os.path.splitext(os.path.basename(file))[0]
        before = "" if stem in ("lib", "main") else stem + "::"
        return [(before + function.full, function) for function in functions_of(tokens)]

    def has_proof(self, crate, name):
        folder = os.path.join(self.folder(crate), "proofs", *name.split("::"))
        return any(os.path.isfile(os.path.join(folder, file)) for file in ("Answers.antt", "Proof.antt"))

    def mutants(self, crate):
        found = []
        for file in self.sources(crate):
            text = self.read(file)
            tokens = tokens_of(text)
            for name, function in self.named(file, tokens):
                found += self.made(crate, file, text, name, body_edits(text, tokens, function, self.declared), "body")
                if function.exported:
                    edits = contract_edits(text, tokens, function, self.has_proof(crate, name))
                    found += self.made(crate, file, text, name, edits)
            for name, places in constants_of(tokens):
                found += self.made(crate, file, text, name, table_edits(text, tokens, places, self.declared), "table")
        return found

    def made(self, crate, file, text, name, edits, group=None):
        """Edits as mutants; a second one of the same words has its number behind them."""
        seen = Counter()
        for edit in edits:
            words = described(text, edit)
            seen[words] += 1
            label = words if seen[words] == 1 else f"{words} ({seen[words]})"
            yield Mutant(crate, name, group or edit.kind, label, {file: mutated(text, edit)})

    def edits(self, crate):
        """The crate's must-fail edits."""
        folder = os.path.join(self.folder(crate), EDITS)
        for name in sorted(os.listdir(folder)) if os.path.isdir(folder) else []:
            if name.endswith(".edit"):
                label = os.path.splitext(name)[0]
                yield Mutant(crate, EDITS, EDITS, label, self.edited(crate, os.path.join(folder, name)))

    def edited(self, crate, path):
        texts = {}
        for line in self.read(path).splitlines():
            word, _, rest = line.partition(": ") if ": " in line else (line.rstrip(":"), "", "")
            if word == "file":
                file = os.path.join("crates", crate, rest)
            elif word == "old":
                old = rest
            elif word == "new":
                text = texts.get(file) or self.read(file)
                if text.count(old) != 1:
                    raise SystemExit(f"{path}: the old text stands {text.count(old)} times in {file}")
                texts[file] = text.replace(old, rest)
        return texts
