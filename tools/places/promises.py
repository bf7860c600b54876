"""What the functions promise: the definitions that their `ensures` clauses name, followed through the definitions."""

import re

from reading import antt, rattle
from reading.tree import Tree

CODES = ("code_of", "clifford_of", "then", "inverse", "image", "bit_c", "bit_d")


class Promises:
    def __init__(self, root):
        self.tree = Tree(root)
        self.closures = {}
        self.files = {}
        self.codes = self.file_with(CODES)

    def file_with(self, names):
        """The file of definitions that has all of these."""
        found = [path for path in self.tree.specs() if all((path, name) in self.tree.known for name in names)]
        if len(found) != 1:
            raise SystemExit(f"{len(found)} files of specs/ define {', '.join(names)}")
        return found[0]

    def definition(self, name, *beside):
        """A definition by its name: of the file of the codes, or of the one file that has it with these others."""
        own = not beside and (self.codes, name) in self.tree.known
        return self.tree.known[self.codes if own else self.file_with((name, *beside)), name]

    def ghosts(self, text):
        if text not in self.files:
            self.files[text] = rattle.ghost_names(rattle.plain(text))
        return self.files[text]

    def direct(self, sources, item):
        """The definitions that the `ensures` of a function name."""
        names, found = self.ghosts(sources.texts[item.path]), set()
        for token in antt.tokens(" ".join(item.clauses("ensures"))):
            if token in names:
                thing = self.tree.find(*names[token])
                if thing is not None:
                    found.add(thing)
        return found

    def closure(self, thing, but=None):
        """A definition and those that it names in turn, not through one of them."""
        if (thing, but) not in self.closures:
            seen, todo = {but}, [thing]
            while todo:
                one = todo.pop()
                if one not in seen:
                    seen.add(one)
                    todo += self.tree.named_by(one)
            self.closures[thing, but] = seen - {but}
        return self.closures[thing, but]

    def bits_of_a_code(self):
        """The definitions that are a Boolean of a code and are, or name, its bit C or D."""
        bits, found = {self.definition("bit_c"), self.definition("bit_d")}, set()
        for path in self.tree.specs():
            for one in self.tree.sources[path].definitions:
                boolean = re.search(r":\s*Clifford → Bool\s*$", one.code.split("\n")[0])
                if boolean and bits & ({one} | self.tree.named_by(one)):
                    found.add(one)
        return found
