"""The crates of the repository as text: which definitions a definition or a contract names."""

import glob
import os
import re
from dataclasses import dataclass, field

from . import antt, rattle
from .crates import paths_of

MODULE = re.compile(r"Rattle\.(\w+)\.(specs|proofs)(?:\.(.*))?$")


@dataclass(eq=False)
class Declared:
    """A struct or enum of the source that definitions name."""

    file: str
    name: str
    first: int
    end: int
    types: set = field(default_factory=set)

    def size(self):
        return self.end - self.first + 1


class Tree:
    def __init__(self, root):
        self.root = root
        self.sources = {}
        self.types = {}
        self.scopes = {}
        for path in paths_of(root, ".antt"):
            self.sources[path] = antt.parse(path)
        self.known = {}
        for path, source in self.sources.items():
            for definition in source.definitions:
                for name in definition.names():
                    self.known.setdefault((path, name), definition)

    def short(self, path):
        """The path below crates/."""
        return os.path.relpath(path, os.path.join(self.root, "crates"))

    def specs(self):
        return [path for path in self.sources if self.short(path).split(os.sep)[1] == "specs"]

    def is_internal(self, path):
        return "internal" in self.short(path).split(os.sep)

    def declared(self, crate, name):
        """The struct or enum of this name in the crate's source."""
        if (crate, name) not in self.types:
            self.types[crate, name] = None
            for path in sorted(glob.glob(os.path.join(self.root, "crates", crate, "src", "**", "*.rt"), recursive=True)):
                found = rattle.declared(path, name)
                if found:
                    self.types[crate, name] = Declared(path, name, *found)
        return self.types[crate, name]

    def find(self, module, name):
        """What a name of a module is: a definition, a struct or enum, or nothing of this repository."""
        parts = MODULE.match(module)
        if not parts:
            return None
        crate, folder, inner = parts.groups()
        steps = inner.split(".") if inner else []
        if "declared" in steps:
            named = [step for step in steps[steps.index("declared") + 1:] if step[0].isupper()]
            return self.declared(crate, named[0] if named else name)
        path = os.path.join(self.root, "crates", crate, folder, *steps) + ".antt"
        if path not in self.sources:  # the constructors of a type are named through it
            path = os.path.join(self.root, "crates", crate, folder, *steps[:-1]) + ".antt"
        return self.known.get((path, name))

    def scope(self, path):
        """What each name means in a file."""
        if path not in self.scopes:
            source, meaning = self.sources[path], {}
            for definition in source.definitions:
                for name in definition.names():
                    for piece in antt.pieces(name) + [name]:
                        meaning.setdefault(piece, (definition, name))
            for name, (module, there) in source.imports.items():
                found = self.find(module, there)
                for piece in antt.pieces(name) + [name]:
                    if found is not None:
                        meaning[piece] = (found, there)
                    else:
                        meaning.pop(piece, None)
            self.scopes[path] = meaning
        return self.scopes[path]

    def named_by(self, thing):
        """The definitions, structs and enums that a definition (or a struct or enum) names."""
        if isinstance(thing, Declared):
            crate = self.short(thing.file).split(os.sep)[0]
            found = {self.declared(crate, name) for name in thing.types}
            return {other for other in found if other is not None and other is not thing}
        scope, found = self.scope(thing.file), set()
        variables = antt.bound(thing)
        for token in antt.tokens(antt.without_labels(thing)):
            if token not in scope:
                continue
            other, there = scope[token]
            constructor = isinstance(other, Declared) or there != other.name
            if other is not thing and (constructor or token not in variables):
                found.add(other)
        return found

    def reach(self, roots):
        seen, todo = set(), list(roots)
        while todo:
            thing = todo.pop()
            if thing not in seen:
                seen.add(thing)
                todo += self.named_by(thing)
        return seen

    def contract(self, path, chosen):
        """What the contracts of the chosen functions of a source file name."""
        with open(path, encoding="utf-8") as file:
            text = rattle.plain(file.read())
        names, found = rattle.ghost_names(text), set()
        for name, clauses, _ in rattle.functions(text):
            if chosen(name):
                for token in antt.tokens(clauses):
                    if token in names:
                        thing = self.find(*names[token])
                        if thing is not None:
                            found.add(thing)
        return found
