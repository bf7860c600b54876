"""One state of the crates: its sources, what its functions promise, and what the calls and programs reach."""

from .calls import Sources, lines_of


class World:
    def __init__(self, texts, promises):
        self.sources = Sources(texts)
        self.promises = promises
        self.calls, self.programs = self.sources.calls()
        self.reached = self.sources.reach([*self.calls.values(), *self.programs.values()])
        self.functions = sorted((item for item in self.reached if item.kind == "fn"), key=lines_of)
        self.ways = {}
        self.said = {item: promises.direct(self.sources, item) for item in self.functions}

    def way(self, item):
        """What a function reaches."""
        if item not in self.ways:
            self.ways[item] = self.sources.reach([item])
        return self.ways[item]

    def root_of(self, name):
        """An exported function by its short name, or the `main` of a program by `program NAME`."""
        if name.startswith("program "):
            return self.programs.get(name.removeprefix("program "))
        return self.calls.get(f"sukhlent_{name}")

    def missing(self, names, goals, what):
        """The faults: calls and programs of this list that reach none of the goals."""
        found = []
        for name in names:
            root = self.root_of(name)
            if root is None:
                found.append(f"there is no {name}, which is to reach {what}")
            elif not set(goals) & self.way(root):
                found.append(f"{name} does not reach {what}")
        return found

    def promising(self, *definitions):
        """The reached functions whose `ensures` name one of these definitions."""
        return [item for item in self.functions if set(definitions) & self.said[item]]

    def only_number(self, item):
        """Whether a function promises nothing but the number of a refusal."""
        clauses = item.clauses("ensures")
        return bool(clauses) and all("result ≡ first_fitting" in clause for clause in clauses)

    def ensured(self, definition, goals, but=None):
        """The reached functions that promise by a definition, not through another, and reach none of the goals."""
        found = []
        for item in self.functions:
            promised = any(definition in self.promises.closure(thing, but) for thing in self.said[item])
            if promised and not self.only_number(item) and not set(goals) & self.way(item):
                found.append(item)
        return found
