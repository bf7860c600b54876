"""The source of the crates as a graph: functions, constants, structs and enums, and what each function names.

A module is a file: crates/a/src/lib.rt and main.rt are `a`, crates/a/src/b.rt is `a::b`. A path is followed as the compiler
does it, through `use`, `pub use`, `crate::`, `super::` and the names of crates; so a function is found wherever it stands.
"""

import re
from dataclasses import dataclass, field
from pathlib import Path

from mutants.source import after_types, closing, functions_of, parts, tokens_of, typed, words

USE = re.compile(r"^[ \t]*(?:pub )?use ([^;]+);", re.M)
GHOST = re.compile(r"^[ \t]*ghost use [^;]+;", re.M)


@dataclass(eq=False)
class Item:
    """A function (with the type of a method), a constant, a struct or an enum."""

    kind: str
    name: str
    module: tuple
    path: str
    tokens: list
    owner: str = ""
    function: object = None
    fields: list = field(default_factory=list)
    value: tuple = ()
    exported: bool = False

    def full(self):
        return "::".join(self.module + ((self.owner,) if self.owner else ()) + (self.name,))

    def body(self):
        return [token.text for token in self.tokens[self.function.body[0]:self.function.body[1]]]

    def clauses(self, word):
        return [" ".join(words(self.tokens, (start, end))) for kind, start, end in self.function.clauses if kind == word]


def uses_of(text):
    """The imports of a file: the name here, and the path."""
    found = []
    for use in USE.finditer(text):
        path = re.sub(r"\s+", " ", use.group(1).strip())
        head, _, inner = path.partition("::{")
        for one in inner.rstrip("}").split(",") if inner else [""]:
            whole = f"{head}::{one.strip()}" if inner else path
            whole, _, here = whole.partition(" as ")
            steps = tuple(step.strip() for step in whole.split("::") if step.strip())
            if steps and (not inner or one.strip()):
                found.append((here.strip() or steps[-1], steps))
    return found


PARSED = {}


def parsed(text):
    """The tokens of a file, its functions and its imports; read once."""
    if text not in PARSED:
        plain = re.sub(r"//[^\n]*", "", text)
        tokens = tokens_of(plain)
        PARSED[text] = tokens, functions_of(tokens), uses_of(GHOST.sub("", plain))
    return PARSED[text]


def texts_of(root):
    """The text of every source file, by its path below the root."""
    root = Path(root)
    paths = sorted(root.glob("crates/*/src/**/*.rt"))
    return {str(path.relative_to(root)): path.read_text(encoding="utf-8") for path in paths}


class Sources:
    def __init__(self, texts):
        self.texts = texts
        self.items = {}
        self.methods = {}
        self.uses = {}
        self.modules = {}
        self.names = {}
        for path, text in texts.items():
            self.modules[self.module_of(path)] = path
        for path, text in texts.items():
            self.read(path, text)

    def module_of(self, path):
        _, crate, _, *steps = path.split("/")
        steps[-1] = steps[-1].removesuffix(".rt")
        return (crate, *(() if steps in (["lib"], ["main"]) else steps))

    def read(self, path, text):
        tokens, functions, uses = parsed(text)
        module = self.module_of(path)
        self.uses[module] = {here: steps for here, steps in uses}
        for function in functions:
            owner = function.full[:-len(function.name)].rstrip(":")
            item = self.add("fn", function.name, module, tokens, owner)
            item.function, item.exported = function, function.exported
        for i, token in enumerate(tokens):
            if token.text in ("struct", "enum") and tokens[i + 1].kind == "name" and tokens[i + 2].text == "{":
                item = self.add(token.text, tokens[i + 1].text, module, tokens)
                item.fields = [words(tokens, part) for part in parts(tokens, i + 2)]
            if token.text == "const":
                start = next(k for k in range(i, len(tokens)) if tokens[k].text == "=")
                item = self.add("const", tokens[i + 1].text, module, tokens)
                item.fields = words(tokens, (i + 3, start))
                end = start + 1
                while tokens[end].text != ";":
                    end = closing(tokens, end) + 1 if tokens[end].text in "([{" else end + 1
                item.value = (start + 1, end)

    def add(self, kind, name, module, tokens, owner=""):
        item = Item(kind, name, module, self.modules[module], tokens, owner)
        if owner:
            self.methods.setdefault(name, []).append(item)
        else:
            self.items[module, name] = item
        return item

    def all(self, kind):
        methods = [item for some in self.methods.values() for item in some]
        return [item for item in [*self.items.values(), *methods] if item.kind == kind]

    def inside(self, module, name, seen=()):
        """What a name means in a module: an item, or a module."""
        if (module, name) in self.items:
            return self.items[module, name]
        if module + (name,) in self.modules:
            return module + (name,)
        if name in self.uses.get(module, {}) and (module, name) not in seen:
            return self.resolve(module, self.uses[module][name], (*seen, (module, name)))
        return None

    def resolve(self, module, steps, seen=()):
        """What a path means in a module; None where it is of no crate here."""
        first, rest = steps[0], steps[1:]
        if first == "crate":
            at = module[:1]
        elif first in ("self", "super"):
            at = module if first == "self" else module[:-1]
        else:
            at = self.inside(module, first, seen)
            if at is None and (first,) in self.modules:
                at = (first,)
        for step in rest:
            at = self.inside(at, step, seen) if isinstance(at, tuple) else self.of_type(at, step)
        return at

    def of_type(self, item, name):
        """A method of a struct or enum by its path; a variant is its enum."""
        if item is None:
            return None
        for method in self.methods.get(name, []):
            if method.owner == item.name:
                return method
        return item if item.kind == "enum" else None

    def named(self, item):
        """The functions, constants, structs and enums that a function's body names."""
        if item not in self.names:
            self.names[item] = self.read_names(item)
        return self.names[item]

    def read_names(self, item):
        found, tokens = set(), item.tokens
        i, end = item.function.body
        while i < end:
            if tokens[i].kind != "name":
                i += 1
                continue
            steps, last = [tokens[i].text], i
            while tokens[last + 1].text == "::" and tokens[last + 2].kind == "name":
                last += 2
                steps.append(tokens[last].text)
            before, after = tokens[i - 1].text, tokens[last + 1].text
            if before == "." and after == "(":
                found |= set(self.methods.get(steps[0], []))
            elif before != ".":
                thing = self.resolve(item.module, tuple(steps))
                if isinstance(thing, Item) and (thing.kind != "fn" or after == "("):
                    found.add(thing)
            i = last + 1
        return found

    def reach(self, roots):
        """Everything that is named on the way from these functions."""
        seen, todo = set(), list(roots)
        while todo:
            item = todo.pop()
            if item in seen:
                continue
            seen.add(item)
            if item.kind == "fn":
                todo += self.named(item) - seen
        return seen

    def calls(self):
        """The functions that C can call, of the crate sukhlent, and the `main` of each program, by name."""
        found = {item.name: item for item in self.all("fn") if item.exported and item.module[0] == "sukhlent"}
        programs = {item.module[0]: item for item in self.all("fn") if item.name == "main" and len(item.module) == 1}
        return found, programs


def lines_of(item):
    """The place of a function, for a message."""
    return f"{item.path}: {item.owner + '::' if item.owner else ''}{item.name}"


def parameters(item):
    """The parameters of a function with their types, `self` with how it is passed."""
    opened = after_types(item.tokens, next(k for k in range(item.function.body[0], -1, -1) if item.tokens[k].text == "fn") + 2)
    found = {}
    for part in parts(item.tokens, opened):
        text = words(item.tokens, part)
        name, kind = typed(text)
        found[name] = " ".join(text) if name == "self" and ":" not in text else kind
    return found


