"""crates.txt: the crates in their sections, what each depends on directly, and what its files name."""

import glob
import os
import re

from .rattle import functions, plain


def listed(root):
    """The sections of crates.txt: (heading, [(crate, dependencies)])."""
    sections = [("", [])]
    with open(os.path.join(root, "crates.txt"), encoding="utf-8") as file:
        for line in file.read().splitlines():
            if line.startswith("# "):
                sections.append((line[2:].strip(), []))
            elif ":" in line.split("#")[0]:
                name, _, rest = line.split("#")[0].partition(":")
                sections[-1][1].append((name.split()[0], rest.split()))
    return [section for section in sections if section[1]]


def text_of(root, crate, *folders):
    found = []
    for folder in folders:
        for path in sorted(glob.glob(os.path.join(root, "crates", crate, folder, "**", "*.*"), recursive=True)):
            if path.endswith((".rt", ".antt")):
                with open(path, encoding="utf-8") as file:
                    found.append(file.read())
    return "\n".join(found)


def paths_of(root, *kinds):
    """Every file of src/, specs/ and proofs/ of every crate with one of these endings, in order."""
    found = []
    for folder in ("src", "specs", "proofs"):
        found += glob.glob(os.path.join(root, "crates", "*", folder, "**", "*"), recursive=True)
    return sorted(path for path in found if path.endswith(kinds))


class Crates:
    """What the files of every crate name, and which structs and enums their functions pass."""

    def __init__(self, root, names):
        self.names = set(names)
        self.kit = {need for _, items in listed(root) for _, needs in items for need in needs} - self.names
        self.source = {name: plain(text_of(root, name, "src")) for name in names}
        self.whole = {name: text_of(root, name, "src", "specs", "proofs") for name in names}
        self.types = {name: set(re.findall(r"(?:struct|enum) (\w+)", text)) for name, text in self.source.items()}
        self.signatures = {}
        self.fields = {}
        for name, text in self.source.items():
            for fn, clauses, _ in functions(text):
                head = re.split(r"\b(?:requires|ensures)\b", clauses)[0]
                self.signatures[name, fn] = set(re.findall(r"\b[A-Z]\w*\b", head))
            for kind in re.finditer(r"(?:struct|enum) (\w+)([^{;]*\{[^}]*\})?", text):
                self.fields[name, kind.group(1)] = set(re.findall(r"\b[A-Z]\w*\b", kind.group(2) or ""))

    def imported(self, crate):
        """The items that a crate's source takes from others: name to crate."""
        found = {}
        for use in re.finditer(r"\buse (\w+)((?:::\w+)+);", self.source[crate]):
            if use.group(1) in self.names:
                found[use.group(2).split("::")[-1]] = use.group(1)
        for path in re.finditer(r"(?<![\w:])(\w+)((?:::\w+)+)", self.source[crate]):
            if path.group(1) in self.names:
                found[path.group(2).split("::")[-1]] = path.group(1)
        return found

    def home(self, crate, kind):
        """The crate that declares a struct or enum that this crate's source names."""
        if kind in self.types[crate]:
            return crate
        return self.imported(crate).get(kind)

    def passed(self, crate):
        """The crates of the structs and enums that go in and out of the functions that this crate calls."""
        found, seen = set(), set()
        todo = []
        for item, home in self.imported(crate).items():
            for (owner, fn), kinds in self.signatures.items():
                if owner == home and fn == item:
                    todo += [(owner, kind) for kind in kinds]
            if item in self.types[home]:
                todo.append((home, item))
        while todo:
            owner, kind = todo.pop()
            home = self.home(owner, kind)
            if home is None or (home, kind) in seen:
                continue
            seen.add((home, kind))
            found.add(home)
            todo += [(home, inner) for inner in self.fields.get((home, kind), ())]
        return found

    def direct(self, crate):
        """The crates that this one names, or whose structs and enums it passes."""
        named = set(re.findall(r"\bRattle\.(\w+)", self.whole[crate]))
        named |= set(re.findall(r"(?<![\w:])(\w+)::", self.source[crate]))
        found = (named & self.names) | self.passed(crate) | (named & self.kit)
        return found - {crate}
