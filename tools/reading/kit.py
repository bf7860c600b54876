"""The installed Rattle: where it is, and the words that a crate of this repository is checked and built with."""

import hashlib
import os
import shutil
import subprocess

from .crates import listed

TARGET = "x86_64-unknown-linux-gnu"
PARTS = ("src", "specs", "proofs")


class NoKit(Exception):
    pass


def folder():
    """The folder of the kit that `rt` belongs to."""
    rt = shutil.which("rt")
    found = os.path.dirname(os.path.dirname(os.path.realpath(rt))) if rt else ""
    if not os.path.isfile(os.path.join(found, "bin", "rattle")):
        raise NoKit("no kit: rt is not on the path")
    return found


class Crate:
    """A crate of crates.txt: what it depends on here and of the kit, and whether it is a program or a static library."""

    def __init__(self, root, name, kind, needs, ours):
        self.root, self.name, self.needs = root, name, [other for other in needs if other in ours]
        self.of_kit = ["core", "std", *(other for other in needs if other not in ours)]
        self.folder = os.path.join(root, "crates", name)
        self.is_static = kind == "staticlib"
        self.is_program = os.path.isfile(os.path.join(self.folder, "src", "main.rt"))
        self.rlib = os.path.join(self.folder, "out", "rlib", f"{name}.rlib")

    def is_library(self):
        return not self.is_static and not self.is_program


def crates(root):
    """The crates by name."""
    with open(os.path.join(root, "crates.txt"), encoding="utf-8") as file:
        lines = [line.split("#")[0] for line in file if ":" in line.split("#")[0]]
    kinds = {words[0]: " ".join(words[1:]) for words in (line.partition(":")[0].split() for line in lines)}
    return {
        name: Crate(root, name, kinds[name], needs, kinds)
        for _, items in listed(root) for name, needs in items
    }


def below(every, crate):
    """The crates that a crate stands on, lowest first."""
    found = {}

    def add(one):
        for name in one.needs:
            add(every[name])
            found.setdefault(name, every[name])

    add(crate)
    return list(found.values())


def words(every, crate, *flags):
    """What `rattle check` and `rattle build` are told of a crate, over the libraries that stand in out/rlib."""
    kit = folder()
    found = ["--crate-name", crate.name, "src/main.rt" if crate.is_program else "src/lib.rt"]
    for name in crate.of_kit:
        found += ["--extern", f"{name}={kit}/rlibs/{name}.rlib"]
    found += ["-L", f"dependency={kit}/rlibs"]
    for name in crate.needs:
        found += ["--extern", f"{name}={every[name].rlib}"]
    for other in below(every, crate):
        found += ["-L", f"dependency={os.path.dirname(other.rlib)}"]
    found += ["--antt-project", f"{kit}/rattle/logic/antt-project.json", "--logic-built", f"{kit}/logic_built"]
    found += ["--links", f"{crate.name}="]
    return found + ["--crate-type", "staticlib"] * crate.is_static + list(flags)


def sum_of(root):
    """One sum of the kit, crates.txt, HANDLES, and all files of src/, specs/ and proofs/."""
    total = hashlib.sha256()
    paths = [os.path.join(root, name) for name in ("crates.txt", "HANDLES")]
    for name in sorted(os.listdir(os.path.join(root, "crates"))):
        for part in PARTS:
            for at, folders, files in os.walk(os.path.join(root, "crates", name, part)):
                folders.sort()
                paths += [os.path.join(at, file) for file in sorted(files)]
    with open(os.path.join(folder(), "KIT-ID"), "rb") as file:
        total.update(file.read())
    for path in paths:
        if os.path.isfile(path):
            with open(path, "rb") as file:
                total.update(repr((os.path.relpath(path, root), file.read())).encode())
    return total.hexdigest()


def has_passed(root, crate_list):
    """Whether `rt ci` passed over the files as they are, and left the libraries of these crates."""
    try:
        with open(os.path.join(root, "target", "proved"), encoding="utf-8") as file:
            passed = file.read().strip()
    except OSError:
        return False
    left = all(
        os.path.isfile(os.path.join(one.rlib, "format")) and not os.path.lexists(os.path.join(one.rlib, "..", "stamp"))
        for one in crate_list
    )
    return left and passed == sum_of(root)


def libraries(every, crate, anew=False):
    """Sees that the libraries below a crate are built of the files as they are: those that `rt ci` left, or `rt lib` builds
    them. Whether they are."""
    if not anew and has_passed(crate.root, below(every, crate)):
        return True
    how = {"stdin": subprocess.DEVNULL}
    return all(subprocess.run(["rt", "lib"], cwd=every[name].folder, **how).returncode == 0 for name in crate.needs)
