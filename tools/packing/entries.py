"""The files of an archive: a name, what it holds, and whether it runs, or where it points."""

import os
from dataclasses import dataclass


@dataclass(frozen=True)
class Entry:
    """A file, or with `link` a symbolic link."""

    name: str
    content: bytes = b""
    runs: bool = False
    link: str = ""


def entry(name, path):
    """A file of the disk under a name."""
    if path.is_symlink():
        return Entry(name, link=os.readlink(path))
    return Entry(name, path.read_bytes(), os.access(path, os.X_OK))


def below(folder):
    """The files below a folder, by the names that they have there; Python's compiled ones are none."""
    found = [path for path in folder.rglob("*") if path.is_symlink() or path.is_file()]
    named = [(str(path.relative_to(folder)), path) for path in found if "__pycache__" not in path.parts]
    return [entry(name, path) for name, path in sorted(named)]
