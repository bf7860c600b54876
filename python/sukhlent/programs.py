"""The proved programs, found and fed, with progress shown at a terminal."""

from __future__ import annotations

import os
import shutil
import subprocess
import sys
import threading
import time
from pathlib import Path

from .library import HERE, tree

_BLOCK = 1 << 16


def path_of(name: str) -> str | None:
    """A proved program: in the folder that SUKHLENT_PROGRAMS names, in the package, as pip installs it, in the install
    tree, in a clone, or on the path."""
    places = [HERE / "bin" / name, tree() / "libexec" / "sukhlent" / name, tree() / "target" / "bin" / name]
    folder = os.environ.get("SUKHLENT_PROGRAMS")
    if folder:
        places.insert(0, Path(folder) / name)
    for place in places:
        if place.is_file():
            return str(place)
    return shutil.which(f"sukhlent-{name}")


class Progress:
    """How far a long work is, on one line of standard error: only at a terminal, and not before half a second."""

    def __init__(self, what: str, total: int):
        self._what, self._total = what, total
        self._next = time.monotonic() + 0.5 if sys.stderr.isatty() else float("inf")
        self._shown = False

    def at(self, done: int) -> None:
        """Shows that `done` bytes of all are done."""
        if time.monotonic() >= self._next:
            self._next = time.monotonic() + 0.1
            self._shown = True
            share = 100 * done // max(self._total, 1)
            print(f"\rsukhlent: {self._what}: {share} % of {self._total} bytes", end="", file=sys.stderr, flush=True)

    def end(self) -> None:
        """Takes the line away."""
        if self._shown:
            print("\r\x1b[K", end="", file=sys.stderr, flush=True)


def fed(program: str, text: bytes) -> bytes:
    """What a program prints when a text goes to its standard input."""
    progress = Progress(Path(program).name, len(text))
    answer: list[bytes] = []
    with subprocess.Popen([program], stdin=subprocess.PIPE, stdout=subprocess.PIPE) as process:
        assert process.stdin is not None and process.stdout is not None
        stdout = process.stdout
        reader = threading.Thread(target=lambda: answer.append(stdout.read()))
        reader.start()
        for at in range(0, len(text), _BLOCK):
            process.stdin.write(text[at : at + _BLOCK])
            progress.at(at)
        process.stdin.close()
        reader.join()
    progress.end()
    return answer[0]
