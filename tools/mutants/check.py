"""A copy of the repository in which one mutant after the other is checked."""

import fcntl
import hashlib
import os
import re
import shutil
import subprocess
import tempfile
import time

from reading import kit

REFUSED, SURVIVED, NOT_APPLICABLE, UNDECIDED = "refused", "survived", "not applicable", "undecided"

# The proof names a part of the goal that the mutant no longer has: nothing is said about the facts.
OTHER_SHAPE = re.compile(r"^(note: )?(\./)?proofs/.*(has no field|is not in scope|has no `)")


class Copy:
    """A folder outside of the repository, since rt ci reads all of that: crates/, what is proved of them, and the logs."""

    def __init__(self, root):
        self.every = kit.crates(root)
        short = hashlib.sha256(os.path.realpath(root).encode()).hexdigest()[:8]
        self.folder = os.path.join(tempfile.gettempdir(), f"sukhlent-mutate-{short}")
        self.seconds = {}
        self.lock = open(self.folder + ".lock", "w", encoding="utf-8")
        try:
            fcntl.flock(self.lock, fcntl.LOCK_EX | fcntl.LOCK_NB)
        except OSError:
            raise SystemExit(f"another run is under way in {self.folder}") from None
        shutil.rmtree(self.folder, ignore_errors=True)
        os.makedirs(os.path.join(self.folder, "log"))
        shutil.copytree(os.path.join(root, "crates"), self.path("crates"), ignore=shutil.ignore_patterns("out"))

    def path(self, file):
        return os.path.join(self.folder, file)

    def write(self, file, text):
        with open(self.path(file), "w", encoding="utf-8") as out:
            out.write(text)

    def read(self, file):
        with open(self.path(file), encoding="utf-8") as file:
            return file.read()

    def check(self, crate, limit=None):
        """The status of `rattle check` and what it said; no status where the time ran out."""
        kept = self.path(f"kept/{crate}")
        os.makedirs(kept, exist_ok=True)
        flags = ["--jobs", "1", "--incremental", kept]
        run = subprocess.Popen(
            [f"{kit.folder()}/bin/rattle", "check", *kit.words(self.every, self.every[crate], *flags)],
            cwd=self.path(f"crates/{crate}"),
            stdin=subprocess.DEVNULL,
            stdout=subprocess.PIPE,
            stderr=subprocess.STDOUT,
            text=True,
            errors="replace",
            start_new_session=True,
        )
        try:
            said, _ = run.communicate(timeout=limit)
        except subprocess.TimeoutExpired:
            os.killpg(run.pid, 9)
            said, _ = run.communicate()
            return None, said
        return run.returncode, said

    def prove(self, crate):
        """The seconds that a check of the untouched crate takes, once its dependencies are proved."""
        if crate not in self.seconds:
            if not kit.libraries(self.every, self.every[crate]):
                raise SystemExit(f"a library below {crate} is not proved")
            start = time.time()
            status, said = self.check(crate)
            if status != 0:
                raise SystemExit(f"{crate} is not proved as it stands:\n{said}")
            self.seconds[crate] = time.time() - start
        return self.seconds[crate]

    def judge(self, crate, texts, name, limit):
        """The verdict on a crate with these texts in place of its files'; what was said goes to the folder log."""
        seconds = self.prove(crate)
        old = {file: self.read(file) for file in texts}
        try:
            for file, text in texts.items():
                self.write(file, text)
            status, said = self.check(crate, limit or 60 + 10 * seconds)
        finally:
            for file, text in old.items():
                self.write(file, text)
        short = hashlib.sha256(name.encode()).hexdigest()[:8]
        self.write(os.path.join("log", f"{crate}-{short}"), f"{name}\n{said}")
        return verdict(status, said)


def verdict(status, said):
    if status is None:
        return UNDECIDED
    if status == 0 and "\nlogic=proved" in said:
        return SURVIVED
    if status == 1 and "\nlogic=not-proved" in said:
        return NOT_APPLICABLE if shows_nothing(said) else REFUSED
    return UNDECIDED if status == 3 else NOT_APPLICABLE


def shows_nothing(said):
    """Whether all that is said but what follows from it is about the goal's shape."""
    told = [line for line in said.splitlines() if re.match(r"(note: )?\S+:\d+:\d+:", line)]
    told = [line for line in told if ": error" in line or line.startswith("note: ")] or told
    own = [line for line in told if "was not admitted" not in line]
    return bool(own) and all(OTHER_SHAPE.search(line) for line in own)
