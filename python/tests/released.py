"""A release of the files as they are, made once for all tests of it: twice, in two clones that stand in two folders."""

import atexit
import functools
import re
import shutil
import subprocess
import tempfile
from concurrent.futures import ThreadPoolExecutor
from pathlib import Path

from tests.places import ROOT

WORDS = ["-c", "user.name=t", "-c", "user.email=t@localhost", "-c", "commit.gpgsign=false"]
VERSION = re.search(r'VERSION_TEXT "(.*)"', (ROOT / "include" / "sukhlent.h").read_text())[1]

#: what the gate leaves in target/ and a release is made of
BUILT = ("bin", "staticlib", "cross/module.ll")


def run(*command, **more):
    """What a command prints, where it ends well."""
    done = subprocess.run([str(word) for word in command], capture_output=True, text=True, timeout=600, **more)
    if done.returncode != 0:
        raise AssertionError(f"{command}: {done.returncode}\n{done.stdout}{done.stderr}")
    return done.stdout


def needed(*subjects):
    """Installs what is missing of Debian where that may be; what is still missing is a failure."""
    run(ROOT / "tools" / "needed", "--install", *subjects)


def cloned(folder):
    """A repository of one commit, with the files of this one as they are, and what the gate has left."""
    names = run("git", "-C", ROOT, "ls-files", "-z", "--cached", "--others", "--exclude-standard").split("\0")
    for name in names:
        if name and (ROOT / name).is_file():
            (folder / name).parent.mkdir(parents=True, exist_ok=True)
            shutil.copy2(ROOT / name, folder / name)
    for name in BUILT:
        here, there = ROOT / "target" / name, folder / "target" / name
        there.parent.mkdir(parents=True, exist_ok=True)
        (shutil.copytree if here.is_dir() else shutil.copy2)(here, there)
    run("git", "-C", folder, "init", "-q")
    run("git", "-C", folder, "add", "-A")
    run("git", "-C", folder, *WORDS, "commit", "-q", "-m", "all")


class Made:
    """The folder of all, the two clones, and what each released."""

    def __init__(self, room):
        self.room = room
        self.clones = [room / "clone", room / "elsewhere" / "the other clone"]
        self.folders = [room / "one", room / "two"]
        self.gate = room / "gate"
        self.gate.write_text("all\n3 passed, 0 failed\n")
        self.clones[0].mkdir()
        cloned(self.clones[0])
        shutil.copytree(self.clones[0], self.clones[1], symlinks=True)
        with ThreadPoolExecutor() as both:
            self.said = list(both.map(self._released, self.clones, self.folders))

    def _released(self, clone, folder):
        return run(clone / "tools" / "release", "--gate", self.gate, "--table", folder)

    def file(self, ending):
        """A file of the release, by how its name ends behind the version."""
        name = re.compile(rf"sukhlent[-_]{re.escape(VERSION)}{ending}")
        (found,) = (path for path in self.folders[0].iterdir() if name.fullmatch(path.name))
        return found

    def unpacked(self, ending):
        """An archive in an empty folder: the folder that it makes."""
        empty = Path(tempfile.mkdtemp(dir=self.room))
        run("tar", "-xzf", self.file(ending), "-C", empty)
        (top,) = empty.iterdir()
        return top


@functools.lru_cache(maxsize=None)
def release():
    """The release; its folder is taken away at the end."""
    room = Path(tempfile.mkdtemp())
    atexit.register(shutil.rmtree, room, ignore_errors=True)
    return Made(room)
