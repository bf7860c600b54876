"""What a new user does: the commands and snippets of README.md, pasted in a fresh copy of the repository. Nothing of the
clone is there but what git knows and what the proofs have left in target/."""

import os
import shutil
import subprocess
import tempfile
import unittest
from pathlib import Path

from tests.places import ROOT

#: what `tools/build sukhlent reduce job` leaves in target/, beside the libraries of crates/*/out
PROVED = ("bin", "staticlib", "proved")


def files():
    """The files of the repository."""
    command = ["git", "-C", str(ROOT), "ls-files", "-z", "--cached", "--others", "--exclude-standard"]
    listed = subprocess.run(command, capture_output=True, text=True, timeout=60)
    if listed.returncode == 0:
        return [name for name in listed.stdout.split("\0") if name and (ROOT / name).is_file()]
    found = (path.relative_to(ROOT) for path in ROOT.rglob("*") if path.is_file())
    return [str(path) for path in found if path.parts[0] not in ("target", ".git")]


def linked(one, other):
    """A file under a second name, since nothing writes to it; a copy on another disk."""
    try:
        os.link(one, other)
    except OSError:
        shutil.copy2(one, other)


def copy(one, other, how=shutil.copy2):
    """A file or a folder, where it is there."""
    if one.is_dir():
        shutil.copytree(one, other, symlinks=True, copy_function=how)
    elif one.exists():
        other.parent.mkdir(parents=True, exist_ok=True)
        how(one, other)


class Clone(unittest.TestCase):
    def test_readme_prints_what_it_shows_in_a_fresh_clone(self):
        with tempfile.TemporaryDirectory() as folder:
            clone = Path(folder)
            for name in files():
                (clone / name).parent.mkdir(parents=True, exist_ok=True)
                shutil.copy(ROOT / name, clone / name)
            for name in PROVED:
                copy(ROOT / "target" / name, clone / "target" / name)
            for path in ROOT.glob("crates/*/out/rlib"):
                copy(path, clone / path.relative_to(ROOT), how=linked)
            environment = {name: value for name, value in os.environ.items() if name != "PYTHONPATH"}
            command = [str(clone / "tools" / "shown"), str(clone / "README.md")]
            run = subprocess.run(command, capture_output=True, text=True, timeout=300, env=environment)
            self.assertEqual(run.returncode, 0, run.stdout + run.stderr)
            self.assertIn("0 not as shown", run.stdout)

    def test_readme_has_at_most_120_lines(self):
        self.assertLessEqual(len((ROOT / "README.md").read_text().splitlines()), 120)
