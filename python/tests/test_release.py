"""What `tools/release` makes: the same bytes in two folders, with sums and a manifest, and nothing of the machine."""

import contextlib
import importlib.machinery
import importlib.util
import io
import os
import re
import subprocess
import tempfile
import unittest
import zipfile
from pathlib import Path

from tests.places import ROOT
from tests.released import VERSION, release, run


def tool(root):
    """tools/release as a module, of another root."""
    loader = importlib.machinery.SourceFileLoader("release", str(ROOT / "tools" / "release"))
    module = importlib.util.module_from_spec(importlib.util.spec_from_loader("release", loader))
    loader.exec_module(module)
    module.ROOT = root
    return module


class Release(unittest.TestCase):
    @classmethod
    def setUpClass(cls):
        cls.made = release()

    def test_two_runs_in_two_folders_give_the_same_bytes(self):
        one, two = ({path.name: path.read_bytes() for path in folder.iterdir()} for folder in self.made.folders)
        self.assertEqual(sorted(one), sorted(two))
        self.assertEqual(len(one), 9)
        for name in one:
            self.assertTrue(one[name] == two[name], name)

    def test_the_sums_and_the_manifest(self):
        folder = self.made.folders[0]
        run("sha256sum", "--strict", "-c", "SHA256SUMS", cwd=folder)
        summed = {line.split()[1] for line in (folder / "SHA256SUMS").read_text().splitlines()}
        self.assertEqual(summed, {path.name for path in folder.iterdir()} - {"SHA256SUMS"})
        manifest = (folder / "MANIFEST").read_text()
        commit = run("git", "-C", self.made.clones[0], "rev-parse", "HEAD")
        self.assertTrue(manifest.startswith(f"version {VERSION}\ncommit {commit}"), manifest)
        self.assertIn(f"\ntoolchain {run('rt', 'version')}", manifest)
        self.assertIn("\ngate 3 passed, 0 failed, by the log that was named\n", manifest)
        sizes = dict(reversed(line.split()) for line in re.findall(r"^ *\d+ \S+$", manifest, re.M))
        self.assertEqual(sizes, {name: str((folder / name).stat().st_size) for name in summed - {"MANIFEST"}})

    def test_the_document_offers_what_is_made_and_its_sizes(self):
        """docs/VERSIONS.md has the table that the command beside it prints, with sizes that are a fifth off at most."""
        text = (ROOT / "docs" / "VERSIONS.md").read_text()
        row = re.compile(r"^\| (\S+) \| (.*) \| ([\d,]+) \|$", re.M)
        shown, made = (row.findall(table) for table in (text, self.made.said[0]))
        self.assertIn("\n    tools/release --table\n", text)
        self.assertEqual([row[:2] for row in shown], [row[:2] for row in made])
        self.assertEqual({row[0].replace("VERSION", VERSION) for row in made} | {"MANIFEST", "SHA256SUMS"},
                         {path.name for path in self.made.folders[0].iterdir()})
        for (name, _, here), (_, _, there) in zip(shown, made):
            here, there = (int(size.replace(",", "")) for size in (here, there))
            self.assertLessEqual(abs(here - there), there / 5, name)

    def test_nothing_in_it_names_the_machine(self):
        """No file has the path of a clone, and none is a compiled one of Python."""
        tops = [self.made.unpacked(f"{name}.tar.gz") for name in ("", "-x86-64", "-x86-64-v3", "-aarch64", "-web")]
        with tempfile.TemporaryDirectory(dir=self.made.room) as folder:
            with zipfile.ZipFile(self.made.file("-.*.whl")) as archive:
                archive.extractall(f"{folder}/wheel")
            run("dpkg-deb", "-R", self.made.file("_amd64.deb"), f"{folder}/deb")
            paths = (path for top in (*tops, Path(folder)) for path in top.rglob("*"))
            files = [path for path in paths if path.is_file() and not path.is_symlink()]
            self.assertGreater(len(files), 1000)
            for path in files:
                self.assertNotIn(str(self.made.room).encode(), path.read_bytes(), path)
                self.assertNotIn("__pycache__", path.parts)

    def test_the_source_is_what_git_has_and_stands_by_itself(self):
        top = self.made.unpacked(".tar.gz")
        names = run("git", "-C", self.made.clones[0], "ls-files").splitlines()
        self.assertEqual(sorted(str(path.relative_to(top)) for path in top.rglob("*") if path.is_file()), sorted(names))
        for name in names:
            self.assertEqual((top / name).read_bytes(), (self.made.clones[0] / name).read_bytes(), name)
        self.assertTrue(os.access(top / "test", os.X_OK))
        for tool_name in ("trusted", "map"):
            run(top / "tools" / tool_name, "--check")

    def test_a_tree_that_is_not_clean_a_folder_that_is_not_empty_and_a_gate_that_failed_are_refused(self):
        clone, room = self.made.clones[0], self.made.room
        failed = room / "failed"
        failed.write_text("3 passed, 1 failed\n")

        def refused(folder, gate=self.made.gate):
            words = [str(clone / "tools" / "release"), "--gate", str(gate), str(folder)]
            done = subprocess.run(words, capture_output=True, text=True, timeout=300)
            self.assertEqual(done.returncode, 1, done.stdout)
            return done.stderr

        self.assertIn("is not empty", refused(self.made.folders[0]))
        self.assertIn("does not end with", refused(room / "three", failed))
        (clone / "stray").write_text("")
        try:
            self.assertIn("not clean", refused(room / "four"))
        finally:
            (clone / "stray").unlink()


class Gate(unittest.TestCase):
    """What MANIFEST says of the gate."""

    def setUp(self):
        folder = tempfile.TemporaryDirectory()
        self.addCleanup(folder.cleanup)
        self.root = Path(folder.name)
        self.release = tool(self.root)

    def gate_that_says(self, text):
        (self.root / "test").write_text(f"#!/bin/sh\necho some\necho '{text}'\n")
        (self.root / "test").chmod(0o755)

    def test_it_was_not_run(self):
        self.assertEqual(self.release.gate(None, False), "not run")

    def test_it_is_run_here(self):
        self.gate_that_says("12 passed, 0 failed")
        with contextlib.redirect_stderr(io.StringIO()) as said:
            self.assertEqual(self.release.gate(None, True), "12 passed, 0 failed")
        self.assertEqual(said.getvalue(), "some\n12 passed, 0 failed\n")
        self.assertEqual((self.root / "target" / "gate.log").read_text(), "some\n12 passed, 0 failed\n")

    def test_it_failed_here(self):
        self.gate_that_says("12 passed, 1 failed")
        failed = self.assertRaisesRegex(self.release.Stopped, "does not end with")
        with failed, contextlib.redirect_stderr(io.StringIO()):
            self.release.gate(None, True)

    def test_another_toolchain_than_the_one_of_the_readme_is_refused(self):
        (self.root / "README.md").write_text("the one of which `rt version` prints `another logic 0`.")
        with self.assertRaisesRegex(self.release.Stopped, "proved with another logic 0, and here is "):
            self.release.toolchain()
