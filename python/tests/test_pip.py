"""`pip install .` into a fresh virtual environment, with no network: the package, its library, its programs and its command
run there, and so do the examples. Also a wheel, an editable install, and a build without a compiler."""

import importlib.util
import os
import re
import shutil
import subprocess
import sys
import tempfile
import unittest
import zipfile
from pathlib import Path

from sukhlent import calls, version
from tests.places import ROOT

#: nothing of the clone or of the caller's environment
BARE = {name: value for name, value in os.environ.items() if not name.startswith(("PYTHON", "SUKHLENT", "PIP"))}
BARE.update(PIP_NO_INDEX="1", PIP_DISABLE_PIP_VERSION_CHECK="1")


def run(*command, **more):
    """What a command prints, where it ends well."""
    given = {"cwd": "/", "env": BARE, **more}
    done = subprocess.run([str(word) for word in command], capture_output=True, text=True, timeout=300, **given)
    if done.returncode != 0:
        raise AssertionError(f"{command}: {done.returncode}\n{done.stdout}{done.stderr}")
    return done.stdout


class Pip(unittest.TestCase):
    @classmethod
    def setUpClass(cls):
        cls.folder = tempfile.TemporaryDirectory()
        cls.addClassCleanup(cls.folder.cleanup)
        cls.venv = Path(cls.folder.name) / "venv"
        if importlib.util.find_spec("ensurepip") is None:
            raise AssertionError("python3 makes no virtual environment with pip here: install Debian's python3-venv")
        run(sys.executable, "-m", "venv", cls.venv)
        cls.python = cls.venv / "bin" / "python"
        run(cls.python, "-m", "pip", "install", "--no-build-isolation", ROOT)

    def test_the_package_is_whole(self):
        code = "import sukhlent, sukhlent.calls as c, sukhlent.library as l; print(sukhlent.__version__, c.TAKEN, l.PATH)"
        said = run(self.python, "-c", code).split()
        self.assertEqual(said[:2], [version(), calls.TAKEN])
        self.assertTrue(said[2].startswith(str(self.venv)), said)
        package = Path(said[2]).parent
        self.assertTrue((package / "py.typed").is_file())
        self.assertEqual(run(self.python, "-m", "pip", "check").strip(), "No broken requirements found.")

    def test_the_command_and_its_programs(self):
        command = self.venv / "bin" / "sukhlent"
        self.assertEqual(run(command, "--version"), f"sukhlent {version()}\n")
        text = (ROOT / "crates" / "reduce" / "stdin").read_text()
        due = (ROOT / "crates" / "reduce" / "stdout").read_text()
        self.assertEqual(run(command, "reduce", input=text), due)
        self.assertIn("step refusal outcome determined", run(command, "job", input="qubits\n1\nop a b value\ngate 0 0 8\n"))
        self.assertIn("y re im p", run(command, "amplitudes", input=text))

    def test_the_examples(self):
        folder = ROOT / "examples" / "python"
        with tempfile.TemporaryDirectory() as scratch:
            (Path(scratch) / "target").mkdir()
            for example in sorted(folder.glob("*.py")):
                out = example.with_suffix(".out")
                said = run(self.python, example, cwd=scratch)
                if out.is_file():
                    self.assertEqual(said, out.read_text(), example.name)

    def test_the_readme_s_snippet_runs_pasted_anywhere(self):
        snippet = re.search(r"```python [^\n]*\n(.*?)```", (ROOT / "README.md").read_text(), re.S)[1]
        with tempfile.TemporaryDirectory() as scratch:
            said = run(self.python, "-c", snippet, cwd=scratch)
        self.assertIn("Measured(outcome=1, determined=False)", said)

    def test_an_editable_install_points_to_the_clone(self):
        with tempfile.TemporaryDirectory() as folder:
            code = "import packaged, sys; print(packaged.build_editable(sys.argv[1]))"
            name = run(sys.executable, "-B", "-c", code, folder, env={**BARE, "PYTHONPATH": str(ROOT / "tools")}).strip()
            with zipfile.ZipFile(Path(folder) / name) as archive:
                archive.extractall(folder)
            code = f"import site; site.addsitedir({folder!r}); import sukhlent; print(sukhlent.__file__)"
            said = run(sys.executable, "-B", "-c", code)
            self.assertEqual(said.strip(), str(ROOT / "python" / "sukhlent" / "__init__.py"))

    def test_a_build_without_a_compiler_goes_through_ctypes(self):
        with tempfile.TemporaryDirectory() as folder:
            done = subprocess.run(
                [sys.executable, "-B", str(ROOT / "tools" / "packaged.py"), "wheel", folder],
                capture_output=True, text=True, timeout=300, env={**BARE, "CC": "no-compiler"},
            )  # fmt: skip
            self.assertEqual(done.returncode, 0, done.stderr)
            self.assertIn("there is no C compiler called no-compiler; CC names another one", done.stderr)
            (wheel,) = Path(folder).glob("*.whl")
            self.assertRegex(wheel.name, r"-py3-none-(many)?linux_")
            with zipfile.ZipFile(wheel) as archive:
                self.assertFalse([name for name in archive.namelist() if "_calls" in name])
                archive.extractall(folder)
            environment = {**BARE, "PYTHONPATH": folder}
            code = "import sukhlent, sukhlent.calls as c; print(c.TAKEN, sukhlent.State.zeros(1).measure('Z', 0, 0))"
            said = run(sys.executable, "-c", code, env=environment)
            self.assertEqual(said, "ctypes Measured(outcome=0, determined=True)\n")

    def test_what_is_missing_is_said(self):
        with tempfile.TemporaryDirectory() as folder:
            clone = Path(folder)
            for name in ("pyproject.toml", "README.md", "LICENSE"):
                shutil.copy(ROOT / name, clone / name)
            for name in ("python", "tools", "include"):
                shutil.copytree(ROOT / name, clone / name, ignore=shutil.ignore_patterns("__pycache__", "tests"))
            done = subprocess.run(
                [sys.executable, "-B", str(clone / "tools" / "packaged.py"), "wheel"], capture_output=True, text=True,
                timeout=60, env={**BARE, "PATH": "/none"},
            )  # fmt: skip
            self.assertEqual(done.returncode, 1)
            self.assertIn("prove and build it with: tools/build sukhlent && tools/shared", done.stderr)


if __name__ == "__main__":
    unittest.main()
