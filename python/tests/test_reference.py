"""The documents that are made from the package: the reference, the table of the codes, and the times."""

import os
import re
import subprocess
import sys
import unittest

from sukhlent import NAMES, images
from tests.places import ROOT


class Reference(unittest.TestCase):
    def test_the_reference_is_what_the_docstrings_say(self):
        command = [sys.executable, "-B", str(ROOT / "tools" / "reference")]
        run = subprocess.run(command, capture_output=True, text=True, timeout=60)
        self.assertEqual((run.returncode, run.stderr), (0, ""))

    def test_the_table_of_the_codes_has_every_name_and_image(self):
        text = (ROOT / "docs" / "ENGINE.md").read_text()
        rows = re.findall(r"^\| (\d) \| ([XYZ]), ([XYZ]) \|(.*)\|$", text, re.M)
        self.assertEqual(len(rows), 6)
        for place, x, z, cells in rows:
            for signs, cell in zip(("++", "+-", "-+", "--"), cells.split("|")):
                number, name = re.fullmatch(r" (\d+): (\w+) ", cell).groups()
                self.assertEqual(NAMES[int(number)], name)
                self.assertEqual(images(int(number)), (signs[0] + x, signs[1] + z))
                self.assertEqual(int(number) // 4, int(place))

    def test_the_times_are_measured(self):
        command = [sys.executable, "-B", str(ROOT / "python" / "bench" / "speed.py"), "--quick"]
        environment = {**os.environ, "PYTHONPATH": str(ROOT / "python")}
        run = subprocess.run(command, capture_output=True, text=True, timeout=120, env=environment)
        self.assertEqual(run.returncode, 0, run.stderr)
        shown = (ROOT / "docs" / "SPEED.md").read_text()
        for head in ("| one gate at 64 qubits | time |", "| at 64 qubits | Sukhlent | a tableau in numpy |", "to the C call |"):
            self.assertIn(head, run.stdout)
            self.assertIn(head, shown)

    def test_the_times_of_sessions_are_measured(self):
        command = [sys.executable, "-B", str(ROOT / "python" / "bench" / "sessions.py"), "--quick"]
        environment = {**os.environ, "PYTHONPATH": str(ROOT / "python")}
        run = subprocess.run(command, capture_output=True, text=True, timeout=120, env=environment)
        self.assertEqual(run.returncode, 0, run.stderr)
        shown = (ROOT / "docs" / "SPEED.md").read_text()
        heads = [line.split("|")[1] for line in run.stdout.splitlines() if line.startswith("| ")]
        self.assertEqual(len(heads), 7)
        for head in heads:
            self.assertIn(f"|{head}|", shown)


if __name__ == "__main__":
    unittest.main()
