"""The program examples/c/durable.c: it writes the file of a `Session` byte by byte, goes on with what Python left and the other
way round, judges cut and damaged files alike, and comes back after it was killed."""

import os
import random
import signal
import subprocess
import tempfile
import time
import unittest
import warnings
from contextlib import closing
from pathlib import Path

from sukhlent import Refusal, Session, State
from tests.places import ROOT
from tests.test_sessions import KILLS, MEMORY

INCLUDE, LIBRARY = ROOT / "include", ROOT / "target" / "staticlib" / "libsukhlent.a"
EVERY = 50


def step(number):
    """The step that the program makes, by its number."""
    photon, part = divmod(number, 3)
    here, there = photon % 3, (photon + 1) % 3
    if part == 0:
        return (0, there, 0, 8) if photon < 2 else (6, there, 0, 0)
    bit = photon * 0x9E3779B97F4A7C15 % (1 << 64) >> 63
    return (1, here, there, 0) if part == 1 else (5, here, 0, (0 if photon % 2 else 2) + bit)


def ahead(session, steps):
    """Goes on to so many steps, one by one."""
    for number in range(session.steps, steps):
        session.run([step(number)])


class Durable(unittest.TestCase):
    @classmethod
    def setUpClass(cls):
        cls.room = tempfile.TemporaryDirectory()
        cls.addClassCleanup(cls.room.cleanup)
        cls.program = os.path.join(cls.room.name, "durable")
        words = ["-std=c99", "-pedantic", "-Wall", "-Wextra", "-Werror", "-O1"]
        source = ROOT / "examples" / "c" / "durable.c"
        command = ["cc", *words, "-I", str(INCLUDE), str(source), str(LIBRARY), "-o", cls.program]
        subprocess.run(command, check=True, timeout=120)

    def setUp(self):
        folder = tempfile.TemporaryDirectory(dir=MEMORY)
        self.addCleanup(folder.cleanup)
        self.path, self.other = (os.path.join(folder.name, name) for name in ("run", "other"))

    def run_program(self, path, photons):
        """Its status and its messages."""
        run = subprocess.run([self.program, "run", path, str(photons)], capture_output=True, text=True, timeout=60)
        return run.returncode, run.stderr

    def in_python(self, path, photons, every=EVERY):
        with Session(path, State.zeros(3), every) as session:
            ahead(session, 3 * photons)

    def test_both_write_the_same_bytes(self):
        for photons in (0, 1, 16, 17, 18, 40, 100):
            self.assertEqual(self.run_program(self.path, photons), (0, ""))
            self.in_python(self.other, photons)
            self.assertEqual(Path(self.path).read_bytes(), Path(self.other).read_bytes())

    def test_each_goes_on_with_what_the_other_left(self):
        for photons in range(5, 100, 5):
            if photons % 2:
                self.assertEqual(self.run_program(self.path, photons), (0, ""))
            else:
                self.in_python(self.path, photons)
        self.in_python(self.other, 95)
        self.assertEqual(Path(self.path).read_bytes(), Path(self.other).read_bytes())
        with Session(self.path, every=1000) as session:  # runs, which the program reads and does not write
            for photons in (96, 97, 100):
                session.run([step(number) for number in range(session.steps, 3 * photons)])
        self.assertEqual(self.run_program(self.path, 101), (0, ""))
        self.in_python(self.other, 101, every=1000)
        with Session(self.path) as one, Session(self.other) as two:
            self.assertEqual((one.steps, repr(one.state)), (303, repr(two.state)))

    def test_a_session_that_is_open_is_refused(self):
        with Session(self.path, State.zeros(3)):
            self.assertEqual(self.run_program(self.path, 1), (1, f"{self.path}: the session is open elsewhere\n"))

    def test_the_example_is_run_in_a_folder_below_tmpdir(self):
        with tempfile.TemporaryDirectory() as folder:
            missing = os.path.join(folder, "missing")
            runs = [
                subprocess.run([self.program], env={**os.environ, "TMPDIR": below}, capture_output=True, text=True, timeout=60)
                for below in (folder, missing)
            ]
            self.assertEqual(os.listdir(folder), [])
        due = (ROOT / "examples" / "c" / "durable.out").read_text()
        self.assertEqual((runs[0].returncode, runs[0].stdout, runs[0].stderr), (0, due, ""))
        self.assertEqual((runs[1].returncode, runs[1].stdout), (1, ""))
        self.assertTrue(runs[1].stderr.startswith(os.path.join(missing, "durable.")), runs[1].stderr)

    def judged_alike(self, raw):
        """Both refuse these bytes and change nothing, or both keep the same part of them; which of these."""
        Path(self.path).write_bytes(raw)
        Path(self.other).write_bytes(raw)
        status, said = self.run_program(self.other, 0)
        try:
            with warnings.catch_warnings():
                warnings.simplefilter("ignore")
                with Session(self.path) as session:
                    torn = session.torn
            self.assertEqual((status, said), (0, ""), raw)
            self.assertEqual(Path(self.other).read_bytes(), Path(self.path).read_bytes())
            return "torn" if torn else "sound"
        except Refusal as refusal:
            self.assertEqual((refusal.number, status), (1, 1), (raw, said))
            self.assertEqual(Path(self.other).read_bytes(), raw)
            return "damaged"

    def test_cut_and_damaged_files_are_judged_alike(self):
        with Session(self.path, State.zeros(3)) as session:
            ahead(session, 9)
            session.run([step(number) for number in range(9, 14)])
        raw = Path(self.path).read_bytes()
        last = len(b"\n".join(raw.split(b"\n")[-6:]))
        seen = [self.judged_alike(raw[:cut]) for cut in range(len(raw) - last, len(raw) + 1)]
        self.assertEqual(seen, ["sound"] + ["torn"] * (last - 1) + ["sound"])
        zeros = [self.judged_alike(raw[:cut] + bytes(len(raw) - cut)) for cut in range(len(raw) - last, len(raw), 9)]
        self.assertEqual(set(zeros), {"torn"})
        chance = random.Random(2)
        for _ in range(300):
            at = chance.randrange(len(raw))
            flipped = raw[:at] + bytes([raw[at] ^ 1 << chance.randrange(8)]) + raw[at + 1 :]
            self.assertEqual(self.judged_alike(flipped), "damaged")

    def test_killed_at_random_moments(self):
        chance, answered = random.Random(), 0
        with closing(Session(self.other, State.zeros(3), every=10**9, flush=False)) as whole:
            records = [repr(whole.state)]
            for number in range(3 * 400):
                whole.run([step(number)])
                records.append(repr(whole.state))
        for _ in range(KILLS):
            run = subprocess.Popen([self.program, "run", self.path, "400"], stdout=subprocess.PIPE)
            time.sleep(chance.random() * 0.01)
            run.send_signal(signal.SIGKILL)
            answered += len(run.communicate()[0])
            if not os.path.exists(self.path):
                self.assertEqual(answered, 0)
                continue
            with warnings.catch_warnings():
                warnings.simplefilter("ignore")
                with Session(self.path) as session:
                    self.assertIn(session.steps, (answered, answered + 1))
                    self.assertEqual(repr(session.state), records[session.steps])
                    answered = session.steps
            if answered == 1200:
                os.unlink(self.path)
                answered = 0
        self.assertEqual(self.run_program(self.path, 400), (0, ""))
        with Session(self.path) as session:
            self.assertEqual((session.steps, repr(session.state)), (1200, records[-1]))


if __name__ == "__main__":
    unittest.main()
