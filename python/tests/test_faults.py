"""What a newcomer ran into: copies, pickles, equality, pictures and the command, each as it must be."""

import copy
import multiprocessing
import os
import pickle
import shutil
import signal
import subprocess
import sys
import tempfile
import time
import unittest
from pathlib import Path
from unittest import mock

from sukhlent import Refusal, Shared, State, Store, plot_svg, read_record, table_of
from tests.places import ROOT


def outcome_of(state):
    """Measured in another process."""
    return state.measure("Z", 0).outcome


def measured(letter="Z", qubit=0, bit=1):
    """A Bell pair of which one half is measured."""
    state = State.from_strings("+XX", "+ZZ")
    state.measure(letter, qubit, bit)
    return state


class Copies(unittest.TestCase):
    def test_a_copy_shares_nothing(self):
        for copied in (copy.copy, copy.deepcopy, State.copy):
            state = State.from_strings("+XX", "+ZZ")
            other = copied(state)
            other.measure("Z", 0, 1)
            self.assertEqual((state.codes, state.neighbours, state.used), ((0, 8), (2, 1), 0))
            self.assertEqual(other.used, 1)

    def test_a_copied_store_shares_nothing(self):
        for copied in (copy.copy, copy.deepcopy):
            store = Store()
            store.save("a", State.zeros(1))
            other = copied(store)
            other.save("b", State.zeros(2))
            other.forget("a")
            self.assertEqual((store.names(), other.names()), (["a"], ["b"]))

    def test_copied_groups_share_nothing(self):
        for copied in (copy.copy, copy.deepcopy):
            shared = Shared(range(32, 64))
            other = copied(shared)
            other.group(0).measure("X", 0, 1)
            other.group(1).save("mark")
            self.assertEqual((shared.state().used, shared.group(1).names()), (0, []))
            self.assertEqual((other.state().used, other.group(1).names()), (1, ["mark"]))

    def test_pickles_hold_everything(self):
        state = measured()
        for protocol in range(pickle.HIGHEST_PROTOCOL + 1):
            again = pickle.loads(pickle.dumps(state, protocol))
            self.assertEqual((again.codes, again.neighbours, again.used), (state.codes, state.neighbours, state.used))
        store = Store()
        store.save("pair", state)
        self.assertEqual(pickle.loads(pickle.dumps(store)).return_to("pair").codes, state.codes)
        shared = Shared([1])
        shared.group(1).h(1)
        shared.group(1).save("plus")
        again = pickle.loads(pickle.dumps(shared))
        self.assertEqual((again.word, again.state(), again.group(1).names()), (2, shared.state(), ["plus"]))

    def test_a_pickle_that_was_damaged_is_judged(self):
        kept = pickle.dumps(State.graph(2, [(0, 1)]))
        self.assertEqual(kept.count(b"\x02\0\0\0\0\0\0\0\x01\0"), 1)
        with self.assertRaises(Refusal):
            pickle.loads(kept.replace(b"\x02\0\0\0\0\0\0\0\x01\0", b"\x02\0\0\0\0\0\0\0\x02\0"))

    def test_a_refusal_can_be_pickled(self):
        with self.assertRaises(Refusal) as refused:
            State.zeros(1).h(1)
        again = pickle.loads(pickle.dumps(refused.exception))
        self.assertEqual((again.number, again.name, str(again)), (8, "QUBIT", str(refused.exception)))

    def test_other_processes_take_states(self):
        with multiprocessing.get_context("spawn").Pool(1) as pool:
            self.assertEqual(pool.map(outcome_of, [State.zeros(1), State.from_strings("-Z")]), [0, 1])


class Equality(unittest.TestCase):
    def test_equal_states_have_the_same_used_qubits(self):
        state, other = measured(), State.from_strings("-ZI", "-IZ")
        self.assertNotEqual(state, other)
        other.measure("Z", 0, 1)
        self.assertEqual(state, other)
        other.measure("Z", 1, 1)
        self.assertNotEqual(state, other)
        self.assertNotEqual(State.zeros(1), State.zeros(2))
        self.assertNotEqual(State.zeros(1), "a state")

    def test_a_reduced_state_keeps_its_used_qubits(self):
        state = State.graph(4, [(0, 1), (1, 2), (2, 3)])
        state.measure("Z", 0, 1)
        state.complement(2)
        self.assertEqual((state.reduced().used, state.reduced()), (1, state))
        self.assertTrue(set(state.reduced().codes) <= {0, 2, 4, 6, 8, 10})

    def test_what_str_prints_is_read_again(self):
        state = measured("Y", 1, 0)
        for text in (str(state), str(state) + "\n"):
            self.assertEqual(repr(read_record(text)), repr(state))


class Pictures(unittest.TestCase):
    def setUp(self):
        folder = tempfile.TemporaryDirectory()
        self.addCleanup(folder.cleanup)
        self.folder = Path(folder.name)

    def test_a_picture_is_of_the_kind_that_its_name_says(self):
        for name, begins in (("x.svg", b"<svg"), ("x.png", b"\x89PNG"), ("x.pdf", b"%PDF")):
            if name != "x.svg" and not shutil.which("rsvg-convert"):
                continue
            State.zeros(2).draw(self.folder / name)
            self.assertTrue((self.folder / name).read_bytes().startswith(begins), name)
        with self.assertRaisesRegex(ValueError, "x.gif: a picture is written as .svg, .png or .pdf"):
            State.zeros(2).draw(self.folder / "x.gif")

    def test_without_a_converter_the_error_says_what_to_install(self):
        with mock.patch.dict(os.environ, {"PATH": str(self.folder)}):
            with self.assertRaisesRegex(OSError, "install rsvg-convert .*librsvg2-bin"):
                State.zeros(2).draw(self.folder / "x.png")
        self.assertFalse((self.folder / "x.png").exists())

    def test_a_picture_has_no_style_that_others_of_its_page_get(self):
        state = measured()
        for svg in (state.svg(), Shared([1]).svg(), plot_svg(table_of(State.zeros(2)))):
            self.assertNotIn("<style", svg)
            self.assertIn("max-width:100%", svg.splitlines()[0])


class Handles(unittest.TestCase):
    def test_a_group_has_the_calls_of_a_state(self):
        lower, upper = Shared(range(32, 64)).groups()
        state = State.zeros(64)
        for one in (lower, state):
            one.h(0)
            one.cx(0, 1)
            for gate in ("x", "y", "z", "s"):
                getattr(one, gate)(1)
        self.assertEqual(lower.state(), state)
        self.assertEqual(lower.expectation("Z0*Z1"), state.expectation("Z0*Z1"))
        self.assertEqual(lower.cut([0]), 1)
        steps = [(0, 2, 0, 8), (1, 1, 2, 0), (2, 2, 0, 0), (3, 1, 0, 0), (4, 0, 1, 0), (0, 2, 0, 8), (7 % 5, 0, 0, 9)]
        self.assertEqual(lower.run(steps), state.run(steps))
        self.assertEqual(lower.state(), state)
        for call in (lambda: upper.cx(40, 0), lambda: upper.x(0), lambda: upper.expectation("Z0"), lambda: upper.cut([0])):
            with self.assertRaises(Refusal) as refused:
                call()
            self.assertEqual(refused.exception.number, 19)
        self.assertEqual(upper.run([(0, 0, 0, 1), (4, 0, 1, 0)]), [(19, 0, 0), (19, 0, 0)])
        before = repr(lower.state())
        with self.assertRaises(Refusal):
            lower.cx(0, 2)
        self.assertEqual(repr(lower.state()), before)


class Command(unittest.TestCase):
    """The command ends with a line and a status where it cannot go on."""

    def start(self, *arguments, python=sys.executable, **more):
        environment = {**os.environ, "PYTHONPATH": str(ROOT / "python"), "PYTHONDONTWRITEBYTECODE": "1", **more.pop("env", {})}
        pipes = dict(stdin=subprocess.PIPE, stdout=subprocess.PIPE, stderr=subprocess.PIPE, text=True)
        return subprocess.Popen([python, "-m", "sukhlent", *arguments], env=environment, **{**pipes, **more})

    def test_an_interrupt(self):
        for wait in (0, 1.0):  # while the package is loaded, and while the command waits for its text
            with self.start("reduce") as process:
                end = time.monotonic() + 60
                while "libsukhlent" not in Path(f"/proc/{process.pid}/maps").read_text() and time.monotonic() < end:
                    time.sleep(0.01)
                time.sleep(wait)
                process.send_signal(signal.SIGINT)
                out, err = process.communicate(timeout=60)
            self.assertEqual((process.returncode, out, err), (130, "", "sukhlent: interrupted\n"))

    def test_a_full_disk(self):
        for arguments in (["draw"], ["reduce"], ["draw", "-o", "/dev/full"]):
            with open("/dev/full", "w") as full:
                with self.start(*arguments, stdout=full) as process:
                    _, err = process.communicate("+XX\n+ZZ\n", timeout=60)
            self.assertEqual(process.returncode, 2, arguments)
            self.assertRegex(err, r"^sukhlent: (standard output|/dev/full): No space left on device\n$")

    def test_a_missing_library(self):
        with self.start("--version", env={"SUKHLENT_LIBRARY": "/none/libsukhlent.so"}) as process:
            out, err = process.communicate(timeout=60)
        self.assertEqual((process.returncode, out), (2, ""))
        self.assertRegex(err, r"^sukhlent: libsukhlent.so was not found\.")
        self.assertNotIn("Traceback", err)
        run = subprocess.run(
            [sys.executable, "-c", "import sukhlent"], capture_output=True, text=True, timeout=60,
            env={**os.environ, "PYTHONPATH": str(ROOT / "python"), "SUKHLENT_LIBRARY": "/none/libsukhlent.so"},
        )  # fmt: skip
        self.assertIn("ImportError: libsukhlent.so was not found.", run.stderr)

    def test_a_library_that_is_none(self):
        with tempfile.NamedTemporaryFile(suffix=".so") as file:
            with self.start("--version", env={"SUKHLENT_LIBRARY": file.name}) as process:
                _, err = process.communicate(timeout=60)
        self.assertEqual(process.returncode, 2)
        self.assertRegex(err, r"^sukhlent: .* is no library that this Python can load")

    def test_an_old_python(self):
        code = "import sys; sys.version_info = (3, 8, 18); sys.argv = ['-m']; import sukhlent"
        environment = {**os.environ, "PYTHONPATH": str(ROOT / "python")}
        environment.pop("PYTHONSTARTUP", None)
        run = subprocess.run([sys.executable, "-c", code, "sukhlent"], capture_output=True, text=True, env=environment)
        self.assertEqual((run.returncode, run.stdout), (2, ""))
        self.assertEqual(run.stderr, "sukhlent: this needs Python 3.9 or later, and is run by Python 3.8\n")
        old = shutil.which("python3.8")
        works = old and subprocess.run([old, "--version"], capture_output=True).returncode == 0
        if works:
            with self.start("--version", python=old) as process:
                out, err = process.communicate(timeout=60)
            self.assertEqual((process.returncode, out, err), (2, "", run.stderr))


if __name__ == "__main__":
    unittest.main()
