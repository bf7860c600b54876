"""Runs over buffers and on many records, joint measurements, and new photons at used places."""

import itertools
import os
import random
import runpy
import subprocess
import threading
import unittest
from array import array
from unittest import mock

from sukhlent import Refusal, State, calls, generate, run_job, run_many
from tests.places import ROOT
from tests.tableau import Tableau
from tests.vectors import Vector

try:
    import numpy
except ImportError:
    numpy = None


def slices(source, n, count):
    """Steps of all kinds as four arrays."""
    return [
        array("B", [source.randrange(7) for _ in range(count)]),
        *(array("H", [source.choice((0, source.randrange(n), source.randrange(24))) for _ in range(count)]) for _ in range(3)),
    ]


def source_steps(source, n, count):
    """Gates H, CZ, observations and renewals in which places are used and renewed, now and then against the rule."""
    used = 0
    for _ in range(count):
        a, b = source.sample(range(n), 2)
        if bool(used >> a & 1) != (source.randrange(20) == 0):
            yield 6, a, 0, 2 * source.randrange(6)
            used &= ~(1 << a)
            continue
        op = source.choice((0, 1, 1, 5, 5))
        yield op, a, b if op == 1 else 0, {0: 8, 1: 0, 5: source.randrange(6)}[op]
        if op == 5:
            used |= 1 << a


def on_tableau(tableau, used, steps):
    """What the steps answer on a tableau: refusal, outcome and determined of each."""
    for op, a, b, value in steps:
        named = 1 << a | (1 << b if op == 1 else 0)
        if op == 6 and not used & named:
            yield 20, 0, 0
        elif op != 6 and used & named:
            yield 16, 0, 0
        elif op == 5:
            used |= named
            yield 0, *tableau.observe(value // 2 + 1, a, value % 2)
        else:
            used &= ~named
            {0: lambda: tableau.h(a), 1: lambda: tableau.cz(a, b), 6: lambda: tableau.renew(a, value)}[op]()
            yield 0, 0, 0


class Sources(unittest.TestCase):
    """Observations and renewals as steps of runs."""

    def test_runs_against_the_tableau(self):
        source, refusals = random.Random(5), set()
        for n in (2, 3, 5, 17, 64):
            for _ in range(4):
                steps = list(source_steps(source, n, 300))
                answers = State.graph(n, []).run(steps)
                self.assertEqual(answers, list(on_tableau(Tableau(n), 0, steps)))
                refusals.update(refusal for refusal, _, _ in answers)
        self.assertEqual(refusals, {0, 16, 20})

    def test_the_example_against_the_tableau(self):
        example = runpy.run_path(str(ROOT / "examples" / "python" / "source.py"))
        bits = example["lot"]()
        steps = [(op, a, b, value + next(bits) if op == 5 else value) for op, a, b, value in example["steps"](1001)]
        due = [answer for (op, *_), answer in zip(steps, on_tableau(Tableau(64), 0, steps)) if op == 5]
        outcomes, determined = example["source"](1001)
        self.assertEqual(list(outcomes), [outcome for _, outcome, _ in due])
        self.assertEqual((determined, sum(known for *_, known in due)), (1, 1))
        self.assertEqual(outcomes[-1], sum(outcomes[:-1:2]) % 2)

    def test_bits_from_a_source_are_those_of_single_calls(self):
        for kind in (random.Random, *([numpy.random.default_rng] if numpy else [])):
            steps = [(0, 0, 0, 8), (1, 0, 1, 0), (5, 0, 0, 4), (6, 0, 0, 8), (5, 1, 0, 0), (6, 1, 0, 2), (5, 1, 0, 0)] * 20
            state, other, bits = State.zeros(2), State.zeros(2), kind(7)
            answers = state.run(steps, source=kind(7))
            for (op, a, b, value), (refusal, outcome, determined) in zip(steps, answers):
                try:
                    if op == 5:
                        found = other.measure("XYZ"[value // 2], a, source=bits)
                        self.assertEqual((refusal, outcome, determined), (0, found.outcome, found.determined))
                    elif op == 6:
                        other.renew(a, {8: "+Z", 2: "-X"}[value])
                    else:
                        other.gate(a, value) if op == 0 else other.cz(a, b)
                except Refusal as refused:
                    self.assertEqual(refusal, refused.number)
            self.assertEqual(state, other)

    def test_bits_from_each_kind_of_source(self):
        steps = [(0, q, 0, 8) for q in range(6)] + [(5, q, 0, 5) for q in range(6)]
        columns = [array("BHHH"[k], column) for k, column in enumerate(zip(*steps))]
        for bits in ([0] * 6, [1] * 6, [0, 1, 1, 0, 1, 0]):
            for answers in (State.zeros(6).run(steps, source=iter(bits)), list(zip(*State.zeros(6).run(*columns, source=iter(bits))))):
                self.assertEqual([outcome for _, outcome, _ in answers[6:]], bits)
        self.assertEqual(list(columns[3]), [8] * 6 + [5] * 6)  # what is lent is not changed
        self.assertEqual([outcome for _, outcome, _ in State.zeros(6).run(steps)[6:]], [1] * 6)
        for given, error in ((iter([0]), ValueError), (iter([2] * 6), ValueError), ([0] * 6, TypeError)):
            with self.assertRaises(error):
                State.zeros(6).run(steps, source=given)


class Runs(unittest.TestCase):
    def test_buffers_give_what_tuples_give(self):
        source = random.Random(1)
        for _ in range(40):
            n = source.choice((1, 3, 64))
            one, given = State.zeros(n), slices(source, n, source.choice((0, 1, 200)))
            others = [one.copy() for _ in range(3)]
            due = one.run(zip(*given))
            kinds = [given, [memoryview(part) for part in given], [memoryview(bytes(part)).cast(part.typecode) for part in given]]
            for other, kind in zip(others, kinds):
                ran = other.run(*kind)
                self.assertEqual((list(zip(*ran)), other), (due, one))
                self.assertIsInstance(ran.refusals, array)

    @unittest.skipUnless(numpy, "numpy is not installed")
    def test_numpy_arrays_come_back(self):
        source = random.Random(2)
        given = slices(source, 4, 100)
        arrays = [numpy.array(part, "u1" if k == 0 else "u2") for k, part in enumerate(given)]
        one, other = State.zeros(4), State.zeros(4)
        ran = one.run(*arrays)
        self.assertEqual((ran.refusals.dtype, ran.refusals.shape), (numpy.uint8, (100,)))
        self.assertEqual([tuple(map(int, row)) for row in zip(*ran)], other.run(zip(*given)))
        many = run_many([State.zeros(4) for _ in range(3)], *(numpy.stack([part] * 3) for part in arrays))
        self.assertEqual(many.outcomes.shape, (3, 100))
        self.assertTrue((many.outcomes == ran.outcomes).all())
        with self.assertRaises(TypeError):
            State.zeros(4).run(numpy.array([0]), *[numpy.array([0])] * 3)

    @unittest.skipIf(numpy, "numpy is here")
    def test_numpy_arrays_by_a_python_that_has_it(self):
        """The machine's own Python may have numpy where this one has none; the extension serves both."""
        other = "/usr/bin/python3"
        asked = subprocess.run([other, "-c", "import numpy"], capture_output=True) if os.path.exists(other) else None
        if asked is None or asked.returncode != 0:
            self.skipTest("no Python here has numpy")
        names = ["tests.test_running.Runs.test_numpy_arrays_come_back", "tests.test_errors.Errors.test_sources_of_bits"]
        environment = {**os.environ, "PYTHONPATH": str(ROOT / "python"), "PYTHONDONTWRITEBYTECODE": "1"}
        run = subprocess.run([other, "-m", "unittest", *names], capture_output=True, text=True, env=environment, timeout=120)
        self.assertEqual(run.returncode, 0, run.stderr)
        self.assertNotIn("skipped", run.stderr)

    def test_many_records_in_one_call_run_as_one_by_one(self):
        source = random.Random(3)
        for threads, count in ((1, 0), (1, 1), (1, 5), (2, 5), (4, 3), (2, 64)):
            states = [run_job(generate(6, 20, k + 1))[0] for k in range(count)]
            singles, own = [state.copy() for state in states], [state.copy() for state in states]
            given = slices(source, 6, 50)
            due = [state.run(*given) for state in singles]
            ran = run_many(states, *given, threads=threads)
            self.assertEqual(states, singles)
            for k in range(3):
                self.assertEqual(list(ran[k]), list(itertools.chain.from_iterable(answer[k] for answer in due)))
            if count:
                rows = [slices(source, 6, 30) for _ in range(count)]
                singles = [state.copy() for state in own]
                due = [state.run(*row) for state, row in zip(singles, rows)]
                flat = [array(kind, b"".join(bytes(row[k]) for row in rows)) for k, kind in enumerate("BHHH")]
                views = [memoryview(part).cast("B").cast(part.typecode, [count, 30]) for part in flat]
                ran = run_many(own, *views, threads=threads)
                self.assertEqual(own, singles)
                self.assertEqual(list(ran.refusals), list(itertools.chain.from_iterable(a.refusals for a in due)))

    def test_other_threads_go_on_meanwhile(self):
        states = [State.zeros(64) for _ in range(400)]
        given = slices(random.Random(4), 64, 4096)
        counted, done = 0, threading.Event()
        worker = threading.Thread(target=lambda: (run_many(states, *given), done.set()))
        worker.start()
        while not done.is_set():
            counted += 1
        worker.join()
        self.assertGreater(counted, 100)  # where the lock is held, the loop gets hardly a turn


class Rows(unittest.TestCase):
    def test_joint_measurements_are_followed_by_a_vector(self):
        source, seen = random.Random(5), set()
        for _ in range(80):
            n = 3
            state, vector = State.zeros(n), Vector(n)
            for _ in range(12):
                word = "".join(source.choice("IXYZ") for _ in range(n))
                sign = source.choice("+-")
                expected = state.expectation(sign + word)
                measured = state.measure_row(sign + word, source=source)
                seen.add((measured.determined, measured.outcome))
                self.assertEqual(measured.determined, expected != 0)
                self.assertEqual(state.expectation(sign + word), 1 - 2 * measured.outcome)
                vector.project(word, measured.outcome ^ (sign == "-"))
                self.assertTrue(vector.agrees(state))
        self.assertEqual(len(seen), 4)

    def test_rows_on_64_qubits(self):
        state = State.graph(64, [(q, (q + 1) % 64) for q in range(64)])
        row = "X" * 32 + "Z" * 32
        first = state.measure_row(row, 1)
        self.assertEqual((first.determined, state.measure_row(row).determined), (False, True))
        self.assertEqual((state.expectation(row), state.used), (-1, 0))
        self.assertEqual(state.measure_row("Z3*Z40", 0).outcome, 0)

    def test_a_source_goes_on(self):
        source, state = random.Random(6), State.zeros(2)
        for step in range(300):
            a, b = step % 2, 1 - step % 2
            state.h(a)
            state.cz(a, b)
            state.measure("X", b, source=source)
            state.renew(b, source.choice(("+X", "-X", "+Y", "-Y", "+Z", "-Z")))
            self.assertEqual(state.used, 0)

    def test_an_outcome_by_lot_is_one_call(self):
        """An observation answers what a measurement with one of the two bits answers, and takes the given one if it may."""
        source, seen = random.Random(7), set()
        for _ in range(200):
            state, bit = run_job(generate(4, 12, source.randrange(1, 1 << 40)))[0], source.randrange(2)
            pauli, qubit = source.choice("XYZ"), source.randrange(4)
            before, other = bytearray(state._block), bytearray(state._block)
            found, due = calls.observe(state._block, pauli, qubit, bit), calls.measure(other, pauli, qubit, bit)
            if due == -14:
                self.assertEqual((found, other), (3 - bit, before))
                due = calls.measure(other, pauli, qubit, 1 - bit)
            self.assertEqual((found, state._block), (due, other))
            seen.add(found)
        self.assertEqual(seen, {0, 1, 2, 3, -16})
        with mock.patch.object(calls, "measure", side_effect=AssertionError):
            self.assertEqual([State.from_strings("-Z").measure("Z", 0, source=k).outcome for k in range(8)], [1] * 8)

    def test_a_new_photon_is_in_the_state_that_is_named(self):
        state = State.zeros(1)
        for letter, sign in itertools.product("XYZ", "+-"):
            state.measure("Z", 0)
            state.renew(0, sign + letter)
            self.assertEqual(state.generators().strings(), [sign + letter])
            with self.assertRaises(Refusal) as refused:
                state.renew(0, sign + letter)
            self.assertEqual((refused.exception.number, state.used), (20, 0))
        block = State([0], [0], 1)._block
        for code in range(26):
            self.assertEqual(calls.renew(bytearray(block), 0, code), 0 if code in (0, 2, 4, 6, 8, 10) else 6)


if __name__ == "__main__":
    unittest.main()
