"""The extension and ctypes answer alike, call by call, on sound and on damaged arguments."""

import os
import random
import shutil
import sys
import sysconfig
import unittest
from array import array
from pathlib import Path

from sukhlent import State, blocks, by_ctypes, calls, generate, run_job


def drawn(source):
    """A block of a state with used qubits."""
    n = source.choice((1, 2, 5, 33, 64))
    state, _ = run_job(generate(n, source.randrange(1, 90), source.randrange(1, 1 << 40)))
    left = [q for q in range(n) if not state.used >> q & 1]
    if left and source.random() < 0.3:
        state.complement(source.choice(left))
    return state._block


def arguments(source, n):
    """A call by name, and its arguments behind the block."""
    place = lambda: source.choice((source.randrange(n), source.randrange(n), n, -1, 1 << 70, True))
    word = lambda: source.choice((source.getrandbits(n), 1 << 63, source.getrandbits(64)))
    gate = lambda: source.choice((source.randrange(24), "H", "s_dag", "√X", 24, 300, -1))
    pauli = lambda: source.choice(("X", "y", 3, 0, 7, "T"))
    bit = lambda: source.choice((0, 1, 1, 2, 256))
    photon = lambda: source.choice((2 * source.randrange(6), source.randrange(24), "H", 300, -1))
    group = (source.getrandbits(64), source.choice((0, 1, 2)))
    return source.choice(
        [
            ("gate", place(), gate()), ("cz", place(), place()), ("cx", place(), place()),
            ("measure", pauli(), place(), bit()), ("observe", pauli(), place(), bit()), ("renew", place(), photon()),
            ("measure_row", word(), word(), bit()), ("complement", place()), ("cut", word()),
            ("expectation", word(), word()), ("reduce",), ("group_gate", *group, place(), gate()),
            ("group_cz", *group, place(), place()), ("group_measure", *group, pauli(), place(), bit()),
            ("group_complement", *group, place()),
        ]
    )  # fmt: skip


#: the calls with an answer of their own
ANSWERING = ("measure", "observe", "measure_row", "cut", "expectation", "group_measure")


@unittest.skipUnless(calls.TAKEN == "extension", "the extension is not built for this Python")
class Alike(unittest.TestCase):
    def test_each_call(self):
        source, seen, numbers, one = random.Random(8), set(), set(), None
        for _ in range(3000):
            one = drawn(source) if source.random() < 0.05 or not seen else one
            name, *given = arguments(source, blocks.size(one))
            other = bytearray(one)
            answer = getattr(calls, name)(one, *given)
            self.assertEqual((answer, one), (getattr(by_ctypes, name)(other, *given), other), (name, given))
            seen.add((name, answer == 0 or answer > 0 and name in ANSWERING))
            numbers.add(-answer if name in ANSWERING else answer)
        self.assertGreater(len(seen), 24)
        self.assertLessEqual({0, 5, 6, 8, 16, 19, 20}, numbers)

    def test_equality(self):
        source = random.Random(9)
        seen = set()
        for _ in range(200):
            one = drawn(source)
            other = bytearray(one) if source.random() < 0.6 else drawn(source)
            calls.complement(other, source.randrange(blocks.size(other)))
            seen.add(calls.same(one, other))
            self.assertEqual(calls.same(one, other), by_ctypes.same(one, other))
        self.assertEqual(seen, {True, False})

    def test_runs_over_buffers(self):
        source = random.Random(10)
        for _ in range(60):
            one = drawn(source)
            n, length = blocks.size(one), source.choice((0, 1, 7, 300, 4096, 4097))
            slices = [
                array("B", [source.randrange(5 + (source.random() < 0.0005)) for _ in range(length)]),
                *(array("H", [source.choice((0, source.randrange(n), 29)) for _ in range(length)]) for _ in range(3)),
            ]
            if source.random() < 0.2:
                slices[source.randrange(4)].append(0)
            other = bytearray(one)
            answers, others = ([array("B", bytes(length)) for _ in range(3)] for _ in range(2))
            self.assertEqual(calls.run(one, *slices, *answers), by_ctypes.run(other, *slices, *others))
            self.assertEqual((one, answers), (other, others))

    def test_wrong_arguments_are_told_alike(self):
        for name, given in (
            ("gate", ("H", 0)), ("gate", (0, 1.5)), ("gate", (0, "T")), ("cz", (0, None)), ("measure", ("X", "Z", 0)),
            ("measure", ("X", 0, 0.5)), ("measure", (None, 0, 0)), ("complement", ([0],)), ("observe", ("X", "Z", 0)),
            ("measure_row", (0, 0, 0.5)), ("observe", ("X", 0, 0.5)), ("observe", (None, 0, 0)), ("renew", ("H", 0)), ("renew", (0, "T")),
        ):  # fmt: skip
            said = []
            for module in (calls, by_ctypes):
                with self.assertRaises((TypeError, ValueError)) as wrong:
                    getattr(module, name)(State.zeros(2)._block, *given)
                said.append((type(wrong.exception), str(wrong.exception)))
            self.assertEqual(said[0], said[1])

    def test_wrong_buffers_are_told_alike(self):
        good = [array("B", [0]), *(array("H", [0]) for _ in range(3)), *(array("B", [0]) for _ in range(3))]
        for place, wrong in enumerate((array("H", [0]), array("B", [0]), array("l", [0]), [0], b"\0", array("h", [0]))):
            said = []
            for module in (calls, by_ctypes):
                with self.assertRaises((TypeError, BufferError)) as error:
                    module.run(State.zeros(2)._block, *good[:place], wrong, *good[place + 1 :])
                said.append(str(error.exception) if place in (0, 1, 2, 5) else "")
            self.assertEqual(said[0], said[1])


    def test_a_buffer_at_an_odd_address_is_refused(self):
        odd = memoryview(bytearray(9))[1:].cast("H")
        good = [array("B", [0] * 4), *(array("H", [0] * 4) for _ in range(3)), *(array("B", [0] * 4) for _ in range(3))]
        for module in (calls, by_ctypes):
            for place in (1, 2, 3):
                with self.assertRaisesRegex(BufferError, "does not begin at an address for numbers of 16 bits"):
                    module.run(State.zeros(2)._block, *good[:place], odd, *good[place + 1 :])


class Blocks(unittest.TestCase):
    def test_the_extension_is_taken_where_it_can_be_built(self):
        header = Path(sysconfig.get_paths()["include"]) / "Python.h"
        if os.environ.get("SUKHLENT_CALLS") or sys.version_info < (3, 11) or not header.is_file() or not shutil.which("cc"):
            self.skipTest("ctypes is asked for, or there is no compiler with Python.h")
        self.assertEqual(calls.TAKEN, "extension")

    def test_what_is_no_block_is_refused(self):
        for wrong in (bytearray(7), bytearray(18), bytearray(9 * 65 + 8), bytearray(8)):
            if calls.TAKEN == "extension":
                with self.assertRaises(ValueError):
                    calls.gate(wrong, 0, 0)


if __name__ == "__main__":
    unittest.main()
