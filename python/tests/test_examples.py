"""States against the simulator of rust/simulator, the examples of document 01, and those in examples/python."""

import contextlib
import io
import itertools
import runpy
import unittest

from sukhlent import GeneratorList, Refusal, Shared, State, generate, number_of, orbit
from tests.places import ROOT
from tests.test_states import group


def circuits():
    """The stored circuits: the steps, the measurement with the probability of its outcome, and the signs."""
    text = (ROOT / "python" / "tests" / "simulated.txt").read_text()
    for circuit in text.split("circuit\n")[1:]:
        *steps, measured, signs = [line.split() for line in circuit.splitlines()]
        yield steps, measured[1:], signs[1]


def signs(state):
    """The signs of all Paulis, in the order of their strings."""
    elements = {line[1:]: line[0] for line in group(state.generators().strings())}
    return "".join(elements.get("".join(letters), "0") for letters in itertools.product("IXYZ", repeat=state.n))


class Simulator(unittest.TestCase):
    def test_circuits_end_as_the_simulator_says(self):
        seen = set()
        for steps, (letter, qubit, outcome, probability), due in circuits():
            state = State.zeros(3)
            for op, *fields in steps:
                if op == "gate":
                    state.gate(int(fields[1]), fields[0])
                else:
                    state.cz(int(fields[0]), int(fields[1]))
            seen.add(probability)
            if probability == "0.0":
                with self.assertRaises(Refusal) as refused:
                    state.measure(letter, int(qubit), int(outcome))
                self.assertEqual(refused.exception.number, 14)
            else:
                measured = state.measure(letter, int(qubit), int(outcome))
                self.assertEqual((measured.outcome, measured.determined), (int(outcome), probability == "1.0"))
            self.assertEqual(signs(state), due)
        self.assertEqual(seen, {"0.0", "0.5", "1.0"})


class Examples(unittest.TestCase):
    """The examples of document 01."""

    def test_bell_states(self):
        self.assertEqual(repr(State.from_strings("+XX", "+ZZ")), "State([2, 1], [0, 8], 0)")
        self.assertEqual(repr(State.from_strings("-XX", "+ZZ")), "State([2, 1], [2, 8], 0)")
        self.assertEqual(repr(State.from_strings("+XX", "-YY")), "State([2, 1], [0, 8], 0)")
        self.assertEqual(State([2, 1], [0, 8]).generators().strings(), ["+XX", "+ZZ"])

    def test_one_qubit(self):
        for text, number in (("+X", 0), ("-X", 2), ("+Y", 4), ("-Y", 6), ("+Z", 8), ("-Z", 10)):
            self.assertEqual(State.from_strings(text).codes, (number,))
            self.assertEqual(State([0], [number]).generators().strings(), [text])

    def test_codes_that_no_reduction_gives(self):
        self.assertEqual(State([0], [12]).generators().strings(), ["+X"])
        self.assertEqual(State([2, 1], [12, 5]).generators().strings(), ["-XZ", "+YY"])
        self.assertEqual(State([2, 1], [13, 6]).generators().strings(), ["+XZ", "+YY"])

    def test_refused_lists(self):
        for lines, number in (
            (("+XI", "+ZI"), 9),
            (("+XX", "+XX"), 10),
            (("+XX", "-XX"), 10),
            (("-II", "+ZZ"), 10),
            (("+XII", "+ZII", "+ZII"), 9),
        ):
            with self.assertRaises(Refusal) as refused:
                State.from_strings(*lines)
            self.assertEqual(refused.exception.number, number)

    def test_numbers_that_no_word_or_byte_holds(self):
        state = State.zeros(2)
        for number, call in (
            (8, lambda: state.h(-1)),
            (8, lambda: state.cz(0, 1 << 64)),
            (6, lambda: state.gate(0, 256)),
            (6, lambda: state.measure("Z", 0, 256)),
            (6, lambda: state.measure("T", 0, 0)),
            (5, lambda: state.cut([64])),
            (5, lambda: State.graph(2, [(0, 2)])),
            (6, lambda: State([0], [24])),
            (2, lambda: generate(1 << 64, 1, 1)),
            (15, lambda: generate(2, -1, 1)),
        ):
            with self.assertRaises(Refusal) as refused:
                call()
            self.assertEqual(refused.exception.number, number)
        for seed in (-1, 1 << 64):
            with self.assertRaises(OverflowError):
                generate(2, 1, seed)
        self.assertEqual(state, State.zeros(2))

    def test_words_that_no_word_holds_are_refused_by_5_after_2_and_4(self):
        def lists(n, word):
            short, whole = GeneratorList((0,) * n, (word,), (0,) * n), GeneratorList((0,) * n, (word,) * n, (0,) * n)
            for given in (whole, short):
                yield from (given.check, lambda: given.product(0), given.strings, lambda: State.from_generators(given))

        due = {1: [5, 5], 2: [5, 4], 64: [5, 4], 65: [2, 2]}
        for word in (1 << 64, (1 << 64) + 1, -1, 1 << 999):
            for n, (whole, short) in due.items():
                self.assertEqual([self.number_of(call) for call in lists(n, word)], [whole] * 4 + [short] * 4, (n, word))
            for n in (1, 64):
                rows = GeneratorList((0,) * n, (0,) * n, (0,) * n)
                for number, call in (
                    (5, lambda: State([0] * n, [0] * n, word)),
                    (5, lambda: State([0] * (n - 1) + [word], [99] * n)),
                    (4, lambda: State([0] * n + [word], [0] * n)),
                    (2, lambda: State([word], [])),
                    (5, lambda: State.zeros(n).amplitude(word)),
                    (5, lambda: State.zeros(n).cut([0, word])),
                    (5, lambda: rows.product(word)),
                    (4, lambda: GeneratorList((0,) * n, (0,) * n, (0,) * (n + 1)).product(word)),
                    (5, lambda: Shared([word])),
                ):
                    self.assertEqual(self.number_of(call), number, (n, word))

    def number_of(self, call):
        """The number of the refusal that a call raises."""
        with self.assertRaises(Refusal) as refused:
            call()
        return refused.exception.number


class Programs(unittest.TestCase):
    """The programs in examples/python: each prints what is stored beside it, and docs/RECIPES.md or another document shows
    each."""

    def test_each_prints_its_stored_output(self):
        folder = ROOT / "examples" / "python"
        seen = 0
        for program in sorted(folder.glob("*.py")):
            stored = program.with_suffix(".out")
            if program.name == "first.py":  # README shows it
                continue
            with self.subTest(program=program.name):
                said = io.StringIO()
                with contextlib.redirect_stdout(said):
                    runpy.run_path(str(program), run_name="__main__")
                self.assertEqual(said.getvalue(), stored.read_text())
                seen += 1
        self.assertGreaterEqual(seen, 9)

    def test_each_is_shown_in_a_document(self):
        shown = "".join(path.read_text() for path in (ROOT / "README.md", *(ROOT / "docs").glob("*.md")))
        for program in sorted((ROOT / "examples" / "python").glob("*.py")):
            self.assertIn(f"```python examples/python/{program.name}\n", shown)

    def test_the_classes_of_six_are_all_and_apart(self):
        with contextlib.redirect_stdout(io.StringIO()):
            classes = runpy.run_path(str(ROOT / "examples" / "python" / "classes.py"))["CLASSES"]
        self.assertEqual(len(classes), 11)
        seen = set()
        for edges in classes.values():
            own = set()
            for order in itertools.permutations(range(6)):
                moved = [(order[a], order[b]) for a, b in edges]
                if number_of(6, moved) not in own:
                    own.update(orbit(6, moved).numbers)
            self.assertFalse(own & seen)
            seen |= own
        self.assertEqual(len(seen), 26704)  # connected graphs on six numbered vertices
