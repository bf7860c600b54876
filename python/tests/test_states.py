"""States against a plain model: rows of Pauli letters followed by hand."""

import contextlib
import io
import itertools
import random
import tempfile
import unittest
from pathlib import Path

from sukhlent import NAMES, GeneratorList, Refusal, State, Store, code, generate, images, orbit, run_job
from sukhlent.codes import SYMBOLS
from sukhlent.command import main as command
from sukhlent.orbits import edges_of, number_of

#: products of two letters: the power of i and the letter
PRODUCTS = {("X", "Y"): (1, "Z"), ("Y", "Z"): (1, "X"), ("Z", "X"): (1, "Y")}


def times(a, b):
    """The product of two signed rows, each (power of i, letters)."""
    phase, letters = a[0] + b[0], []
    for p, q in zip(a[1], b[1]):
        if p == "I" or q == "I":
            letters.append(q if p == "I" else p)
        elif p == q:
            letters.append("I")
        else:
            turn, letter = PRODUCTS.get((p, q)) or (3, PRODUCTS[q, p][1])
            phase += turn
            letters.append(letter)
    return phase % 4, "".join(letters)


def group(strings):
    """Every element of the group of a list of strings, as strings."""
    n = len(strings)
    rows = [((0 if line[0] == "+" else 2), line[1:]) for line in strings]
    elements = {(0, "I" * n)}
    for row in rows:
        elements |= {times(element, row) for element in elements}
    return {"+-"[phase // 2] + letters for phase, letters in elements}


def send(line, qubit, number):
    """A string sent through a code at one qubit."""
    x, z = images(number)
    row = {"I": (0, "I"), "X": ("+-".index(x[0]) * 2, x[1]), "Z": ("+-".index(z[0]) * 2, z[1])}
    turn, letter = times(row["X"], row["Z"])
    row["Y"] = ((turn + 1) % 4, letter)
    phase, letter = row[line[1 + qubit]]
    sign = ("+-".index(line[0]) * 2 + phase) % 4
    return "+-"[sign // 2] + line[1 : 1 + qubit] + letter + line[2 + qubit :]


class States(unittest.TestCase):
    def test_every_gate_sends_the_group_as_its_images_say(self):
        source = random.Random(1)
        for number in range(24):
            state, _ = run_job(generate(3, 40, source.randrange(1, 1 << 60)).replace("measure", "gate"))
            state = State(state.neighbours, state.codes)
            before = state.generators().strings()
            state.gate(1, NAMES[number])
            self.assertEqual(group(state.generators().strings()), {send(line, 1, number) for line in group(before)})

    def test_cx_of_a_superposition_is_a_bell_pair(self):
        state = State.zeros(2)
        state.h(0)
        state.cx(0, 1)
        self.assertEqual(state, State.from_strings("+XX", "+ZZ"))

    def test_a_refused_cx_changes_nothing(self):
        state = State.zeros(2)
        before = str(state)
        for pair in ((0, 0), (0, 2), (2, 0)):
            with self.assertRaises(Refusal) as refused:
                state.cx(*pair)
            self.assertEqual(refused.exception.number, 8)
            self.assertEqual(str(state), before)
        state.measure("Z", 1, 0)
        before = str(state)
        for pair, number in (((0, 1), 16), ((1, 0), 16), ((2, 1), 8), ((1, 1), 8)):
            with self.assertRaises(Refusal) as refused:
                state.cx(*pair)
            self.assertEqual((refused.exception.number, str(state)), (number, before), pair)

    def test_a_graph_with_no_vertex_or_too_many_is_refused(self):
        for n, edges in ((-1, []), (0, []), (65, []), (70, [(0, 65)])):
            for make in (State.graph, orbit):
                with self.assertRaises(Refusal) as refused:
                    make(n, edges)
                self.assertEqual(refused.exception.number, 2, n)

    def test_a_random_outcome_is_the_state_s_where_there_is_one(self):
        source = random.Random(2)
        seen = set()
        for _ in range(64):
            state = State.from_strings("+XX", "-ZZ")
            first, second = state.measure("Z", 0, source=source), state.measure("Z", 1, source=source)
            self.assertFalse(first.determined)
            self.assertEqual((second.determined, second.outcome), (True, 1 - first.outcome))
            seen.add(first.outcome)
        self.assertEqual(seen, {0, 1})

    def test_a_choice_carries_the_first_group_onto_the_second(self):
        path, star = State.graph(4, [(0, 1), (1, 2), (2, 3)]), State.graph(4, [(0, 1), (0, 2), (0, 3)])
        self.assertIsNone(path.compare(star))
        other = path.copy()
        for vertex, number in enumerate((7, 13, 20, 2)):
            other.gate(vertex, number)
        found = path.compare(other)
        lines = group(path.generators().strings())
        for qubit, number in enumerate(found.choice):
            lines = {send(line, qubit, number) for line in lines}
        self.assertEqual(lines, group(other.generators().strings()))

    def test_states_with_parts_of_more_than_20_vertices(self):
        edges = [(q, q + 1) for q in range(20)]
        path = State.graph(21, edges)
        other = path.copy()
        for vertex in range(21):
            other.gate(vertex, (7 * vertex + 5) % 24)
        with self.assertRaises(Refusal) as refused:
            path.compare(other)
        self.assertEqual(refused.exception.number, 3)
        found = path.equivalent(other)
        for vertex, number in enumerate(found.choice):
            path.gate(vertex, number)
        self.assertEqual(path, other)
        self.assertIsNone(other.equivalent(State.graph(21, edges[:-1])))
        with self.assertRaises(Refusal) as refused:
            path.equivalent(State.zeros(20))
        self.assertEqual(refused.exception.number, 2)

    def test_values_are_those_of_the_group(self):
        source = random.Random(3)
        for _ in range(40):
            state, _ = run_job(generate(3, 30, source.randrange(1, 1 << 60)))
            elements = group(state.generators().strings())
            for letters in map("".join, itertools.product("IXYZ", repeat=3)):
                due = ("+" + letters in elements) - ("-" + letters in elements)
                self.assertEqual([state.expectation(sign + letters) for sign in ("", "+", "-")], [due, due, -due])

    def test_rows_of_another_form_are_refused(self):
        state = State.from_strings("+XX", "+ZZ")
        for row in ("", "+", "X", "XXX", "+xx", "*XX", "++X", "XX\n"):
            with self.assertRaises(Refusal) as refused:
                state.expectation(row)
            self.assertEqual(refused.exception.number, 1, row)

    def test_the_command_prints_values(self):
        with tempfile.TemporaryDirectory() as folder:
            file = Path(folder) / "bell"
            file.write_text("+XX\n+ZZ\n")
            said, refused = io.StringIO(), io.StringIO()
            with contextlib.redirect_stdout(said), contextlib.redirect_stderr(refused):
                statuses = [command(["expectation", str(file), *rows]) for rows in (["+XX", "XI", "--", "-YY"], ["X"])]
        self.assertEqual(statuses, [0, 1])
        self.assertEqual(said.getvalue(), "row value\n+XX 1\nXI 0\n-YY 1\n")
        self.assertEqual(refused.getvalue(), "sukhlent: refused 1: the row X is not a sign and 2 letters I, X, Y or Z\n")

    def test_a_graph_is_refused_by_the_first_fitting_number(self):
        self.assertEqual(State.graph(3, [(0, 1), (1, 0), (1, 2)]).neighbours, (2, 5, 2))
        for edges, number in (([(0, 3)], 5), ([(-1, 0)], 5), ([(1, 1), (0, 3)], 5), ([(0, 1), (2, 2)], 7)):
            with self.assertRaises(Refusal) as refused:
                State.graph(3, edges)
            self.assertEqual(refused.exception.number, number, edges)

    def test_a_gate_has_its_name_in_either_case_and_no_other(self):
        for number, names in enumerate(zip(NAMES, SYMBOLS)):
            spellings = {form for name in names if name for form in (name, name.lower(), name.swapcase())}
            self.assertEqual({code(form) for form in spellings}, {number})
        for name in ("", " H", "H ", "SQRT-X", "√S", "√x_DAG", "SQRT_X†", "ſ", "ı", "T"):
            with self.assertRaises(ValueError) as wrong:
                code(name)
            self.assertNotIsInstance(wrong.exception, Refusal)

    def test_lines_are_taken_one_by_one_and_from_an_iterable(self):
        lines = ["-XZI", "+ZXZ", "+IZY"]
        text = "".join(line + "\n" for line in lines)
        due = GeneratorList.from_text(text)
        with tempfile.TemporaryFile("w+") as file:
            file.write(text)
            file.seek(0)
            for given in (lines, tuple(lines), iter(lines), text.splitlines(True), file):
                self.assertEqual(GeneratorList.from_text(given), due)
        for given in ([text], [lines], lines, [iter(lines)], [line + "\n" for line in lines]):
            self.assertEqual(GeneratorList.from_strings(*given), due)
        self.assertEqual(State.from_strings(lines), State.from_generators(due))

    def test_each_line_is_judged_as_a_line_of_the_text(self):
        for lines, number, where in (
            ([], 2, "0 strings, but a state has 1 to 64 qubits"),
            ([""], 2, "0 strings, but a state has 1 to 64 qubits"),
            (["+XX", "+ZZZ"], 1, "line 2 has 3 letters: expected 2, as many as lines"),
            (["+XX", "+zz"], 1, "line 2, column 2: 'z', where a letter I, X, Y, Z or _ was expected"),
            (["+XX", "+Z\nZ"], 1, "line 2, column 3: a newline, where each string is one line"),
            (["+XX", "", "+ZI"], 9, "lines 1 and 3 do not commute"),
            (["+"], 1, "line 1 has 0 letters: expected 1, as many as lines"),
            (["+XX", "-XX"], 10, "line 2 is a product of those before it, up to its sign"),
        ):
            for make in (GeneratorList.from_text, GeneratorList.from_strings, State.from_strings):
                with self.assertRaises(Refusal) as refused:
                    make(lines)
                self.assertEqual((refused.exception.number, refused.exception.where), (number, where))
        for given, said in ((["+X", 3], "line 2 is no string but of the type int"), (b"+X", "line 1 is no string")):
            with self.assertRaisesRegex(TypeError, said):
                GeneratorList.from_strings(given)

    def test_lists_are_read_and_written(self):
        text = "-XZI\n+ZXZ\n+IZY\n"
        self.assertEqual(str(GeneratorList.from_strings(text)), text)
        self.assertEqual(State.from_strings(text).cut([1]), 1)

    def test_amplitudes_are_fixed_by_the_group(self):
        turns = {"I": (0, 0), "X": (0, 0), "Y": (1, 3), "Z": (0, 2)}
        for seed in range(20):
            state = run_job(generate(4, 12, seed + 1))[0]
            values = [complex(line.re, line.im) for line in map(state.amplitude, range(16))]
            chances = [state.amplitude(y).p for y in range(16)]
            self.assertEqual(sum(chances), 1)
            self.assertEqual(len(set(chances) - {0}), 1)
            self.assertEqual(next(value for value in values if value), 1)
            for element in group(state.generators().strings()):
                sign, letters = (-1 if element[0] == "-" else 1), element[1:]
                flipped = sum(1 << q for q, letter in enumerate(letters) if letter in "XY")
                for y, value in enumerate(values):
                    power = sum(turns[letter][y >> q & 1] for q, letter in enumerate(letters))
                    self.assertEqual(values[y ^ flipped], sign * (1, 1j, -1, -1j)[power % 4] * value)
        with self.assertRaises(Refusal) as refused:
            State.zeros(2).amplitude(4)
        self.assertEqual(refused.exception.number, 5)

    def test_orbits_are_what_complementing_reaches(self):
        for n in range(1, 5):
            for number in range(1 << n * (n - 1) // 2):
                reached, todo = {number}, [number]
                while todo:
                    edges = edges_of(n, todo.pop())
                    for vertex in range(n):
                        state = State.graph(n, edges)
                        state.complement(vertex)
                        other = number_of(n, state.edges())
                        if other not in reached:
                            reached.add(other)
                            todo.append(other)
                found = orbit(n, edges_of(n, number))
                self.assertEqual(found.numbers, sorted(reached))
                self.assertEqual([number_of(n, graph) for graph in found.graphs()], found.numbers)

    def test_the_names_of_a_store_find_their_states(self):
        store, names = Store(), ["pair", "", b"\xff\xfe", b"A\0", "käse", b"12345678"]
        for n, name in enumerate(names, 1):
            store.save(name, State.zeros(n))
        self.assertEqual([store.return_to(name).n for name in store.names()], list(range(1, 7)))
        self.assertEqual(store.return_to("pair    ").n, 1)
        for name in ("ninebytes", "käsekäse"):
            with self.assertRaises(ValueError):
                store.save(name, State.zeros(1))

    def test_the_number_of_a_graph_is_that_of_its_set_of_edges(self):
        self.assertEqual(number_of(3, [(0, 1), (1, 0), (2, 0)]), number_of(3, [(0, 2), (0, 1)]))
        for edges, number in (([(0, 3)], 5), ([(0, -1)], 5), ([(1, 1)], 7)):
            with self.assertRaises(Refusal) as refused:
                number_of(3, edges)
            self.assertEqual(refused.exception.number, number)

    def test_a_number_that_is_no_code_has_no_images(self):
        for number in (-1, 24):
            with self.assertRaises(Refusal) as refused:
                images(number)
            self.assertEqual(refused.exception.number, 6)

    def test_numbers_of_another_type_are_taken_where_they_are_integers(self):
        class Three:
            def __index__(self):
                return 3

        state = State([0] * 4, [Three()] + [8] * 3)
        state.gate(Three(), Three())
        self.assertEqual(state.measure(Three(), Three(), 1).outcome, 1)
        for call in (lambda: state.h(0.0), lambda: state.h("0"), lambda: state.gate(0, 8.0), lambda: state.measure("X", 0, 1.0)):
            with self.assertRaises(TypeError) as wrong:
                call()
            self.assertRegex(str(wrong.exception), r"^(gate|measure)\(.*\): expected .*, not ")

    def test_a_drawing_has_a_line_for_each_edge(self):
        state = State.graph(5, [(q, (q + 1) % 5) for q in range(5)])
        self.assertEqual(state.svg().count("<line"), 5)
        with self.assertRaises(ValueError):
            state.svg([(0, 0)])
