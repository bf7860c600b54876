"""Errors name the argument, what it was and what it may be; the number and the name of a refusal stay on it."""

import random
import unittest
from array import array

from sukhlent import Refusal, Shared, State, Store, edges_of, generate, images, orbit, run_many, run_step, run_steps

GRAPH = State.graph(3, [(0, 1), (1, 2)])


class Errors(unittest.TestCase):
    def test_refusals_name_the_argument(self):
        used = State.zeros(2)
        used.measure("Z", 1, 0)
        lower = Shared(range(32, 64)).group(0)
        for call, number, name, said in (
            (lambda: State.graph(3, [(0, 3)]), 5, "STRAY", "the edge (0, 3): qubit 3, but the state has qubits 0 to 2"),
            (lambda: State.graph(3, [(1, 1)]), 7, "GRAPH", "the edge (1, 1) joins a vertex to itself"),
            (lambda: State.graph(65, []), 2, "COUNT", "65 qubits, but a state has 1 to 64"),
            (lambda: State.zeros(0), 2, "COUNT", "0 qubits, but a state has 1 to 64"),
            (lambda: GRAPH.h(3), 8, "QUBIT", "qubit 3, but the state has qubits 0 to 2"),
            (lambda: State.zeros(1).h(-1), 8, "QUBIT", "qubit -1, but the state has qubit 0 alone"),
            (lambda: GRAPH.cz(1, 1), 8, "QUBIT", "cz names qubit 1 twice"),
            (lambda: GRAPH.cx(0, 7), 8, "QUBIT", "qubit 7, but the state has qubits 0 to 2"),
            (lambda: GRAPH.gate(0, 24), 6, "VALUE", "the code 24, but codes are 0 to 23"),
            (lambda: GRAPH.measure("Z", 0, 2), 6, "VALUE", "the outcome 2, but an outcome is 0, or 1 for minus"),
            (lambda: GRAPH.measure("I", 0, 0), 6, "VALUE", "the Pauli is the text 'I', but a measurement is of X, Y or Z (or 1, 2, 3)"),
            (lambda: used.measure("Z", 0, 1), 14, "CONTRADICTED", "Z at qubit 0 has the outcome 0 in this state, not 1"),
            (lambda: used.h(1), 16, "USED", "qubit 1 is used: it was measured, and only expectation, cut and renew may name it"),
            (lambda: used.cz(0, 1), 16, "USED", "qubit 1 is used: it was measured, and only expectation, cut and renew may name it"),
            (lambda: used.renew(0), 20, "NOT_USED", "qubit 0 is not used, so that no new photon can take its place"),
            (lambda: used.measure_row("ZZ"), 16, "USED", "qubit 1 is used: it was measured, and only expectation, cut and renew may name it"),
            (lambda: used.measure_row("ZI", 1), 14, "CONTRADICTED", "Z0 has the outcome 0 in this state, not 1"),
            (lambda: GRAPH.cut([0, 5]), 5, "STRAY", "qubit 5, but the state has qubits 0 to 2"),
            (lambda: GRAPH.amplitude(8), 5, "STRAY", "the word 8 has a bit for a qubit that is not there: the state has qubits 0 to 2"),
            (lambda: GRAPH.expectation("XX"), 1, "FORM", "the row XX is not a sign and 3 letters I, X, Y or Z"),
            (lambda: GRAPH.expectation("X\u2212X"), 1, "FORM", "the row X\u2212X is not a sign and 3 letters I, X, Y or Z: '\u2212' (U+2212)"),
            (lambda: GRAPH.expectation("X0*X3"), 1, "FORM", "the row X0*X3 names qubit 3, but the state has qubits 0 to 2"),
            (lambda: GRAPH.compare(State.zeros(2)), 2, "COUNT", "compare(other): the other state has 2 qubits, this one 3"),
            (lambda: State([2, 0], [0, 0]), 7, "GRAPH", "vertex 0 has the neighbour 1, but not 1 the neighbour 0"),
            (lambda: State([4, 0], [0, 0]), 5, "STRAY", "vertex 0 has the neighbour 2, but the state has qubits 0 to 1"),
            (lambda: State([0, 0], [0, 24]), 6, "VALUE", "the code 24 at qubit 1, but codes are 0 to 23"),
            (lambda: State([0], [0, 0]), 4, "LENGTH", "1 neighbour words, but 2 codes"),
            (lambda: State([0, 0], [0, 1], 2), 7, "GRAPH", "qubit 1 is used and has the code 1, which no measurement leaves"),
            (lambda: State.from_strings("+XX", "+ZI"), 9, "ANTICOMMUTE", "lines 1 and 2 do not commute"),
            (lambda: State.from_strings("\u2212X"), 1, "FORM", "line 1, column 1: '\u2212' (U+2212), where a sign (+ or -) or a letter I, X, Y, Z or _ was expected"),
            (lambda: State.from_strings("+X\ufeff"), 1, "FORM", "line 1, column 3: U+FEFF, a byte order mark, where a letter I, X, Y, Z or _ was expected"),
            (lambda: State.from_strings("XX", "-XX"), 10, "DEPENDENT", "line 2 is a product of those before it, up to its sign"),
            (lambda: State.graph(3, [], ["H"]), 4, "LENGTH", "1 gates, but 3 qubits"),
            (lambda: images(24), 6, "VALUE", "the code 24, but codes are 0 to 23"),
            (lambda: generate(3, 5, 0), 6, "VALUE", "the seed 0"),
            (lambda: generate(3, 5000, 1), 15, "STEPS", "5000 steps, but a job has at most 4,096"),
            (lambda: GRAPH.expectation(""), 1, "FORM", "the row '' is not a sign and 3 letters I, X, Y or Z"),
            (lambda: Store().return_to("x"), 17, "NOT_HELD", "nothing is held under 'x'; held: nothing"),
            (lambda: lower.h(40), 19, "OTHER_GROUP", "qubit 40 belongs to group 1, and this is group 0"),
            (lambda: lower.h(64), 8, "QUBIT", "qubit 64, but the state has qubits 0 to 63"),
            (lambda: orbit(7, []), 2, "COUNT", "7 vertices, but an orbit has 1 to 6"),
            (lambda: GRAPH.run([(9, 0, 0, 0)]), 6, "VALUE", "step 0 has the operation 9, but operations are 0 to 6"),
            (lambda: GRAPH.run([(0, 0, 0, 0)] * 4097), 15, "STEPS", "4097 steps, but a run has at most 4,096"),
            (lambda: State.graph(40, []) @ State.graph(30, []), 2, "COUNT", "40 + 30 qubits, but a state has 1 to 64"),
            (lambda: State.zeros(9).equivalent(State.zeros(9), renumbered=True), 2, "COUNT", "9 qubits, but equivalence with renumbering is for at most 8"),
        ):
            before = repr(GRAPH), repr(used)
            with self.assertRaises(Refusal) as refused:
                call()
            found = refused.exception
            self.assertEqual((found.number, found.name, found.where), (number, name, said))
            self.assertEqual(str(found), f"refused {number}: {said}")
            self.assertEqual((repr(GRAPH), repr(used)), before)

    def test_arguments_of_another_type_or_in_another_order_say_what_was_expected(self):
        for call, said in (
            (lambda: GRAPH.gate("H", 0), "gate(qubit, gate): expected a qubit number, not the text 'H'"),
            (lambda: GRAPH.measure(0, "Z"), "measure(pauli, qubit, outcome): expected a qubit number, not the text 'Z'"),
            (lambda: GRAPH.cut("01"), "cut(qubits): expected qubit numbers, as [0, 1], not the text '01'"),
            (lambda: GRAPH.cut(3), "cut(qubits): expected qubit numbers, as [0, 1], not 3 (int)"),
            (lambda: GRAPH.cut([0.5]), "cut(qubits): expected a qubit number, not 0.5 (float)"),
            (lambda: GRAPH.compare("x"), "compare(other): expected a State, not the text 'x'"),
            (lambda: GRAPH.equivalent(None), "equivalent(other): expected a State, not None"),
            (lambda: GRAPH.cz(0, 1.0), "cz(a, b): expected a qubit number, not 1.0 (float)"),
            (lambda: GRAPH.cx("0", 1), "cx(control, target): expected a qubit number, not the text '0'"),
            (lambda: GRAPH.complement(None), "complement(vertex): expected a qubit number, not None"),
            (lambda: GRAPH.measure("X", 0, "1"), "measure(pauli, qubit, outcome): expected an outcome, 0 or 1, not the text '1'"),
            (lambda: State(3, 3), "State(neighbours, codes, used): expected a list of neighbour words, not 3 (int)"),
            (lambda: GRAPH.run(3), "run(steps): expected a list of steps, four numbers each, not 3 (int)"),
            (lambda: GRAPH.run([1]), "run(steps): step 0 is 1 (int), where an operation, two qubits and a value are taken"),
            (lambda: GRAPH.svg(5), "a layout is circle, line, rows and columns, or a place for each vertex, not 5 (int)"),
            (lambda: run_many(GRAPH, *[array("B", [0])] * 4), "run_many(states, ..): expected a list of states, not State([2, 5, 2], [0, 0, 0], 0) (State)"),
            (lambda: run_many([3], *[array("B", [0])] * 4), "run_many(states, ..): expected a State, not 3 (int)"),
            (lambda: State.lattice("a", 3), "expected a number of rows, not the text 'a'"),
            (lambda: run_step(GRAPH, "h 0"), "run_step(state, step): expected a Step, not the text 'h 0'"),
            (lambda: run_steps(GRAPH, [(0, 0, 0, 8)]), "run_steps(state, steps): expected a Step, not (0, 0, 0, 8) (tuple)"),
            (lambda: GRAPH.measure("X", 0, source="lot"), "source: expected a seed, random.Random, numpy's Generator or an iterator of bits, not the text 'lot'"),
            (lambda: GRAPH.expectation(3), "expected a row such as '+XZI', not 3 (int)"),
            (lambda: State.graph(3, [0, 1]), "expected an edge as two qubit numbers, as (0, 1), not 0 (int)"),
            (lambda: State.graph(3, ["01"]), "expected an edge as two qubit numbers, as (0, 1), not the text '01'"),
            (lambda: State.zeros("3"), "expected a number of qubits, not the text '3'"),
            (lambda: Store().save("x", 3), "save(name, state): expected a State, not 3 (int)"),
            (lambda: Store().save(3, GRAPH), "expected a name as text or bytes, not 3 (int)"),
            (lambda: GRAPH.run(array("B", [0]), [0], [0], [0]), "run(ops, a, b, value): a is [0] (list), and no buffer of numbers"),
            (lambda: run_many([GRAPH], array("l", [0]), *[array("H", [0])] * 3), "ops holds items of the format 'l', where numbers of 8 bits without a sign are taken: 'B' (array('B'), numpy.uint8)"),
        ):
            with self.assertRaises(TypeError) as wrong:
                call()
            self.assertEqual(str(wrong.exception), said)

    def test_other_wrong_values(self):
        for call, said in (
            (lambda: GRAPH.gate(0, "T"), "no local Clifford is called 'T'; the names are I, X, "),
            (lambda: GRAPH.run([(1, 2, 3)]), r"run\(steps\): step 0 is \(1, 2, 3\) \(tuple\), where an operation"),
            (lambda: edges_of(3, 99), "a graph on 3 vertices has a number below 8, not 99"),
            (lambda: GRAPH.permute([0, 1]), r"permute\(order\): an order names each of qubits 0 to 2 once, not \[0, 1\]"),
            (lambda: setattr(GRAPH, "layout", "2x2"), "the layout 2x2 is not circle, line, or rows and columns"),
            (lambda: GRAPH.renew(0, "+Q"), r"renew\(qubit, photon\): a photon is \+X, -X, "),
            (lambda: run_many([GRAPH, GRAPH], *[array("B", [0])] * 4), "a state is given twice"),
        ):
            with self.assertRaisesRegex(ValueError, said):
                call()

    def test_sources_of_bits(self):
        def drawn(source):
            return [State.from_strings("+X").measure("Z", 0, source=source).outcome for _ in range(40)]

        self.assertEqual(drawn(random.Random(3)), drawn(random.Random(3)))
        self.assertEqual(len(set(drawn(7))), 1)  # a seed begins anew at each call
        self.assertEqual(set(drawn(None)), {0, 1})
        try:
            import numpy
        except ImportError:
            return
        self.assertEqual(set(drawn(numpy.random.default_rng(3))), {0, 1})
        self.assertEqual(drawn(numpy.random.default_rng(3)), drawn(numpy.random.default_rng(3)))
        self.assertEqual(set(drawn(numpy.random.RandomState(3))), {0, 1})


if __name__ == "__main__":
    unittest.main()
