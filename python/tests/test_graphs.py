"""Graphs in and out, orders, keys, states side by side, and equivalence where qubits may be renumbered."""

import itertools
import random
import unittest

from sukhlent import NAMES, Refusal, State, edges_of, generate, orbit, run_job

try:
    import networkx
except ImportError:
    networkx = None


def drawn(seed, n):
    """A state by a drawn job, with used qubits."""
    return run_job(generate(n, 30, seed + 1))[0]


class Graphs(unittest.TestCase):
    def test_graph6_is_read_and_written(self):
        # networkx's and nauty's own examples
        for text, n, edges in (
            ("@", 1, []), ("A_", 2, [(0, 1)]), ("Bw", 3, [(0, 1), (0, 2), (1, 2)]), ("DQc", 5, [(0, 2), (0, 4), (1, 3), (3, 4)]),
            ("C~", 4, [(0, 1), (0, 2), (0, 3), (1, 2), (1, 3), (2, 3)]),
        ):  # fmt: skip
            state = State.from_graph6(text)
            self.assertEqual((state.n, state.edges(), state.graph6()), (n, edges, text))
            self.assertEqual(State.from_graph6(f">>graph6<<{text}\n".encode()), state)
        source = random.Random(1)
        for n in (1, 2, 7, 62, 63, 64):
            edges = [pair for pair in itertools.combinations(range(n), 2) if source.random() < 0.3]
            state = State.graph(n, edges)
            self.assertEqual(State.from_graph6(state.graph6()).edges(), state.edges())
            if networkx:
                theirs = networkx.to_graph6_bytes(state.to_networkx(), header=False).decode().strip()
                self.assertEqual(state.graph6(), theirs)
        for text, number in (("", 2), ("B", 1), ("Bww", 1), ("A\x10", 1), ("~?@@" + "?" * 347, 2)):
            with self.assertRaises(Refusal) as refused:
                State.from_graph6(text)
            self.assertEqual(refused.exception.number, number, text)

    @unittest.skipUnless(networkx, "networkx is not installed")
    def test_networkx_keeps_names_and_isolated_vertices(self):
        graph = networkx.Graph([("a", "b"), ("b", ("c", 1))])
        graph.add_node("alone")
        state = State.from_networkx(graph)
        self.assertEqual((state.n, state.labels), (4, ("a", "b", ("c", 1), "alone")))
        state.gate(0, "S")
        back = state.to_networkx()
        self.assertEqual((list(back.nodes), set(map(frozenset, back.edges))), (list(graph.nodes), set(map(frozenset, graph.edges))))
        self.assertEqual(back.nodes["a"], {"qubit": 0, "code": 4, "used": False})
        self.assertIn(">alone</text>", state.svg())
        self.assertEqual(state.copy().labels, state.labels)
        self.assertEqual(state.permute([3, 2, 1, 0]).labels, ("alone", ("c", 1), "b", "a"))
        self.assertEqual(State.from_networkx(networkx.grid_2d_graph(2, 3)).edges(), State.lattice(2, 3).edges())
        for wrong in (networkx.DiGraph([(0, 1)]), networkx.MultiGraph([(0, 1)]), "a graph"):
            with self.assertRaises(TypeError):
                State.from_networkx(wrong)
        with self.assertRaises(Refusal):
            State.from_networkx(networkx.Graph([(0, 0)]))

    def test_an_order_moves_letters(self):
        source = random.Random(2)
        for seed in range(30):
            n = 1 + seed % 6
            state = drawn(seed, n)
            order = source.sample(range(n), n)
            moved = state.permute(order)
            lines = ["".join([line[0], *(line[1 + q] for q in order)]) for line in state.generators().strings()]
            due = State.from_strings(lines)
            self.assertEqual((moved.reduced().neighbours, moved.reduced().codes), (due.neighbours, due.codes))
            self.assertEqual([moved.used >> q & 1 for q in range(n)], [state.used >> a & 1 for a in order])

    def test_keys_are_equal_exactly_for_equal_states(self):
        states = [drawn(seed, 3) for seed in range(60)]
        for a, b in itertools.product(states, repeat=2):
            self.assertEqual(a.key() == b.key(), a == b)
        other = State.graph(3, [(0, 1), (1, 2)])
        key = other.key()
        other.complement(1)
        self.assertEqual((other.key(), hash(key)), (key, hash(other.key())))
        self.assertGreater(len({state.key() for state in states}), 20)

    def test_states_side_by_side(self):
        for seed in range(20):
            a, b = drawn(seed, 1 + seed % 4), drawn(seed + 50, 1 + seed % 3)
            both = a @ b
            lines = [line + "I" * b.n for line in a.generators().strings()]
            lines += [line[0] + "I" * a.n + line[1:] for line in b.generators().strings()]
            self.assertEqual((both.generators().strings(), both.used), (lines, a.used | b.used << a.n))
            self.assertEqual(both.cut(range(a.n)), 0)
        with self.assertRaises(TypeError):
            State.zeros(1) @ 3

    def test_lattices(self):
        self.assertEqual(State.lattice(3, 4).layout, "grid 3 x 4")
        self.assertEqual(State.graph(12, State.lattice(3, 4).edges()).layout, "grid 3 x 4")
        self.assertIsNone(State.graph(12, State.lattice(3, 4).edges()[:-1]).layout)
        read = State.from_strings(State.lattice(3, 4).generators().strings())
        self.assertEqual((read.layout, read.svg()), (None, State.lattice(3, 4).svg()))
        read.layout = "circle"
        self.assertNotEqual(read.svg(), State.lattice(3, 4).svg())
        measured = State.lattice(3, 4)
        measured.measure("X", 5, 1)
        self.assertEqual((measured.layout, measured.copy().layout, measured.reduced().layout), ("grid 3 x 4",) * 3)
        self.assertEqual(State.lattice(1, 5).edges(), [(q, q + 1) for q in range(4)])
        for rows, columns in ((0, 3), (8, 9), (-1, -2)):
            with self.assertRaises(Refusal):
                State.lattice(rows, columns)


class Equivalence(unittest.TestCase):
    def test_parts_of_any_size(self):
        path = State.graph(40, [(q, q + 1) for q in range(39)])
        other = path.copy()
        for q in range(40):
            other.gate(q, q % 24)
        with self.assertRaises(Refusal) as refused:
            path.compare(other)
        self.assertEqual(refused.exception.number, 3)
        moved = path.copy()
        for q, gate in enumerate(path.equivalent(other).gates):
            moved.gate(q, gate)
        self.assertEqual(moved, other)
        self.assertIsNone(path.equivalent(State.graph(40, [(0, q) for q in range(1, 40)])))

    def test_a_renumbered_state_is_found_with_its_order(self):
        source = random.Random(3)
        for n in (1, 2, 4, 6, 8):
            for _ in range(6):
                edges = [pair for pair in itertools.combinations(range(n), 2) if source.random() < 0.4]
                state = State.graph(n, edges)
                order = source.sample(range(n), n)
                other = state.permute(order)
                for q in range(n):
                    other.gate(q, source.choice(NAMES))
                found = state.equivalent(other, renumbered=True)
                moved = state.permute(found.order)
                for q, gate in enumerate(found.gates):
                    moved.gate(q, gate)
                self.assertEqual(moved, other)

    def test_the_classes_of_up_to_five_vertices(self):
        """Connected graphs up to complementation and renumbering: 1, 1, 1, 2, 4 (and 11 on six)."""
        for n, due in ((1, 1), (2, 1), (3, 1), (4, 2), (5, 4)):
            classes, known = [], set()
            for number in range(1 << n * (n - 1) // 2):
                edges = edges_of(n, number)
                if number in known or not connected(n, edges):
                    continue
                known |= set(orbit(n, edges).numbers)
                state = State.graph(n, edges)
                if not any(state.equivalent(other, renumbered=True) for other in classes):
                    classes.append(state)
            self.assertEqual(len(classes), due)


def connected(n, edges):
    """Whether a graph is connected."""
    reached = {0}
    for _ in range(n):
        reached |= {b for a, b in edges if a in reached} | {a for a, b in edges if b in reached}
    return len(reached) == n


if __name__ == "__main__":
    unittest.main()
