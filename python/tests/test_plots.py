"""Tables of amplitudes: the program, the library and the picture."""

import random
import unittest
import xml.etree.ElementTree as xml

from sukhlent import PlotLine, State, plot_svg, read_table, table_of
from tests.places import program


RECTS = ".//{http://www.w3.org/2000/svg}rect"


def list_text(state):
    """The text of a state's generators."""
    rows = state.generators()
    lines = [f"{sign} {z:016x} {x:016x}" for sign, z, x in zip(rows.signs, rows.z, rows.x)]
    return "\n".join(["sign z x", *lines, ""])


def drawn(seed, n):
    """A state by seeded gates."""
    chance = random.Random(seed)
    state = State.zeros(n)
    for _ in range(6 * n):
        state.gate(chance.randrange(n), chance.randrange(24))
        if n > 1:
            state.cz(*chance.sample(range(n), 2))
    return state


class Plots(unittest.TestCase):
    def test_the_program_and_the_library_agree(self):
        for seed in range(20):
            state = drawn(seed, 1 + seed % 6)
            with self.subTest(seed=seed):
                self.assertEqual(read_table(program("amplitudes", list_text(state))), table_of(state))

    def test_a_bar_for_each_number_that_is_not_0(self):
        colours = {"re": "#1e3a8a", "im": "#8a3b12", "p": "#4b5563"}
        for seed in range(20):
            lines = table_of(drawn(100 + seed, 1 + seed % 7))
            bars = xml.fromstring(plot_svg(lines)).findall(RECTS)
            for kind in ("re", "im", "p"):
                due = [getattr(line, kind) for line in lines if getattr(line, kind)]
                found = [float(bar.get("height")) for bar in bars if bar.get("fill") == colours[kind]]
                unit = {"re": 36, "im": 36, "p": 72 / max(line.p for line in lines)}[kind]
                self.assertEqual([round(abs(value) * unit, 2) for value in due], found)

    def test_a_bar_below_the_axis_for_a_negative_number(self):
        bars = xml.fromstring(plot_svg([PlotLine(1.0, 0.0, 0.5), PlotLine(-1.0, 0.0, 0.5)]))
        tops = [float(bar.get("y")) for bar in bars.findall(RECTS)]
        self.assertEqual(tops[1] - tops[0], 36)

    def test_tables_that_are_none(self):
        for text in ("y re im\n", "y re im p\n1 " + " ".join(["0" * 16] * 3) + "\n", "y re im p\n0 0\n"):
            with self.assertRaises(ValueError):
                read_table(text)
        with self.assertRaises(ValueError):
            plot_svg([PlotLine(1.0, 0.0, 1.0)] * 3)
        with self.assertRaises(ValueError):
            table_of(State.zeros(11))


if __name__ == "__main__":
    unittest.main()
