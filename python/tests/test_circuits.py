"""Circuits of other tools: gates against matrices, random circuits against vectors, known outcomes, and what is refused."""

import io
import random
import tempfile
import unittest
from contextlib import redirect_stderr, redirect_stdout
from pathlib import Path

from sukhlent import Refusal, State, read_circuit, read_state
from sukhlent.circuits.steps import PAIRS as STEPS
from sukhlent.circuits.steps import SINGLES as CODES
from sukhlent.codes import NAMES
from sukhlent.command import main
from tests import vectors
from tests.vectors import Vector


def outcomes(text, state, source=None):
    return [measured.outcome for measured in state.run_circuit(text, source)]


class Gates(unittest.TestCase):
    def test_every_pair_gate_is_its_matrix(self):
        self.assertEqual(set(STEPS), set(vectors.PAIRS))
        for name, matrix in vectors.PAIRS.items():
            for prepared in ("", "H 0", "H 1", "H 0 1", "SQRT_X 0\nH 1", "H 0\nS 0\nSQRT_X 1", "H 0\nCX 0 1\nS 1"):
                state, vector = State.zeros(2), Vector(2)
                for line in prepared.splitlines():
                    gate, *targets = line.split()
                    for target in targets if gate in vectors.SINGLES else ():
                        vector.apply(vectors.SINGLES[gate], int(target))
                    if gate == "CX":
                        vector.apply(vectors.PAIRS["CX"], 0, 1)
                for a, b in ((0, 1), (1, 0)):
                    other, held = state.copy(), Vector(2)
                    held.held = list(vector.held)
                    other.run_circuit(f"{prepared}\n{name} {a} {b}")
                    held.apply(matrix, a, b)
                    self.assertTrue(held.agrees(other), (name, prepared, a, b))

    def test_every_single_gate_has_its_code(self):
        self.assertEqual({name: CODES[name] for name in NAMES}, {name: k for k, name in enumerate(NAMES)})
        for name, matrix in vectors.SINGLES.items():
            for prepared in ("", "H 0", "SQRT_X 0"):
                state, vector = State.zeros(1), Vector(1)
                state.run_circuit(f"{prepared}\n{name} 0")
                if prepared:
                    vector.apply(vectors.SINGLES[prepared.split()[0]], 0)
                vector.apply(matrix, 0)
                self.assertTrue(vector.agrees(state), (name, prepared))

    def test_a_phase_by_a_product(self):
        for text, word in (("SPP X0*Y1*Z2", "XYZ"), ("SPP !X0*Z2", "XIZ"), ("SPP_DAG Y1*Y2", "IYY"), ("SPP Z1", "IZI")):
            state, vector = State.zeros(3), Vector(3)
            start = "H 0 1\nS 1\nCX 0 1 1 2"
            state.run_circuit(f"{start}\n{text}")
            for gate, *qubits in (("H", 0), ("H", 1), ("S", 1)):
                vector.apply(vectors.SINGLES[gate], *qubits)
            vector.apply(vectors.PAIRS["CX"], 0, 1)
            vector.apply(vectors.PAIRS["CX"], 1, 2)
            matrix = vectors.root(vectors.letters(word))
            vector.apply(vectors.dagger(matrix) if "DAG" in text or "!" in text else matrix, 0, 1, 2)
            self.assertTrue(vector.agrees(state), text)


class Random(unittest.TestCase):
    def test_random_circuits_are_followed_by_a_vector(self):
        chance, seen = random.Random(4), set()
        for _ in range(60):
            n = 3
            state, vector = State.zeros(n), Vector(n)
            for _ in range(25):
                a, b = chance.sample(range(n), 2)
                kind = chance.randrange(6)
                if kind < 2:
                    name = chance.choice(sorted(vectors.SINGLES))
                    state.run_circuit(f"{name} {a}")
                    vector.apply(vectors.SINGLES[name], a)
                elif kind < 4:
                    name = chance.choice(sorted(vectors.PAIRS))
                    state.run_circuit(f"{name} {a} {b}")
                    vector.apply(vectors.PAIRS[name], a, b)
                elif kind == 4:
                    word = "".join(chance.choice("IXYZ") for _ in range(n))
                    if word == "III":
                        continue
                    product = "*".join(f"{letter}{q}" for q, letter in enumerate(word) if letter != "I")
                    (measured,) = state.run_circuit(f"MPP {product}", chance)
                    weight = vector.project(word, measured.outcome)
                    self.assertAlmostEqual(weight, 1.0 if measured.determined else 0.5)
                    seen.add(measured.determined)
                else:
                    letter = chance.choice("XYZ")
                    word = "".join(letter if q == a else "I" for q in range(n))
                    (measured,) = state.run_circuit(f"MR{letter} !{a}", chance)
                    outcome = 1 - measured.outcome
                    self.assertGreater(vector.project(word, outcome), 0.4)
                    if outcome:
                        vector.apply(vectors.PAULIS["Z" if letter == "X" else "X"], a)
                self.assertTrue(vector.agrees(state))
                self.assertEqual(state.used, 0)
        self.assertEqual(seen, {True, False})


class Known(unittest.TestCase):
    def test_teleportation_by_outcomes_that_are_fed_forward(self):
        text = "H 1\nCX 1 2\nCX 0 1\nH 0\nM 0 1\nCX rec[-1] 2\nCZ 2 rec[-2]"
        seen = set()
        for prepared, row in (("", "Z2"), ("X 0", "-Z2"), ("H 0", "X2"), ("H 0\nS 0", "Y2"), ("H 0\nS_DAG 0", "-Y2")):
            for seed in range(12):
                state = State.zeros(3)
                seen.add(tuple(outcomes(f"{prepared}\n{text}", state, seed)))
                self.assertEqual(state.expectation(row), 1, (prepared, seed))
        self.assertEqual(len(seen), 4)

    def test_the_same_in_both_versions_of_openqasm(self):
        two = """OPENQASM 2.0; include "qelib1.inc"; // teleportation
        qreg q[3]; creg a[1]; creg b[1];
        h q[0]; s q[0]; h q[1]; cx q[1],q[2]; cx q[0],q[1]; h q[0];
        measure q[0] -> a[0]; measure q[1] -> b[0];
        if (b==1) x q[2]; if (a==1) z q[2];"""
        three = """OPENQASM 3.0; include "stdgates.inc";
        qubit[3] q; bit a; bit[1] b; gate bell x, y { h x; cx x, y; }
        h q[0]; rz(pi/2) q[0]; bell q[1], q[2]; inv @ bell q[0], q[1];
        a = measure q[0]; b[0] = measure q[1];
        if (b[0]) { x q[2]; } if (a == true) z q[2]; else { id q[2]; }"""
        for text in (two, three):
            for seed in range(12):
                state = State.zeros(3)
                state.run_circuit(text, seed)
                self.assertEqual(state.expectation("Y2"), 1)

    def test_syndromes_repeat(self):
        once = "MPP X0*Z1*Z2*X3 X1*Z2*Z3*X4 X0*X2*Z3*Z4 Z0*X1*X3*Z4"
        for seed in range(10):
            state = State.zeros(5)
            found = state.run_circuit(f"REPEAT 3 {{\n{once}\n}}", seed)
            self.assertEqual([measured.determined for measured in found[:4]], [False] * 4)
            self.assertTrue(all(measured.determined for measured in found[4:]))
            self.assertEqual([m.outcome for m in found[:4]] * 3, [m.outcome for m in found])
            flipped = state.run_circuit(f"Z 2\n{once}")
            changed = [a.outcome ^ b.outcome for a, b in zip(found[8:], flipped)]
            self.assertEqual(changed, [0, 0, 1, 0])

    def test_a_repetition_code_with_its_ancilla_reset(self):
        text = "R 0 1 2 3 4\nREPEAT 50 {\n  CX 0 1 2 3\n  CX 2 1 4 3\n  MR 1 3\n  TICK\n}\nX 2\nCX 0 1 2 3\nCX 2 1 4 3\nMR 1 3\nM 0 2 4"
        state = State.zeros(5)
        self.assertEqual(outcomes(text, state), [0, 0] * 50 + [1, 1] + [0, 1, 0])
        self.assertEqual(state.used, 0)

    def test_measurements_of_each_letter(self):
        text = "H 0\nMX 0\nMX !0\nH 1\nS 1\nMY 1\nM 2 !2\nMZ 2\nRX 2\nMX 2\nRY 2\nMY 2\nMXX 0 1\nMZZ 0 !1\nMYY 0 1"
        state = State.zeros(3)
        found = outcomes(text, state, 3)
        self.assertEqual(found[:8], [0, 1, 0, 0, 1, 0, 0, 0])
        self.assertEqual(found[8] ^ found[9] ^ 1 ^ found[10], 1)

    def test_a_large_circuit_in_few_calls(self):
        chance = random.Random(2)
        lines = [f"CX {a} {b}" for a, b in (chance.sample(range(64), 2) for _ in range(3000))]
        state, other = State.zeros(64), State.zeros(64)
        text = "H " + " ".join(map(str, range(0, 64, 2))) + "\n" + "\n".join(lines)
        state.run_circuit(text)
        steps = read_circuit(text).steps()
        for at in range(0, len(steps), 4096):
            self.assertFalse(any(refusal for refusal, _, _ in other.run(steps[at : at + 4096])))
        self.assertEqual(state, other)

    def test_angles_of_openqasm(self):
        head = "OPENQASM 2.0; qreg q[1]; "
        for gate, name in (
            ("rz(pi/2)", "S"), ("rz(-pi/2)", "S_DAG"), ("rx(pi/2)", "SQRT_X"), ("ry(pi/2)", "SQRT_Y"), ("ry(-pi/2)", "SQRT_Y_DAG"),
            ("u2(0,pi)", "H"), ("u3(pi/2,0,pi)", "H"), ("u3(pi,0,pi)", "X"), ("u1(3*pi/2)", "S_DAG"), ("p(2*(pi-pi/2))", "Z"),
            ("sx", "SQRT_X"), ("sxdg", "SQRT_X_DAG"), ("sdg", "S_DAG"), ("u3(pi/2,-pi/2,pi/2)", "SQRT_X"), ("rz(1e-12)", "I"),
        ):  # fmt: skip
            for start in ("+X", "+Y", "+Z"):
                state, other = State.from_strings(start), State.from_strings(start)
                state.run_circuit(f"{head}{gate} q[0];")
                other.gate(0, name)
                self.assertEqual(state, other, (gate, start))
        for gate, name in (("rzz(pi/2)", "SQRT_ZZ"), ("rxx(-pi/2)", "SQRT_XX_DAG"), ("ryy(pi)", "I"), ("iswap", "ISWAP")):
            state, other = State.zeros(2), State.zeros(2)
            start = "h q[0]; sx q[1]; cx q[0],q[1];"
            state.run_circuit(f"OPENQASM 2.0; qreg q[2]; {start} {gate} q[0],q[1];")
            other.run_circuit(f"H 0\nSQRT_X 1\nCX 0 1\n{name} {'0 1' if name != 'I' else '0'}" + ("\nY 0 1" if name == "I" else ""))
            self.assertEqual(state, other, gate)


    def test_inverses_of_openqasm(self):
        singles = ("h", "s", "sdg", "sx", "sxdg", "x", "rz(pi/2)", "rx(-pi/2)", "ry(pi/2)", "p(pi)", "u2(pi/2,pi)", "u1(pi/2)",
                   "U(pi/2,pi/2,pi)", "u3(pi/2,-pi/2,0)", "made(pi/2)")  # fmt: skip
        pairs = ("cx", "cy", "cz", "swap", "iswap", "rxx(pi/2)", "ryy(-pi/2)", "rzz(pi/2)", "two")
        head = "OPENQASM 3; qubit[2] q; gate made(t) a { rz(t) a; h a; U(t, t, 0) a; } gate two a, b { h a; cx a, b; s b; }"
        for start in ("h q[0]; s q[0];", "sx q[0]; h q[1]; cz q[0], q[1];", ""):
            due = State.zeros(2)
            due.run_circuit(head + start)
            for gates, target in ((singles, "q[0]"), (pairs, "q[0], q[1]")):
                for gate in gates:
                    for text in (f"{gate} {target}; inv @ {gate} {target};", f"inv @ {gate} {target}; inv @ inv @ {gate} {target};"):
                        state = State.zeros(2)
                        state.run_circuit(head + start + text)
                        self.assertEqual(state, due, (gate, start))


class Refused(unittest.TestCase):
    def test_what_is_refused_is_named_with_its_place(self):
        for text, said in (
            ("H 0\n  DEPOLARIZE1(0.01) 0", "line 2, column 3: DEPOLARIZE1 is noise, and the engine keeps pure states"),
            ("M(0.01) 0", "line 1, column 2: M(0.01) is noise, and the engine keeps pure states"),
            ("M 0\nDETECTOR rec[-1]", "line 2, column 1: DETECTOR is of detectors, which this reader does not keep"),
            ("H 0 64", "line 1, column 5: qubit 64, but a state has qubits 0 to 63"),
            ("T 0", "line 1, column 1: T is no instruction that this reader knows"),
            ("CX 0 1 2", "line 1, column 8: CX takes targets in pairs, and the last one is alone"),
            ("CX 3 3", "line 1, column 6: CX names qubit 3 twice"),
            ("H !0", "line 1, column 3: H takes no target with !"),
            ("H a", "line 1, column 3: expected a qubit number, not a"),
            ("REPEAT 2 {\nH 0", "line 1, column 1: this REPEAT is not closed by }"),
            ("H 0\n}", "line 2, column 1: this } closes no REPEAT"),
            ("REPEAT {\n}", "line 1, column 1: expected REPEAT, a count and {"),
            ("MPP X0*X0", "line 1, column 8: the product X0*X0 names qubit 0 twice"),
            ("MPP X0*Q1", "line 1, column 8: expected a product such as X1*Z2, not X0*Q1"),
            ("CX rec[-1] 0", "line 1, column 4: rec[-1], but so far there are 0 measurements"),
            ("M 0\nSWAP rec[-1] 0", "line 2, column 6: SWAP of rec[-1] and 0 is no Pauli that depends on an outcome"),
            ("OPENQASM 2.0; qreg q[2];\nt q[0];", "line 2, column 1: t is no Clifford gate that this reader knows"),
            ("OPENQASM 2.0; qreg q[2];\nrz(pi/4) q[0];", "line 2, column 1: rz by the angle 0.785398 is no Clifford gate: a multiple of pi/2 is"),
            ("OPENQASM 2.0; qreg q[2]; h q[2];", "line 1, column 30: q[2], but q has 2 qubits"),
            ("OPENQASM 2.0; qreg q[2]; cx q[0],q[0];", "line 1, column 26: cx names a qubit twice"),
            ("OPENQASM 3; qubit q; for int i in [0:3] { h q; }", "line 1, column 22: for is nothing that this reader knows"),
            ("OPENQASM 1.0; qreg q[2];", "line 1, column 10: OpenQASM 1.0, but this reader knows 2 and 3"),
            ("OPENQASM 2.0; qreg q[65];", "line 1, column 20: 65 qubits, but a state has at most 64"),
            ("OPENQASM 2.0; qreg q[2]; h r[0];", "line 1, column 28: no qubit is called r"),
            ("OPENQASM 2.0; qreg q[2]; h q[0]", "line 1, column 32: expected ;, not the end of the file"),
            ("OPENQASM 2.0; qreg q[1]; gate g a { g a; }\ng q[0];", "line 1, column 37: g is no Clifford gate that this reader knows"),
            ("OPENQASM 2.0; qreg q[1]; rz() q[0];", "line 1, column 26: rz takes 1 angles and 1 qubits, not 0 and 1"),
            ("OPENQASM 2.0; qreg q[1]; u2(pi,) q[0];", "line 1, column 32: ) is no part of an angle that this reader knows"),
            ("OPENQASM 2.0; qreg q[1]; rz" + "(" * 5000 + ")" * 5000 + " q[0];", "the circuit is nested too deeply for this reader"),
            ("H ²", "line 1, column 3: expected a qubit number, not ²"),
            ("H " + "1" * 5000, f"line 1, column 3: expected a qubit number, not {'1' * 20}"),
            ("OPENQASM 2.0; qreg q[1]; creg c[99999999];", "line 1, column 31: 99999999 bits, but this reader keeps at most 1000000 in a register"),
            ("OPENQASM 2.0; qreg q[2]; creg c[1]; measure q -> c;", "line 1, column 37: 2 qubits are measured into 1 bits"),
        ):
            with self.assertRaises(Refusal) as refused:
                State.zeros(4).run_circuit(text)
            self.assertEqual((refused.exception.number, refused.exception.where), (1, said), text)

    def test_damaged_texts_are_read_or_refused(self):
        source = random.Random(6)
        stim = "R 0 1\nH 0\nCX 0 1\nREPEAT 2 {\n MPP X0*!Z1\n MR !1\n}\nCZ rec[-1] 0\nSPP Y1\nMXX 0 1\n"
        qasm = (
            "OPENQASM 3.0; qubit[2] q; bit[2] c; gate g(t) a, b { rz(t) a; inv @ cx a, b; }\n"
            "g(pi/2) q[0], q[1]; c = measure q; if (c[0] == 1) { x q[1]; } else reset q[0]; u3(pi/2, 0, -pi) q[1];\n"
        )
        refused = 0
        for _ in range(1500):
            text = list(source.choice((stim, qasm)))
            for _ in range(source.randrange(1, 4)):
                at = source.randrange(len(text))
                text[at : at + source.randrange(3)] = source.choice(("", " ", "\n", "(", ")", "!", "*", "9", "q", "}", ";", "π", "-", "["))
            try:
                State.zeros(2).run_circuit("".join(text), 1)
            except Refusal:
                refused += 1
        self.assertGreater(refused, 500)

    def test_a_refused_circuit_changes_nothing(self):
        state = State.zeros(3)
        state.measure("Z", 2, 0)
        before = repr(state)
        for text, number in (("H 0\nM 0\nX 2", 16), ("H 0\nCX 0 2", 16), ("H 0\nM 2", 16), ("R 2", 16), ("H 3", 8), ("H 0\nMPP X0*X2", 16)):
            with self.assertRaises(Refusal) as refused:
                state.run_circuit(text, 1)
            self.assertEqual((refused.exception.number, repr(state)), (number, before), text)

    def test_steps_are_of_gates_alone(self):
        with self.assertRaises(ValueError):
            read_circuit("H 0\nM 0").steps()


class Command(unittest.TestCase):
    def test_circuits_are_jobs_for_the_command(self):
        stim = "# a Bell pair\nH 0\nCX 0 1\nM 0\nMPP X0*X1\n"
        qasm = "// a pair\nOPENQASM 3; qubit[2] q; bit[2] c; h q[0]; cx q[0], q[1]; c = measure q;\n"
        with tempfile.TemporaryDirectory() as folder:
            for name, text, rows in (("c.stim", stim, ["Z0", "X0*X1"]), ("c.qasm", qasm, ["Z0", "Z1"]), ("c", stim, ["Z0", "X0*X1"])):
                path = Path(folder) / name
                path.write_text(text)
                said, err = io.StringIO(), io.StringIO()
                with redirect_stdout(said), redirect_stderr(err):
                    status = main(["job", str(path), "--seed", "4"])
                lines = said.getvalue().splitlines()
                self.assertEqual((status, err.getvalue(), lines[0]), (0, "", "measurement row outcome determined"))
                self.assertEqual([line.split()[1] for line in lines[1:3]], rows)
                self.assertEqual(read_state(said.getvalue()).n, 2)


if __name__ == "__main__":
    unittest.main()
