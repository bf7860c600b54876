"""Circuits from files: Stim's and OpenQASM's, run from +Z at every qubit, outcomes by lot."""

from pathlib import Path

from sukhlent import Refusal, State, read_circuit

here = Path(__file__).parent
for name in ("bell.stim", "teleport.qasm"):
    circuit = read_circuit((here / name).read_text())
    state = State.zeros(circuit.n)
    result = circuit.run(state, source=11)
    print(name, *(f"{row}={measured.outcome}" for row, measured in zip(result.rows, result.measurements)), result.bits or "")
print("sent -Y, arrived:", state.expectation("-Y2"))
try:
    read_circuit("H 0\nM(0.01) 0\n")
except Refusal as refusal:
    print(refusal)
