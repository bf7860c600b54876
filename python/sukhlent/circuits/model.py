"""A circuit as it is run: batches of steps, measurements of Pauli rows, resets, repetitions, and parts that depend on
outcomes."""

from __future__ import annotations

from array import array
from dataclasses import dataclass, field
from typing import TYPE_CHECKING, Callable, Union

from .. import beyond, blocks, calls, explain
from ..answers import Measured
from ..gates import MEASURED
from ..lots import Source, bits_from
from ..refusals import Refusal
from ..rows import sparse
from .steps import Step

if TYPE_CHECKING:
    from ..state import State

#: the most steps of one call
_MOST = 4096


class Batch:
    """Gates and CZ, run in as few calls as there can be."""

    def __init__(self, steps: list[Step]):
        self.steps = steps
        self._parts = [self._slices(steps[at : at + _MOST]) for at in range(0, len(steps), _MOST)]

    @staticmethod
    def _slices(steps: list[Step]) -> list[array]:
        columns = list(zip(*steps))
        return [array("B", columns[0]), *(array("H", column) for column in columns[1:])]

    def run(self, going: Going) -> None:
        for part in self._parts:
            answers = [bytearray(len(part[0])) for _ in range(3)]
            number = calls.run(going.block, *part, *answers)
            if number:
                raise Refusal(number)
            if any(answers[0]):
                at = next(k for k, refusal in enumerate(answers[0]) if refusal)
                named = (part[1][at], part[2][at]) if part[0][at] == 1 else (part[1][at],)
                raise explain.on_qubits(answers[0][at], blocks.size(going.block), blocks.used(going.block), named, "the circuit")


@dataclass
class Measure:
    """A Pauli row measured by lot; the recorded bit is turned round where `inverted` is 1."""

    z: int
    x: int
    inverted: int = 0
    bit: "tuple[str, int] | None" = None

    def run(self, going: Going) -> None:
        found = calls.measure_row(going.block, self.z, self.x, going.draw())
        if found < 0:
            acts = [q for q in range(64) if (self.z | self.x) >> q & 1]
            raise explain.on_qubits(-found, blocks.size(going.block), blocks.used(going.block), acts, "the circuit")
        going.record(MEASURED[found ^ self.inverted], sparse(self.z, self.x), self.bit)


@dataclass
class Reset:
    """A qubit put into the state of a code."""

    qubit: int
    code: int

    def run(self, going: Going) -> None:
        number = beyond.reset(going.block, self.qubit, self.code, going.draw())
        if number:
            raise explain.on_qubits(
                number, blocks.size(going.block), blocks.used(going.block), (self.qubit,), "the circuit"
            )


@dataclass
class Repeat:
    """A part that is done several times."""

    count: int
    body: list[Part]

    def run(self, going: Going) -> None:
        for _ in range(self.count):
            for part in self.body:
                part.run(going)


@dataclass
class Where:
    """A part that is done where a condition on earlier outcomes holds, and one where it does not."""

    holds: Callable[[Going], bool]
    body: list[Part]
    other: list[Part] = field(default_factory=list)

    def run(self, going: Going) -> None:
        for part in self.body if self.holds(going) else self.other:
            part.run(going)


Part = Union[Batch, Measure, Reset, Repeat, Where]


class Going:
    """A run under way: the block, where bits come from, and what was measured."""

    def __init__(self, block: bytearray, source: Source, registers: dict[str, int]):
        self.block, self.draw = block, bits_from(source)
        self.result = CircuitResult([], [], {name: [0] * size for name, size in registers.items()})

    def record(self, measured: Measured, row: str, bit: "tuple[str, int] | None") -> None:
        self.result.measurements.append(measured)
        self.result.rows.append(row)
        if bit is not None:
            self.result.bits[bit[0]][bit[1]] = measured.outcome

    def outcome(self, back: int) -> int:
        """The outcome so many measurements ago, 1 for the last."""
        return self.result.measurements[-back].outcome


@dataclass
class CircuitResult:
    """What a circuit measured, in order: the answers, the Pauli rows, and the classical registers of an OpenQASM file.

    >>> from sukhlent import State, read_circuit
    >>> read_circuit("X 0\\nM 0 !0").run(State.zeros(1))
    CircuitResult(measurements=[Measured(outcome=1, determined=True), Measured(outcome=0, determined=True)], \
rows=['Z0', 'Z0'], bits={})
    """

    measurements: list[Measured]
    rows: list[str]
    bits: dict[str, list[int]]


@dataclass
class Circuit:
    """A circuit on n qubits; `read_circuit` makes one.

    >>> from sukhlent import read_circuit
    >>> read_circuit("H 0\\nCX 0 4").n
    5
    """

    n: int
    parts: list[Part]
    registers: dict[str, int] = field(default_factory=dict)

    def run(self, state: State, source: Source = None) -> CircuitResult:
        """Runs it on a state, in place; outcomes that the state leaves open are by lot. Where it is refused, the state is as
        before.

        >>> from sukhlent import State, read_circuit
        >>> state = State.zeros(2)
        >>> result = read_circuit("H 0\\nCX 0 1\\nM 0 1").run(state, source=7)
        >>> [measured.outcome for measured in result.measurements]
        [0, 0]
        """
        if self.n > state.n:
            raise Refusal(8, f"the circuit names {explain.far(self.n - 1, state.n)}")
        going = Going(bytearray(state._block), source, self.registers)
        for part in self.parts:
            part.run(going)
        state._block[:] = going.block
        return going.result

    def steps(self) -> list[Step]:
        """The steps for `State.run` of a circuit of gates alone; `ValueError` where it measures, resets or repeats.

        >>> from sukhlent import read_circuit
        >>> read_circuit("H 0\\nCZ 0 1").steps()
        [(0, 0, 0, 8), (1, 0, 1, 0)]
        """
        if any(not isinstance(part, Batch) for part in self.parts):
            raise ValueError("steps: the circuit has more than gates; run it by `run` or by State.run_circuit")
        return [step for part in self.parts if isinstance(part, Batch) for step in part.steps]
