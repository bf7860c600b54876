"""A stabilizer state held as a record: a graph with one local Clifford per vertex, and a word of used qubits."""

from __future__ import annotations

import struct
from typing import Any, Callable, Iterable

from . import blocks, calls, explain, files, library
from .answers import Measured
from .arguments import called, listed, whole
from .codes import code
from .gates import MEASURED, Gates
from .graphs import Graphs, neighbour_words
from .layouts import Layout, lattice_of
from .lists import GeneratorList
from .lots import Source, bits_from
from .reads import Reads
from .refusals import Refusal
from .rows import Row, row_words, sparse
from .running import Ran, run_buffers, run_tuples
from .shows import Shows

_new = object.__new__

#: the codes of a new photon, by its state
PHOTONS = {"+X": 0, "-X": 2, "+Y": 4, "-Y": 6, "+Z": 8, "-Z": 10}


def photon_code(photon: str) -> int:
    """The code of a new photon.

    >>> photon_code("-Y")
    6
    """
    if photon not in PHOTONS:
        raise ValueError(f"renew(qubit, photon): a photon is {', '.join(PHOTONS)}, not {called(photon)}")
    return PHOTONS[photon]


def _judged(neighbours: Iterable[int], codes: Iterable[int], used: int) -> bytearray:
    """The block of a record; refused where it is none."""
    call = "State(neighbours, codes, used)"
    words, numbers = listed(neighbours, "neighbour words", call), listed(codes, "codes", call)
    try:
        if len(words) != len(numbers) or not 1 <= len(numbers) <= blocks.MOST:
            raise struct.error
        block = blocks.made(words, numbers, used)
        number = -min(calls.cut(block, 0), 0)
    except struct.error:
        rank = library.word()
        lent = library.words(words), library.octets(numbers), library.bits(used)
        number = library.call("cut", len(numbers), *lent, 0, rank)
    if number:
        raise explain.record(number, words, numbers, used)
    return block


class State(Gates, Reads, Graphs, Shows):
    """A state on 1 to 64 qubits. Calls change it in place; a refused call raises `Refusal` and changes nothing.

    >>> state = State.zeros(2)
    >>> state.h(0)
    >>> state.cx(0, 1)
    >>> print(state)
    qubit code neighbours used
    0 0 0000000000000002 0
    1 8 0000000000000001 0
    >>> state.measure("Z", 0, 1)
    Measured(outcome=1, determined=False)
    >>> state.measure("Z", 1)
    Measured(outcome=1, determined=True)

    A record that is given must be one: `State([2, 0], [0, 0])` is refused by 7, since its graph is not simple.
    """

    __slots__ = ("_block", "_layout", "_labels")

    def __init__(self, neighbours: Iterable[int], codes: Iterable[int], used: int = 0):
        self._block = _judged(neighbours, codes, used)
        self._layout: Layout = None
        self._labels: "tuple[Any, ...] | None" = None

    # ---- making one

    @classmethod
    def _of(cls, block: bytearray, layout: Layout = None, labels: "tuple[Any, ...] | None" = None) -> State:
        """The state of a block that is a record."""
        state = _new(cls)
        state._block, state._layout, state._labels = block, layout, labels
        return state

    @classmethod
    def zeros(cls, n: int) -> State:
        """Every qubit in +Z: no edge, code 8 everywhere.

        >>> State.zeros(2).generators().strings()
        ['+ZI', '+IZ']
        """
        count = whole(n, "a number of qubits")
        return cls([0] * count, [8] * count) if count >= 0 else cls([], [])

    @classmethod
    def graph(cls, n: int, edges: Iterable[tuple[int, int]], gates: "Iterable[int | str] | None" = None) -> State:
        """The graph state of these edges, then one gate per vertex where gates are given, by name or code.

        >>> State.graph(3, [(0, 1), (1, 2)]).generators().strings()
        ['+XZI', '+ZXZ', '+IZX']
        >>> State.graph(3, [(0, 1), (1, 2)], ["I", "H", "S_DAG"]).codes
        (0, 8, 6)
        """
        words = neighbour_words(n, edges)
        given = [0] * n if gates is None else [code(gate) for gate in gates]
        if len(given) != n:
            raise Refusal(4, f"{len(given)} gates, but {n} qubits")
        state = cls(words, given)
        state._layout = lattice_of(words)
        return state

    @classmethod
    def from_generators(cls, given: GeneratorList) -> State:
        """The reduced record of a list: lists of one group give equal states.

        >>> State.from_generators(GeneratorList((0, 1), (0, 3), (3, 0))).codes
        (0, 10)
        """
        if not isinstance(given, GeneratorList):
            raise TypeError(f"from_generators(given): expected a GeneratorList, not {called(given)}")
        words, numbers, used = library.blank_words(given.n), library.blank_octets(given.n), library.word()
        number = library.call("reduce", given.n, *given.buffers(), words, numbers, used)
        if number:
            raise given.refused(number)
        return cls._of(blocks.made(words, numbers, used.value))

    @classmethod
    def from_strings(cls, *lines: "str | Iterable[str]") -> State:
        """The state of generators such as `+XX`, `-ZZ`: strings one by one, an iterable of them, or one text of lines. A plus
        may be left out, and I may be written _.

        >>> State.from_strings("+XX", "+ZZ") == State.from_strings(["+XX", "-YY"])
        True
        """
        return cls.from_generators(GeneratorList.from_strings(*lines))

    @classmethod
    def from_text(cls, text: str) -> State:
        """The state of any text that the package knows (`read_state`): Pauli strings, a generator list, a record as `str`
        and the programs print it, or what the program `job` prints.

        >>> State.from_text(str(State.zeros(2))) == State.zeros(2)
        True
        """
        from .texts import read_state

        return read_state(text)

    @classmethod
    def read(cls, text: str) -> State:
        """The state of a record as `str` and the programs print it, read by the proved reader.

        >>> State.read(str(State.zeros(2))) == State.zeros(2)
        True
        """
        from .texts import read_record

        return read_record(text)

    @classmethod
    def load(cls, path: files.Place) -> State:
        """The state of a file that `save` wrote.

        >>> import tempfile
        >>> with tempfile.TemporaryDirectory() as folder:
        ...     State.zeros(2).save(folder + "/state.txt")
        ...     State.load(folder + "/state.txt") == State.zeros(2)
        True
        """
        return files.loaded(path, cls.read)

    # ---- copies

    def copy(self) -> State:
        """The same record, apart.

        >>> first = State.zeros(1)
        >>> second = first.copy()
        >>> second.x(0)
        >>> first == second
        False
        """
        state = _new(type(self))
        state._block, state._layout, state._labels = bytearray(self._block), self._layout, self._labels
        return state

    __copy__ = copy

    def __deepcopy__(self, memo: dict) -> State:
        return self.copy()

    def __reduce__(self) -> tuple:
        return _restored, (type(self), bytes(self._block), self._layout, self._labels)

    def reduced(self) -> State:
        """The reduced record of the state, with the same used qubits. Equal states have equal reduced records.

        >>> State([2, 1], [8, 0]).reduced()
        State([2, 1], [0, 8], 0)
        """
        state = self.copy()
        number = calls.reduce(state._block)
        if number:
            raise Refusal(number)
        return state

    # ---- changing it

    def gate(self, qubit: int, gate: "int | str") -> None:
        """Applies a local Clifford, by name or code, and leaves the reduced record.

        >>> state = State.from_strings("+X")
        >>> state.gate(0, "SQRT_Y")
        >>> state.generators().strings()
        ['-Z']
        """
        try:
            number = calls.gate(self._block, qubit, gate)
        except TypeError as error:
            raise TypeError(f"gate(qubit, gate): {error}") from None
        if number:
            raise explain.gate(number, self.n, self.used, qubit, gate)

    def cz(self, a: int, b: int) -> None:
        """CZ on two qubits.

        >>> state = State.from_strings("+XI", "+IX")
        >>> state.cz(0, 1)
        >>> state.edges()
        [(0, 1)]
        """
        try:
            number = calls.cz(self._block, a, b)
        except TypeError as error:
            raise TypeError(f"cz(a, b): {error}") from None
        if number:
            raise explain.on_qubits(number, self.n, self.used, (a, b), "cz")

    def cx(self, control: int, target: int) -> None:
        """CNOT: a Hadamard, CZ and a Hadamard at the target. Refused as a whole, before the first gate.

        >>> state = State.from_strings("+XI", "+IZ")
        >>> state.cx(0, 1)
        >>> state.generators().strings()
        ['+XX', '+ZZ']
        """
        try:
            number = calls.cx(self._block, control, target)
        except TypeError as error:
            raise TypeError(f"cx(control, target): {error}") from None
        if number:
            raise explain.on_qubits(number, self.n, self.used, (control, target), "cx")

    def _measured(self, pauli: "str | int", qubit: int, outcome: int) -> int:
        return self._measured_by(calls.measure, pauli, qubit, outcome)

    def _observed(self, pauli: "str | int", qubit: int, bit: int) -> int:
        return self._measured_by(calls.observe, pauli, qubit, bit)

    def _measured_by(self, call: Callable[..., int], pauli: "str | int", qubit: int, bit: int) -> int:
        try:
            found = call(self._block, pauli, qubit, bit)
        except TypeError as error:
            raise TypeError(f"measure(pauli, qubit, outcome): {error}") from None
        if found < 0:
            raise explain.measure(-found, self.n, self.used, pauli, qubit, bit)
        return found

    def measure_row(self, row: Row, outcome: "int | None" = None, source: Source = None) -> Measured:
        """Measures a Pauli row of any weight, such as a parity `ZZI` or `X0*X3`, and uses no qubit up. The outcome is 1 where
        the row's value is -1. A given outcome that the state forbids is refused by 14; without one it is the state's, or a
        fair bit from `source`.

        >>> state = State.from_strings("+XI", "+IX")
        >>> state.measure_row("ZZ", 1)
        Measured(outcome=1, determined=False)
        >>> state.generators().strings(), state.measure_row("XX")
        (['+XX', '-ZZ'], Measured(outcome=0, determined=True))
        """
        sign, z, x = row_words(row, self.n)
        if outcome is not None and whole(outcome, "an outcome, 0 or 1") not in (0, 1):
            raise Refusal(6, f"the outcome {outcome}, but an outcome is 0, or 1 for minus")
        if (z | x) & self.used:
            raise explain.on_qubits(16, self.n, self.used, [q for q in range(self.n) if (z | x) >> q & 1], "measure_row")
        value = calls.expectation(self._block, z, x)
        if outcome is not None and value < 2 and value != outcome ^ sign:
            raise Refusal(14, f"{sparse(z, x)} has the outcome {1 - outcome} in this state, not {outcome}")
        bit = bits_from(source)() if outcome is None else outcome
        found = calls.measure_row(self._block, z, x, bit ^ sign)
        if found < 0:
            raise Refusal(-found)
        return MEASURED[found ^ sign]

    def renew(self, qubit: int, photon: str = "+Z") -> None:
        """Puts a new photon at a used place, in the state +X, -X, +Y, -Y, +Z or -Z, so that a source goes on.

        >>> state = State.zeros(1)
        >>> state.measure("X", 0, 1), state.used
        (Measured(outcome=1, determined=False), 1)
        >>> state.renew(0)
        >>> state.used, state.generators().strings()
        (0, ['+Z'])
        """
        value = photon_code(photon)
        try:
            number = calls.renew(self._block, qubit, value)
        except TypeError as error:
            raise TypeError(f"renew(qubit, photon): {error}") from None
        if number:
            raise explain.renew(number, self.n, self.used, qubit)

    def complement(self, vertex: int) -> None:
        """Complements the graph at a vertex and rewrites the codes: the same state, not reduced.

        >>> path = State.graph(3, [(0, 1), (1, 2)])
        >>> path.complement(1)
        >>> path.edges(), path.codes
        ([(0, 1), (0, 2), (1, 2)], (6, 13, 6))
        """
        try:
            number = calls.complement(self._block, vertex)
        except TypeError as error:
            raise TypeError(f"complement(vertex): {error}") from None
        if number:
            raise explain.on_qubits(number, self.n, self.used, (vertex,), "complement")

    def run(
        self, steps: Any, a: Any = None, b: Any = None, value: Any = None, source: Source = None
    ) -> "list[tuple[int, int, int]] | Ran":
        """Runs at most 4,096 steps in one call: each is an operation (0 gate, 1 cz, 2 measure, 3 complement, 4 pivot,
        5 observe, 6 renew), two qubits and a value, as in a job. Answers refusal, outcome and determined of each; a refused
        step changes nothing.

        >>> state = State.zeros(2)
        >>> state.run([(0, 0, 0, 8), (2, 0, 0, 0), (1, 0, 1, 0)])
        [(0, 0, 0), (0, 0, 1), (16, 0, 0)]
        >>> state.used
        1

        Four buffers (numpy arrays, `array.array`, anything with numbers of 8 bits for the operations and of 16 for the
        others) are taken as they are, without a copy, and give arrays back:

        >>> from array import array
        >>> State.zeros(2).run(array("B", [0, 2]), array("H", [0, 0]), array("H", [0, 0]), array("H", [8, 0])).determined
        array('B', [0, 1])

        An observation (value `2 * (pauli - 1) + bit`) takes its bit where the state does not determine the outcome; with a
        `source` all bits of observations are drawn from it, those given play no part. A renewal's value is the photon's code.

        >>> State.zeros(1).run([(5, 0, 0, 0), (6, 0, 0, 8), (5, 0, 0, 4)], source=5)
        [(0, 1, 0), (0, 0, 0), (0, 0, 1)]
        """
        if a is None and b is None and value is None:
            return run_tuples(self._block, steps, source)
        return run_buffers(self._block, steps, a, b, value, source)

    def run_circuit(self, text: str, source: Source = None) -> list[Measured]:
        """Runs a circuit of Clifford gates, written for Stim or in OpenQASM 2 or 3, from this state on; answers its
        measurements in order. Outcomes that the state leaves open are by lot. No qubit is used up.

        >>> state = State.zeros(3)
        >>> [measured.outcome for measured in state.run_circuit("H 0\\nCX 0 1 1 2\\nM 0 1 2", source=5)]
        [1, 1, 1]
        """
        from .circuits import read_circuit

        return read_circuit(text).run(self, source).measurements


def _restored(kind: type[State], block: bytes, layout: Layout, labels: "tuple[Any, ...] | None") -> State:
    """What a pickle holds, judged anew."""
    return kind._of(_judged(*blocks.parts(block)), layout, labels)
