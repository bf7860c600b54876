"""Refusals in the words of the call that was made: which argument, what it was, and what it may be. The number and the
name stay those of the published list."""

from __future__ import annotations

from typing import Sequence

from .arguments import called, pauli_number, whole
from .codes import code
from .refusals import Refusal

_LETTERS = "IXYZ"


def span(n: int) -> str:
    """The qubits of a state in words.

    >>> span(3), span(1)
    ('qubits 0 to 2', 'qubit 0 alone')
    """
    return f"qubits 0 to {n - 1}" if n > 1 else "qubit 0 alone"


def far(qubit: int, n: int) -> str:
    """A qubit that the state does not have.

    >>> far(3, 3)
    'qubit 3, but the state has qubits 0 to 2'
    """
    return f"qubit {qubit}, but the state has {span(n)}"


def _place(qubits: Sequence[int], n: int, call: str) -> str:
    """Why 8: a qubit that is not there, or one named twice."""
    for qubit in qubits:
        if not 0 <= qubit < n:
            return far(qubit, n)
    return f"{call} names qubit {qubits[0]} twice"


def _used(qubits: Sequence[int], used: int) -> str:
    """Why 16."""
    qubit = next((q for q in qubits if used >> q & 1), qubits[0])
    return f"qubit {qubit} is used: it was measured, and only expectation, cut and renew may name it"


def on_qubits(number: int, n: int, used: int, qubits: Sequence[int], call: str) -> Refusal:
    """The refusal of a call that names qubits.

    >>> on_qubits(8, 3, 0, (1, 1), "cz")
    Refusal(8, 'cz names qubit 1 twice')
    """
    places = [whole(q) for q in qubits]
    if number == 8:
        return Refusal(8, _place(places, n, call))
    if number == 16:
        return Refusal(16, _used(places, used))
    return Refusal(number)


def gate(number: int, n: int, used: int, qubit: int, named: "int | str") -> Refusal:
    """The refusal of a gate.

    >>> gate(6, 3, 0, 0, 24)
    Refusal(6, 'the code 24, but codes are 0 to 23')
    """
    if number == 6:
        return Refusal(6, f"the code {code(named)}, but codes are 0 to 23")
    return on_qubits(number, n, used, (qubit,), "gate")


def renew(number: int, n: int, used: int, qubit: int) -> Refusal:
    """The refusal of a renewal.

    >>> renew(20, 3, 0, 1)
    Refusal(20, 'qubit 1 is not used, so that no new photon can take its place')
    """
    if number == 20:
        return Refusal(20, f"qubit {qubit} is not used, so that no new photon can take its place")
    return on_qubits(number, n, used, (qubit,), "renew")


def measure(number: int, n: int, used: int, pauli: "str | int", qubit: int, outcome: int) -> Refusal:
    """The refusal of a measurement.

    >>> measure(14, 3, 0, "Z", 0, 1)
    Refusal(14, 'Z at qubit 0 has the outcome 0 in this state, not 1')
    >>> measure(6, 3, 0, "T", 0, 1)
    Refusal(6, "the Pauli is the text 'T', but a measurement is of X, Y or Z (or 1, 2, 3)")
    """
    if number == 6 and pauli_number(pauli) not in (1, 2, 3):
        return Refusal(6, f"the Pauli is {called(pauli)}, but a measurement is of X, Y or Z (or 1, 2, 3)")
    if number == 6:
        return Refusal(6, f"the outcome {outcome}, but an outcome is 0, or 1 for minus")
    if number == 14:
        letter = _LETTERS[pauli_number(pauli)]
        return Refusal(14, f"{letter} at qubit {qubit} has the outcome {1 - outcome} in this state, not {outcome}")
    return on_qubits(number, n, used, (qubit,), "measure")


def record(number: int, neighbours: Sequence[int], codes: Sequence[int], used: int) -> Refusal:
    """The refusal of a record.

    >>> record(5, [4, 0], [0, 0], 0)
    Refusal(5, 'vertex 0 has the neighbour 2, but the state has qubits 0 to 1')
    >>> record(7, [2, 0], [0, 0], 0)
    Refusal(7, 'vertex 0 has the neighbour 1, but not 1 the neighbour 0')
    """
    n = len(codes)
    said = {2: _count(n), 4: f"{len(neighbours)} neighbour words, but {n} codes", 5: _stray(neighbours, used, n)}
    if number == 6:
        strange = [(q, k) for q, k in enumerate(codes) if not 0 <= k <= 23]
        return Refusal(6, f"the code {strange[0][1]} at qubit {strange[0][0]}, but codes are 0 to 23" if strange else "")
    if number == 7:
        return Refusal(7, _not_simple(neighbours, codes, used))
    return Refusal(number, said.get(number, ""))


def _count(n: int) -> str:
    return f"{n} qubits, but a state has 1 to 64"


def _stray(neighbours: Sequence[int], used: int, n: int) -> str:
    """Why 5."""
    for vertex, word in enumerate(neighbours):
        if word >> n or word < 0:
            far_one = (word >> n & -(word >> n)).bit_length() - 1 + n if word >= 0 else -1
            return f"vertex {vertex} has the neighbour {far_one}, but the state has {span(n)}"
    return f"the used word marks a qubit that is not there: the state has {span(n)}"


def _not_simple(neighbours: Sequence[int], codes: Sequence[int], used: int) -> str:
    """Why 7: the graph is not simple, or a used vertex is not as a measurement leaves it."""
    for a, word in enumerate(neighbours):
        if word >> a & 1:
            return f"vertex {a} is its own neighbour"
        for b in range(len(neighbours)):
            if word >> b & 1 and not neighbours[b] >> a & 1:
                return f"vertex {a} has the neighbour {b}, but not {b} the neighbour {a}"
    for q, word in enumerate(neighbours):
        if used >> q & 1 and word:
            return f"qubit {q} is used and has a neighbour"
        if used >> q & 1 and codes[q] not in (0, 2, 4, 6, 8, 10):
            return f"qubit {q} is used and has the code {codes[q]}, which no measurement leaves"
    return ""
