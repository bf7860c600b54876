"""Arguments as the engine takes them, and errors that say what was expected."""

from __future__ import annotations

import operator
from typing import Any, Iterable

_PAULIS = {"X": 1, "Y": 2, "Z": 3}

#: the number of a Pauli by its letter
PAULIS = {form: number for letter, number in _PAULIS.items() for form in (letter, letter.lower())}

#: stands for every number that no word holds: as a qubit, a count or a code it is refused as they are
ABOVE = (1 << 64) - 1


def whole(value: object, what: str = "a number") -> int:
    """An integer of any type; `TypeError` of anything else.

    >>> whole(3)
    3
    >>> whole("3", "a qubit number")
    Traceback (most recent call last):
    ...
    TypeError: expected a qubit number, not the text '3'
    """
    try:
        return operator.index(value)  # type: ignore[arg-type]
    except TypeError:
        raise TypeError(f"expected {what}, not {called(value)}") from None


def called(value: object) -> str:
    """A value as an error names it.

    >>> called("H"), called(0.5), called(None)
    ("the text 'H'", '0.5 (float)', 'None')
    """
    if isinstance(value, str):
        return f"the text {value!r}"
    shown = repr(value)
    if value is None or len(shown) > 60:
        return "None" if value is None else f"something of the type {type(value).__name__}"
    return f"{shown} ({type(value).__name__})"


def place(value: object) -> int:
    """A qubit number as a word; one that no word holds becomes one that every call refuses likewise.

    >>> place(5), place(-1) == place(1 << 70) == ABOVE
    (5, True)
    """
    number = whole(value, "a qubit number")
    return number if 0 <= number < 1 << 64 else ABOVE


def bit(value: object) -> int:
    """An outcome as a number; every call refuses one above 1.

    >>> bit(1), bit(True), bit(-1) == ABOVE
    (1, 1, True)
    """
    number = whole(value, "an outcome, 0 or 1")
    return number if 0 <= number < 1 << 64 else ABOVE


def pauli_number(pauli: "str | int") -> int:
    """The number of a Pauli by its letter, or the number itself; 0, which every call refuses, of another letter.

    >>> [pauli_number(pauli) for pauli in ("X", "y", 3, "I")]
    [1, 2, 3, 0]
    """
    return PAULIS.get(pauli, 0) if isinstance(pauli, str) else place(whole(pauli, "X, Y or Z, or 1, 2 or 3"))


def qubits(given: Iterable[int], call: str) -> list[int]:
    """Qubit numbers from an iterable; `TypeError` where a text is given, or what is no iterable of integers.

    >>> qubits(range(2), "cut(qubits)")
    [0, 1]
    >>> qubits("01", "cut(qubits)")
    Traceback (most recent call last):
    ...
    TypeError: cut(qubits): expected qubit numbers, as [0, 1], not the text '01'
    """
    if isinstance(given, (str, bytes)) or not hasattr(given, "__iter__"):
        raise TypeError(f"{call}: expected qubit numbers, as [0, 1], not {called(given)}")
    try:
        return [whole(number, "a qubit number") for number in given]
    except TypeError as error:
        raise TypeError(f"{call}: {error}") from None


def of_type(value: object, kind: type, call: str) -> None:
    """`TypeError` where a value is not of a type.

    >>> of_type("x", dict, "compare(other)")
    Traceback (most recent call last):
    ...
    TypeError: compare(other): expected a dict, not the text 'x'
    """
    if not isinstance(value, kind):
        raise TypeError(f"{call}: expected a {kind.__name__}, not {called(value)}")


def listed(values: Any, what: str, call: str) -> list:
    """The values of an iterable; `TypeError` of anything else.

    >>> listed(3, "codes", "State(neighbours, codes)")
    Traceback (most recent call last):
    ...
    TypeError: State(neighbours, codes): expected a list of codes, not 3 (int)
    """
    if isinstance(values, (str, bytes)) or not hasattr(values, "__iter__"):
        raise TypeError(f"{call}: expected a list of {what}, not {called(values)}")
    return list(values)
