"""Gates of other tools as steps of a run: local Cliffords and CZ."""

from __future__ import annotations

from typing import Callable, Iterable

from ..codes import CODES

#: an operation (0 gate, 1 cz), two qubits and a value
Step = tuple[int, int, int, int]

#: the codes that lead X, Y and Z to Z, and back
TO_Z = {"X": (8, 8), "Y": (13, 12), "Z": (0, 0)}

_S, _S_DAG = CODES["S"], CODES["S_DAG"]


def gate(qubit: int, code: int) -> Step:
    """A local Clifford."""
    return 0, qubit, 0, code


def between(a: int, b: int, first: str, second: str, middle: Iterable[Step]) -> list[Step]:
    """Steps on two qubits in bases in which `first` and `second` are Z."""
    before = [gate(q, TO_Z[letter][0]) for q, letter in ((a, first), (b, second)) if letter != "Z"]
    after = [gate(q, TO_Z[letter][1]) for q, letter in ((a, first), (b, second)) if letter != "Z"]
    return [*before, *middle, *after]


def controlled(first: str, second: str) -> Callable[[int, int], list[Step]]:
    """The gate that gives -1 where `first` at one qubit and `second` at the other have the value -1: CZ is ZZ, CX is ZX.

    >>> controlled("Z", "X")(0, 1)
    [(0, 1, 0, 8), (1, 0, 1, 0), (0, 1, 0, 8)]
    """
    return lambda a, b: between(a, b, first, second, [(1, a, b, 0)])


def rooted(letter: str, code: int) -> Callable[[int, int], list[Step]]:
    """A square root of XX, YY or ZZ: the code S at both qubits and CZ, in the basis of the letter."""
    return lambda a, b: between(a, b, letter, letter, [gate(a, code), gate(b, code), (1, a, b, 0)])


_cx = controlled("Z", "X")


def _swap(a: int, b: int) -> list[Step]:
    return _cx(a, b) + _cx(b, a) + _cx(a, b)


def _iswap(code: int) -> Callable[[int, int], list[Step]]:
    return lambda a, b: [*_swap(a, b), (1, a, b, 0), gate(a, code), gate(b, code)]


#: gates on two qubits, by their names in Stim
PAIRS: dict[str, Callable[[int, int], list[Step]]] = {
    **{f"{first}C{second}": controlled(first, second) for first in "XYZ" for second in "XYZ"},
    "CX": _cx,
    "CNOT": _cx,
    "CY": controlled("Z", "Y"),
    "CZ": controlled("Z", "Z"),
    "SWAP": _swap,
    "ISWAP": _iswap(_S),
    "ISWAP_DAG": _iswap(_S_DAG),
    "CXSWAP": lambda a, b: _cx(a, b) + _swap(a, b),
    "SWAPCX": lambda a, b: _swap(a, b) + _cx(a, b),
    "CZSWAP": lambda a, b: [(1, a, b, 0), *_swap(a, b)],
    "SWAPCZ": lambda a, b: [(1, a, b, 0), *_swap(a, b)],
    **{f"SQRT_{letter * 2}": rooted(letter, _S) for letter in "XYZ"},
    **{f"SQRT_{letter * 2}_DAG": rooted(letter, _S_DAG) for letter in "XYZ"},
}

#: gates on one qubit, by their names in Stim
SINGLES: dict[str, int] = {
    **{name: number for name, number in CODES.items() if name.isupper()},
    "SQRT_Z": _S,
    "SQRT_Z_DAG": _S_DAG,
    "H_XZ": CODES["H"],
}


def turned(axis: str, quarters: int) -> int:
    """The code of a turn by quarters about X, Y or Z.

    >>> turned("Z", 1), turned("X", 3), turned("Y", 2), turned("Z", 4)
    (4, 12, 3, 0)
    """
    names = {"X": ("I", "SQRT_X", "X", "SQRT_X_DAG"), "Y": ("I", "SQRT_Y", "Y", "SQRT_Y_DAG"), "Z": ("I", "S", "Z", "S_DAG")}
    return CODES[names[axis][quarters % 4]]


def phased(z: int, x: int, code: int) -> list[Step]:
    """A phase by a Pauli row: the row led to Z at its last qubit, the code there, and back."""
    letters = [(q, "IXZY"[(x >> q & 1) + 2 * (z >> q & 1)]) for q in range((z | x).bit_length()) if (z | x) >> q & 1]
    last = letters[-1][0]
    before = [gate(q, TO_Z[letter][0]) for q, letter in letters if letter != "Z"]
    chain = [step for q, _ in letters[:-1] for step in _cx(q, last)]
    back = [step for q, _ in reversed(letters[:-1]) for step in _cx(q, last)]
    after = [gate(q, TO_Z[letter][1]) for q, letter in letters if letter != "Z"]
    return [*before, *chain, gate(last, code), *back, *after]
