"""The gates of OpenQASM's standard files that are Cliffords, as steps of a run."""

from __future__ import annotations

from ..codes import CODES
from .building import fault
from .steps import PAIRS, Step, gate, rooted, turned
from .tokens import Token, quarters

#: gates on one qubit without an angle: the code, and that of its inverse
_SINGLES = {
    "id": ("I", "I"), "x": ("X", "X"), "y": ("Y", "Y"), "z": ("Z", "Z"), "h": ("H", "H"), "s": ("S", "S_DAG"),
    "sdg": ("S_DAG", "S"), "sx": ("SQRT_X", "SQRT_X_DAG"), "sxdg": ("SQRT_X_DAG", "SQRT_X"),
}  # fmt: skip

#: gates on two qubits without an angle: the name in Stim, and that of its inverse
_PAIRS = {
    "cx": ("CX", "CX"), "CX": ("CX", "CX"), "cnot": ("CX", "CX"), "cy": ("CY", "CY"), "cz": ("CZ", "CZ"),
    "swap": ("SWAP", "SWAP"), "iswap": ("ISWAP", "ISWAP_DAG"),
}  # fmt: skip

#: turns by an angle: the axes
TURNS = {"rx": "X", "ry": "Y", "rz": "Z", "p": "Z", "phase": "Z", "u1": "Z"}
_PAIR_TURNS = {"rxx": "X", "ryy": "Y", "rzz": "Z"}

#: gates that take three angles, or two, as U(theta, phi, lambda)
_GENERAL = {"U": 3, "u": 3, "u3": 3, "u2": 2}

#: how many angles and qubits each gate takes
_TAKES = {
    **{name: (0, 1) for name in _SINGLES}, **{name: (0, 2) for name in _PAIRS}, **{name: (1, 1) for name in TURNS},
    **{name: (1, 2) for name in _PAIR_TURNS}, **{name: (count, 1) for name, count in _GENERAL.items()},
}  # fmt: skip


def applied(name: Token, angles: list[float], qubits: list[int], inverse: bool) -> list[Step]:
    """The steps of a gate, or of its inverse.

    >>> applied(Token("word", "cz", 1, 1), [], [0, 1], False)
    [(1, 0, 1, 0)]
    """
    text = name.text
    if text not in _TAKES:
        raise fault(name.line, name.column, f"{text} is no Clifford gate that this reader knows")
    if (len(angles), len(qubits)) != _TAKES[text]:
        due = "{} angles and {} qubits".format(*_TAKES[text])
        raise fault(name.line, name.column, f"{text} takes {due}, not {len(angles)} and {len(qubits)}")
    if text in _SINGLES:
        return [gate(qubits[0], CODES[_SINGLES[text][inverse]])]
    if text in _PAIRS:
        return PAIRS[_PAIRS[text][inverse]](*qubits)
    sign = -1 if inverse else 1
    turns = [quarters(sign * angle, name) for angle in angles]
    if text in TURNS:
        return [gate(qubits[0], turned(TURNS[text], turns[0]))]
    if text in _PAIR_TURNS:
        return _pair_turn(_PAIR_TURNS[text], turns[0], *qubits)
    theta, phi, lam = (sign % 4, *turns) if text == "u2" else turns
    order = (("Z", phi), ("Y", theta), ("Z", lam)) if inverse else (("Z", lam), ("Y", theta), ("Z", phi))
    return [gate(qubits[0], turned(axis, turn)) for axis, turn in order]


def _pair_turn(letter: str, turns: int, a: int, b: int) -> list[Step]:
    """A turn about XX, YY or ZZ."""
    if turns == 0:
        return []
    if turns == 2:
        return [gate(q, CODES[letter]) for q in (a, b)]
    return rooted(letter, CODES["S" if turns == 1 else "S_DAG"])(a, b)
