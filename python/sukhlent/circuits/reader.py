"""Which of the languages a circuit is written in."""

from __future__ import annotations

import re

from ..arguments import called
from ..refusals import Refusal
from .model import Circuit
from .qasm import read_qasm
from .stim import read_stim


def read_circuit(text: str) -> Circuit:
    """The circuit of a text for Stim, or of an OpenQASM 2 or 3 file, which begins with OPENQASM. What is no Clifford gate,
    measurement or reset (noise, detectors, a T gate) is refused by 1, by its name, with line and column.

    >>> read_circuit("H 0\\nCX 0 1\\nM 0 1").n
    2
    >>> read_circuit("OPENQASM 2.0; qreg q[3]; h q[0];").n
    3
    >>> read_circuit("H 0\\nX_ERROR(0.1) 0")
    Traceback (most recent call last):
    ...
    sukhlent.refusals.Refusal: refused 1: line 2, column 1: X_ERROR is noise, and the engine keeps pure states
    """
    if not isinstance(text, str):
        raise TypeError(f"read_circuit(text): expected the text of a circuit, not {called(text)}")
    plain = text.removeprefix("\ufeff")
    try:
        return read_qasm(plain) if is_qasm(plain) else read_stim(plain)
    except RecursionError:
        raise Refusal(1, "the circuit is nested too deeply for this reader") from None


def is_qasm(text: str) -> bool:
    """Whether a text begins, behind comments, as an OpenQASM file does.

    >>> is_qasm("// a Bell pair\\nOPENQASM 3;"), is_qasm("# a comment\\nH 0")
    (True, False)
    """
    rest = text.lstrip()
    while rest.startswith(("//", "/*")):
        end = rest.find("\n") if rest.startswith("//") else rest.find("*/") + 1
        rest = rest[end + 1 :].lstrip() if end > 0 else ""
    return re.match(r"(OPENQASM|include|qreg|qubit)\b", rest) is not None
