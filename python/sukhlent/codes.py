"""The 24 local Cliffords by number and by name.

A code is 4 × class + 2 × sx + sz. The class gives the letters to which X and Z go; sx or sz is 1 where that image is
negative. Names are those that Stim uses.
"""

from __future__ import annotations

from .arguments import whole
from .refusals import Refusal

#: NAMES[code]: its name
NAMES: tuple[str, ...] = (
    "I", "X", "Z", "Y",
    "S", "H_XY", "S_DAG", "H_NXY",
    "H", "SQRT_Y_DAG", "SQRT_Y", "H_NXZ",
    "SQRT_X_DAG", "SQRT_X", "H_YZ", "H_NYZ",
    "C_XYZ", "C_XYNZ", "C_XNYZ", "C_NXYZ",
    "C_ZYX", "C_ZNYX", "C_ZYNX", "C_NZYX",
)  # fmt: skip

#: short forms for drawings
SYMBOLS: tuple[str, ...] = (
    "", "X", "Z", "Y", "S", "H_XY", "S†", "H_NXY", "H", "√Y†", "√Y", "H_NXZ",
    "√X†", "√X", "H_YZ", "H_NYZ", "C_XYZ", "C_XYNZ", "C_XNYZ", "C_NXYZ", "C_ZYX", "C_ZNYX", "C_ZYNX", "C_NZYX",
)  # fmt: skip

#: the code of a name or short form in lower case
_CODES = {name.lower(): number for known in (NAMES, SYMBOLS) for number, name in enumerate(known) if name}

#: the code of each name, in upper and in lower case
CODES = {form: number for number, name in enumerate(NAMES) for form in (name, name.lower())}

_LETTERS = (("X", "Z"), ("Y", "Z"), ("Z", "X"), ("X", "Y"), ("Y", "X"), ("Z", "Y"))


def code(gate: int | str) -> int:
    """The code of a gate given by its name, by its short form in drawings, or by its number. Upper or lower case is the
    same; Rust's `codes::named` takes the same spellings. A number is passed on as it is: the call that gets one above 23
    refuses it by 6.

    >>> code("H"), code("sqrt_x"), code("S†"), code(4)
    (8, 13, 6, 4)
    """
    if not isinstance(gate, str):
        return whole(gate, "a gate by its name or code")
    number = _CODES.get(gate.lower())
    if number is not None:
        return number
    raise ValueError(f"no local Clifford is called {gate!r}; the names are {', '.join(NAMES)}")


def images(gate: int | str) -> tuple[str, str]:
    """Where a gate, by its name or code, sends X and Z; refused by 6 where the number is none of 0 to 23.

    >>> images("H"), images(6)
    (('+Z', '+X'), ('-Y', '+Z'))
    """
    number = code(gate)
    if not 0 <= number < len(NAMES):
        raise Refusal(6, f"the code {number}, but codes are 0 to 23")
    x, z = _LETTERS[number // 4]
    return "+-"[number >> 1 & 1] + x, "+-"[number & 1] + z
