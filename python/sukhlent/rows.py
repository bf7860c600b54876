"""Pauli rows: a sign and a letter for each qubit, as `-XZ_`, or the letters that are not I with their qubits, as
`X0*Z3`."""

from __future__ import annotations

import re
from typing import Mapping, Union

from .arguments import called, whole
from .explain import far
from .refusals import Refusal

#: a row as text, or the letter of each qubit that has one
Row = Union[str, Mapping[int, str]]

_NUMBERS = {"I": 0, "_": 0, "X": 1, "Z": 2, "Y": 3}
_SPARSE = re.compile(r"[+-]?(?:[XYZI]\d+)(?:\*[XYZI]\d+)*\Z")


def row_words(row: Row, n: int) -> tuple[int, int, int]:
    """The sign (1 for minus), z word and x word of a row; a plus may be left out, and I may be written _. A row of another
    form is refused by 1.

    >>> row_words("-XZY", 3), row_words("X_Y", 3), row_words("-X0*Z1*Y2", 3), row_words({0: "X", 2: "Y"}, 3)
    ((1, 6, 5), (0, 4, 5), (1, 6, 5), (0, 4, 5))
    """
    if isinstance(row, Mapping):
        return _words(0, [(whole(q, "a qubit number"), letter) for q, letter in row.items()], n, str(dict(row)))
    if not isinstance(row, str):
        raise TypeError(f"expected a row such as '+XZI', not {called(row)}")
    sign, letters = int(row[:1] == "-"), row[1:] if row[:1] in ("+", "-") else row
    if _SPARSE.match(row):
        return _words(sign, [(int(part[1:]), part[0]) for part in letters.split("*")], n, row)
    if len(letters) != n or not set(letters) <= set(_NUMBERS):
        named = row if row and row.isprintable() and " " not in row else repr(row)
        raise Refusal(1, f"the row {named} is not a sign and {n} letters I, X, Y or Z{_stranger(letters)}")
    return _words(sign, list(enumerate(letters)), n, row)


def _stranger(letters: str) -> str:
    """The first character that is no letter of a row, with its code point."""
    strange = next((c for c in letters if c not in _NUMBERS), "")
    return f": {shown(strange)}" if strange and not strange.isascii() else ""


def shown(character: str) -> str:
    """A character as an error shows it.

    >>> shown("Q"), shown(chr(0x2212)), shown(chr(0xFEFF))
    ("'Q'", "'−' (U+2212)", 'U+FEFF, a byte order mark')
    """
    if character == "\ufeff":
        return "U+FEFF, a byte order mark"
    if character.isascii() and character.isprintable():
        return f"'{character}'"
    return f"'{character}' (U+{ord(character):04X})" if character.isprintable() else f"U+{ord(character):04X}"


def _words(sign: int, letters: list[tuple[int, str]], n: int, row: str) -> tuple[int, int, int]:
    z = x = seen = 0
    for q, letter in letters:
        if not 0 <= q < n:
            raise Refusal(1, f"the row {row} names {far(q, n)}")
        if letter not in _NUMBERS or seen >> q & 1:
            raise Refusal(1, f"the row {row} has {'two letters' if seen >> q & 1 else repr(letter)} at qubit {q}")
        seen |= 1 << q
        z |= (_NUMBERS[letter] >> 1) << q
        x |= (_NUMBERS[letter] & 1) << q
    return sign, z, x


def sparse(z: int, x: int) -> str:
    """A row by the letters that are not I.

    >>> sparse(6, 5), sparse(0, 0)
    ('X0*Z1*Y2', 'I')
    """
    places = [q for q in range((z | x).bit_length()) if (z | x) >> q & 1]
    return "*".join(f"{'IXZY'[(x >> q & 1) + 2 * (z >> q & 1)]}{q}" for q in places) or "I"
