"""Where a text leaves its form, in words: line, column, and what was expected there. The engine judges what plain_text
(reading.py) leaves of it; this only says why it refused by 1. Each function answers None of a text that has its form."""

from __future__ import annotations

import re

from .reading import Line, plain_lines
from .rows import shown
from .running import OPS

#: a piece of a line: a pattern and what it is called
Piece = tuple[str, str]

SPACE: Piece = (" ", "one space")
_HEX: Piece = ("[0-9a-f]{16}", "16 lower-case hexadecimal digits")
_FIELD: Piece = ("0|[1-9][0-9]{0,2}", "a number of one to three digits without a leading zero")
_OP: Piece = ("|".join(OPS), f"{', '.join(OPS[:-1])} or {OPS[-1]}")

_GENERATOR: list[Piece] = [("[0-9]", "a sign digit"), SPACE, _HEX, SPACE, _HEX]
_STEP: list[Piece] = [_OP, SPACE, _FIELD, SPACE, _FIELD, SPACE, _FIELD]


def literal(text: str) -> list[Piece]:
    """The pieces of a line that is always the same."""
    return [(re.escape(text), f"the line '{text}'")]


#: the names above a record
RECORD = literal("qubit code neighbours used")


def vertex(number: int) -> list[Piece]:
    """The pieces of a record's line."""
    said = (str(number), f"{number}, the vertices rising from 0")
    return [said, SPACE, ("0|[1-9][0-9]?", "a code"), SPACE, _HEX, SPACE, ("[01]", "0 or 1, for a used qubit")]


def line_fault(line: Line, pieces: list[Piece]) -> str | None:
    """Where a line leaves its pieces, and what was expected there.

    >>> line_fault(Line(3, 1, "held 9"), [("held [0-8]", "'held' and a number up to 8")])
    "line 3, column 1: expected 'held' and a number up to 8"
    """
    found = _first_fault(line.text, pieces)
    if found is None:
        return None
    at, due = found
    there = line.text[at - 1 : at]
    strange = f" ({shown(there)} stands there)" if there and not (there.isascii() and there.isprintable()) else ""
    return f"line {line.number}, column {line.column + at - 1}: expected {due}{strange}"


def _first_fault(line: str, pieces: list[Piece]) -> tuple[int, str] | None:
    """The column (from 1) at which a line leaves its pieces, and what was expected there."""
    at = 0
    for pattern, name in pieces:
        found = re.compile(pattern).match(line, at)
        if found is None:
            return at + 1, name
        at = found.end()
    return None if at == len(line) else (at + 1, "the end of the line")


def _fault(text: str, heads: list[list[Piece]], body) -> str | None:
    """The first fault of a text whose first lines are `heads` and whose line k after them is `body(k)`."""
    lines = plain_lines(text)
    for place, line in enumerate(lines):
        fault = line_fault(line, heads[place] if place < len(heads) else body(place - len(heads)))
        if fault is not None:
            return fault
    if len(lines) < len(heads):
        last = lines[-1].number if lines else 0
        return f"line {last + 1}, column 1: expected {heads[len(lines)][0][1]}"
    return None


def list_fault(text: str) -> str | None:
    """Why a list text is refused by 1.

    >>> list_fault("sign z x\\n0 0000000000000000 000000000000003\\n")
    'line 2, column 20: expected 16 lower-case hexadecimal digits'
    >>> list_fault("sign z x\\r\\n")
    """
    return _fault(text, [literal("sign z x")], lambda _: _GENERATOR)


def record_fault(text: str) -> str | None:
    """Why a record's text is refused by 1.

    >>> record_fault("qubit code neighbours used\\n0 8 0000000000000000\\n")
    'line 2, column 21: expected one space'
    """
    return _fault(text, [RECORD], vertex)


def job_fault(text: str) -> str | None:
    """Why a job text is refused by 1.

    >>> job_fault("qubits\\n2\\nop a b value\\nhadamard 0 0 0\\n")
    'line 4, column 1: expected gate, cz, measure, complement or pivot'
    >>> job_fault("qubits\\n2\\nop a b value\\ngate 0 0")
    'line 4, column 9: expected one space'
    """
    return _fault(text, [literal("qubits"), [_FIELD], literal("op a b value")], lambda _: _STEP)
