"""Stores and shared records as texts (docs/TEXTS.md): record texts, each below a line with its place and its name."""

from __future__ import annotations

import re
from typing import Any, Callable

from . import beyond, blocks, forms
from .forms import Piece
from .reading import Line, plain_lines
from .refusals import Refusal
from .state import State
from .texts import read_record

_NAMES = "place qubits name"
_COUNT: "list[Piece]" = [("held [0-8]", "'held' and a number up to 8")]
_PLACE: "list[Piece]" = [
    ("[0-7]", "a place, 0 to 7"),
    forms.SPACE,
    ("6[0-4]|[1-5][0-9]|[1-9]", "a number of qubits, 1 to 64"),
    forms.SPACE,
    (r'"(?:[ !#-\[\]-~]|\\x[0-9a-f]{2}){0,8}"', 'a name in quotes, its bytes as letters or as \\x0a'),
]


def quoted(name: int) -> str:
    """A name as a text has it: in quotes, without the spaces at its end, each byte that is no plain letter as \\xNN.

    >>> quoted(int.from_bytes(b"A\\n      ", "little")), quoted(int.from_bytes(b"        ", "little"))
    ('"A\\\\x0a"', '""')
    """
    raw = name.to_bytes(8, "little").rstrip(b" ")
    return '"' + "".join(chr(byte) if 32 <= byte < 127 and byte not in b'"\\' else f"\\x{byte:02x}" for byte in raw) + '"'


def _named(text: str) -> int:
    """The name of a quoted one."""
    plain = re.sub(r"\\x(..)", lambda found: chr(int(found[1], 16)), text[1:-1])
    return int.from_bytes(plain.encode("latin-1").ljust(8), "little")


def held_text(heads: Any, neighbours: Any, codes: Any) -> str:
    """The text of what the three buffers of a store hold."""
    places = [place for place in range(8) if heads[3 * place]]
    parts = [f"held {len(places)}\n"]
    for place in places:
        n, name, used = heads[3 * place : 3 * place + 3]
        block = blocks.made(neighbours[64 * place : 64 * place + n], codes[64 * place : 64 * place + n], used)
        parts.append(f"{_NAMES}\n{place} {n} {quoted(name)}\n{beyond.record_text(block)}")
    return "".join(parts)


class Lines:
    """The lines of a text, taken one after the other; refused by 1 with the line and the column where one has not its form."""

    def __init__(self, text: str):
        self._rest = plain_lines(text)
        self._end = self._rest[-1].number + 1 if self._rest else 1
        self._rest.reverse()

    def take(self, pieces: "list[Piece]") -> Line:
        """The next line, of these pieces."""
        if not self._rest:
            raise Refusal(1, f"line {self._end}, column 1: expected {pieces[0][1]}")
        line = self._rest.pop()
        fault = forms.line_fault(line, pieces)
        if fault is not None:
            raise Refusal(1, fault)
        return line

    def record(self, n: int) -> State:
        """The record of n qubits that the next lines are."""
        lines = [self.take(forms.RECORD)] + [self.take(forms.vertex(q)) for q in range(n)]
        rows = [""] * lines[-1].number
        for line in lines:
            rows[line.number - 1] = line.text
        try:
            return read_record("\n".join(rows))
        except Refusal as refusal:
            raise Refusal(refusal.number, f"line {lines[0].number}: {refusal.where or refusal.text}") from None

    def end(self) -> None:
        """Refused where a line is left."""
        if self._rest:
            raise Refusal(1, f"line {self._rest[-1].number}, column 1: expected the end of the text")


def fill(lines: Lines, held: "tuple[Any, ...]", judged: Callable[[int], int]) -> None:
    """Reads the text of a store into three empty buffers. `judged` is asked for each place whether the buffers are still
    sound, and answers a refusal."""
    heads, neighbours, codes = held
    below = -1
    for _ in range(int(lines.take(_COUNT).text[5:])):
        lines.take(forms.literal(_NAMES))
        number, _, text = line = lines.take(_PLACE)
        place, n, name = text.split(" ", 2)
        at, count = int(place), int(n)
        if at <= below:
            raise Refusal(1, f"line {number}, column {line.column}: place {at} after place {below}, where places rise")
        state, below = lines.record(count), at
        heads[3 * at : 3 * at + 3] = [count, _named(name), state.used]
        neighbours[64 * at : 64 * at + count] = state.neighbours
        codes[64 * at : 64 * at + count] = state.codes
        refusal = judged(at)
        if refusal:
            raise Refusal(refusal, f"line {number}: {Refusal(refusal).text}")


def free_name(heads: Any) -> int:
    """A name that is not held."""
    return next(name for name in range(9) if name not in heads[1::3])
