"""Texts as others write them, made plain: a byte order mark in front, carriage returns, spaces at the ends of a line and
blank lines are left out, and the last line has its newline. The proved readers get what is left, and judge it."""

from __future__ import annotations

from typing import Iterable, NamedTuple

from .arguments import called
from .refusals import Refusal
from .rows import shown


class Line(NamedTuple):
    """A line that is not blank: its number in the text, the column at which it begins, and what it holds."""

    number: int
    column: int
    text: str


def plain_lines(text: "str | Iterable[str]") -> list[Line]:
    """The lines of a text, or of an iterable of its lines, each with its newline or without.

    >>> plain_lines("\\ufeff+XX\\r\\n\\n -ZZ")
    [Line(number=1, column=2, text='+XX'), Line(number=3, column=2, text='-ZZ')]
    """
    if isinstance(text, (bytes, bytearray)):
        raise TypeError("expected a text, not bytes: line 1 is no string but of the type int; decode it first")
    lines = text.split("\n") if isinstance(text, str) else list(_one_by_one(text))
    found = []
    for number, line in enumerate(lines, 1):
        whole = line[1:] if number == 1 and line.startswith("\ufeff") else line
        content = whole.strip(" \t\r\f\v")
        if content:
            found.append(Line(number, line.index(content) + 1, content))
    return found


def _one_by_one(lines: Iterable[str]) -> Iterable[str]:
    """The lines of an iterable; refused by 1 where one has a newline inside."""
    if not hasattr(lines, "__iter__"):
        raise TypeError(f"expected a text or its lines, not {called(lines)}")
    for place, line in enumerate(lines, 1):
        if not isinstance(line, str):
            raise TypeError(f"line {place} is no string but of the type {type(line).__name__}")
        whole = line.removesuffix("\n")
        if "\n" in whole:
            raise Refusal(1, f"line {place}, column {whole.index(chr(10)) + 1}: a newline, where each string is one line")
        yield whole


def plain_text(text: str) -> str:
    """A text as the proved programs read it.

    >>> plain_text("\\ufeffqubits\\r\\n2\\n\\nop a b value")
    'qubits\\n2\\nop a b value\\n'
    """
    return "".join(line.text + "\n" for line in plain_lines(text))


def strict_strings(lines: list[Line]) -> str:
    """Pauli strings as the proved reader takes them: a sign each, and I for _.

    >>> strict_strings(plain_lines("X_\\n-_Z"))
    '+XI\\n-IZ\\n'
    """
    signed = (line.text if line.text[0] in "+-" else "+" + line.text for line in lines)
    return "".join(line.replace("_", "I") + "\n" for line in signed)


def string_fault(lines: list[Line]) -> "str | None":
    """Why Pauli strings are refused by 1: the line and the column, what stands there and what was expected.

    >>> string_fault(plain_lines("+XX\\n+ZZZ\\n"))
    'line 2 has 3 letters: expected 2, as many as lines'
    >>> string_fault(plain_lines("+XX\\n\u2212ZZ\\n"))
    "line 2, column 1: '−' (U+2212), where a sign (+ or -) or a letter I, X, Y, Z or _ was expected"
    """
    for number, column, text in lines:
        signed = text[0] in "+-"
        for at, character in enumerate(text[signed:], signed):
            if character not in "IXYZ_":
                due = "a letter I, X, Y, Z or _" if at else "a sign (+ or -) or a letter I, X, Y, Z or _"
                return f"line {number}, column {column + at}: {shown(character)}, where {due} was expected"
        if len(text) - signed != len(lines):
            return f"line {number} has {len(text) - signed} letters: expected {len(lines)}, as many as lines"
    return None
