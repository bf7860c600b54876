"""The words of an OpenQASM file, each with its line and column, and angles as quarters of a turn."""

from __future__ import annotations

import math
import re
from typing import NamedTuple

from .building import fault

_TOKEN = re.compile(
    r"(?P<blank>\s+|//[^\n]*|/\*.*?\*/)|(?P<number>\d+\.\d*(?:[eE][+-]?\d+)?|\.\d+|\d+(?:[eE][+-]?\d+)?)"
    r"|(?P<word>[A-Za-z_π][A-Za-z0-9_π]*)|(?P<text>\"[^\"\n]*\")|(?P<mark>->|==|!=|&&|\|\||\*\*|[-+*/()\[\]{},;:=!@<>&|^~%$'#.])",
    re.S | re.A,
)


class Token(NamedTuple):
    """A word of the file, where it stands, and of which kind it is: number, word, text or mark."""

    kind: str
    text: str
    line: int
    column: int


def tokens(text: str) -> list[Token]:
    """The words of a file, without blanks and comments.

    >>> [token.text for token in tokens("h q[0]; // Hadamard")]
    ['h', 'q', '[', '0', ']', ';']
    """
    found, at, line, begin = [], 0, 1, 0
    while at < len(text):
        match = _TOKEN.match(text, at)
        if match is None:
            raise fault(line, at - begin + 1, f"{text[at]!r} (U+{ord(text[at]):04X}) begins no word of OpenQASM")
        if match.lastgroup != "blank":
            found.append(Token(match.lastgroup or "", match[0], line, at - begin + 1))
        line += match[0].count("\n")
        if "\n" in match[0]:
            begin = at + match[0].rindex("\n") + 1
        at = match.end()
    return found


class Angles:
    """An angle written with numbers, pi, the names of a gate's angles, + - * / and brackets."""

    def __init__(self, words: list[Token], names: dict[str, float], end: Token):
        self._words, self._names, self._end, self._at = words, names, end, 0

    def value(self) -> float:
        """What it comes to."""
        found = self._sum()
        if self._at != len(self._words):
            raise self._strange()
        return found

    def _strange(self) -> Exception:
        word = self._words[self._at] if self._at < len(self._words) else self._end
        return fault(word.line, word.column, f"{word.text} is no part of an angle that this reader knows")

    def _next(self) -> str:
        return self._words[self._at].text if self._at < len(self._words) else ""

    def _sum(self) -> float:
        found = self._product()
        while self._next() in ("+", "-"):
            sign = 1 if self._next() == "+" else -1
            self._at += 1
            found += sign * self._product()
        return found

    def _product(self) -> float:
        found = self._single()
        while self._next() in ("*", "/"):
            times = self._next() == "*"
            self._at += 1
            other = self._single()
            if not times and other == 0:
                raise self._strange()
            found = found * other if times else found / other
        return found

    def _single(self) -> float:
        if self._at >= len(self._words):
            raise self._strange()
        word = self._words[self._at]
        self._at += 1
        if word.text in ("+", "-"):
            return self._single() * (1 if word.text == "+" else -1)
        if word.text == "(":
            found = self._sum()
            if self._next() != ")":
                raise self._strange()
            self._at += 1
            return found
        if word.kind == "number":
            return float(word.text)
        known = {"pi": math.pi, "π": math.pi, "tau": 2 * math.pi, **self._names}
        if word.text in known:
            return known[word.text]
        self._at -= 1
        raise self._strange()


def quarters(angle: float, name: Token) -> int:
    """An angle as quarters of a turn; refused where it is no whole number of them.

    >>> quarters(-math.pi / 2, Token("word", "rz", 1, 1))
    3
    """
    found = round(angle / (math.pi / 2))
    if abs(angle - found * math.pi / 2) > 1e-9:
        raise fault(name.line, name.column, f"{name.text} by the angle {angle:.6g} is no Clifford gate: a multiple of pi/2 is")
    return found % 4
