"""Generator lists: n signed Pauli rows on n qubits."""

from __future__ import annotations

from dataclasses import dataclass
from typing import Iterable

from . import library
from .reading import Line, plain_lines, strict_strings, string_fault
from .refusals import Refusal, accept
from .rows import row_words

_LETTERS = "IXZY"


def _letters(z: int, x: int, n: int) -> str:
    """The letters of a row."""
    return "".join(_LETTERS[2 * (z >> q & 1) + (x >> q & 1)] for q in range(n))


def _clash(rows: "list[tuple[int, int]]") -> "tuple[int, int] | None":
    """The first two rows, each a z word and an x word, that do not commute."""
    for b, (z, x) in enumerate(rows):
        for a in range(b):
            if bin(rows[a][0] & x).count("1") + bin(rows[a][1] & z).count("1") & 1:
                return a, b
    return None


def _product(rows: "list[tuple[int, int]]") -> "int | None":
    """The first row that is a product of those before it, signs dropped."""
    basis: list[int] = []
    for k, (z, x) in enumerate(rows):
        word = z << 64 | x
        for other in basis:
            word = min(word, word ^ other)
        if word == 0:
            return k
        basis.append(word)
    return None


def _of_text(number: int, lines: list[Line], strict: str, fault: "str | None") -> Refusal:
    """The refusal of a text of strings, by the numbers of its lines."""
    if number == 2:
        return Refusal(2, f"{len(lines)} strings, but a state has 1 to 64 qubits")
    if number not in (9, 10):
        return Refusal(number, fault or "" if number == 1 else "")
    places = [line.number for line in lines]
    return Refusal(number, _why(number, [row_words(line, len(lines))[1:] for line in strict.splitlines()], "line", places))


def _why(number: int, rows: "list[tuple[int, int]]", noun: str, places: "list[int]") -> str:
    """Why rows are refused by 9 or 10."""
    pair, product = _clash(rows) if number == 9 else None, _product(rows) if number == 10 else None
    if pair is not None:
        return f"{noun}s {places[pair[0]]} and {places[pair[1]]} do not commute"
    return f"{noun} {places[product]} is a product of those before it, up to its sign" if product is not None else ""


@dataclass(frozen=True, repr=False)
class GeneratorList:
    """Signs (1 for minus), z words and x words; bit q of a word belongs to qubit q.

    >>> bell = GeneratorList((0, 1), (0, 3), (3, 0))
    >>> bell
    GeneratorList.from_strings('+XX', '-ZZ')
    >>> bell.signs, bell.z, bell.x
    ((0, 1), (0, 3), (3, 0))
    >>> print(bell, end="")
    +XX
    -ZZ
    """

    signs: tuple[int, ...]
    z: tuple[int, ...]
    x: tuple[int, ...]

    @property
    def n(self) -> int:
        """The number of generators and of qubits.

        >>> GeneratorList.from_strings("-Y").n
        1
        """
        return len(self.signs)

    @classmethod
    def from_strings(cls, *lines: "str | Iterable[str]") -> GeneratorList:
        """The list of strings such as `+XZ`, leftmost letter qubit 0: one by one, in one iterable, or as one text of lines. A
        plus may be left out, and I may be written _.

        >>> GeneratorList.from_strings("+XX", "-ZZ") == GeneratorList.from_strings(["XX", "-ZZ"])
        True
        >>> GeneratorList.from_strings("+XI", "+ZI")
        Traceback (most recent call last):
        ...
        sukhlent.refusals.Refusal: refused 9: lines 1 and 2 do not commute
        """
        if len(lines) != 1 or isinstance(lines[0], str) and "\n" not in lines[0]:
            return cls.from_text(lines)  # type: ignore[arg-type]
        return cls.from_text(lines[0])

    @classmethod
    def from_text(cls, text: "str | Iterable[str]") -> GeneratorList:
        """The list of a text of such strings, one a line; or of an iterable of its lines, as an open file is. Blank lines,
        spaces at the ends of a line, carriage returns and a byte order mark in front are left out; what is left is read by
        the proved reader.

        >>> GeneratorList.from_text("+XX\\n-ZZ\\n").strings()
        ['+XX', '-ZZ']
        >>> GeneratorList.from_text(["X_", "-_Z"]).strings()
        ['+XI', '-IZ']
        """
        lines = plain_lines(text)
        fault = string_fault(lines)
        strict = strict_strings(lines)
        n = len(lines)
        signs, z, x = library.blank_octets(n), library.blank_words(n), library.blank_words(n)
        number = library.call("read_strings", library.octets(strict.encode("utf-8", "surrogateescape")), signs, z, x)
        if number:
            raise _of_text(number, lines, strict, fault)
        return cls(tuple(signs), tuple(z), tuple(x))

    def __repr__(self) -> str:
        n = self.n
        words = (*self.z, *self.x)
        sound = all(isinstance(word, int) and 0 <= word < 1 << n for word in words) and not set(self.signs) - {0, 1}
        if len(self.z) != n or len(self.x) != n or not sound:
            return f"GeneratorList({self.signs!r}, {self.z!r}, {self.x!r})"
        rows = zip(self.signs, self.z, self.x)
        return f"GeneratorList.from_strings({', '.join(repr('+-'[sign] + _letters(z, x, n)) for sign, z, x in rows)})"

    def __str__(self) -> str:
        text = library.blank_octets(self.n * (self.n + 2))
        accept(library.call("write_strings", self.n, *self.buffers(), text))
        return bytes(text).decode()

    def strings(self) -> list[str]:
        """The generators as strings, one each.

        >>> GeneratorList((0, 1), (0, 3), (3, 0)).strings()
        ['+XX', '-ZZ']
        """
        return str(self).splitlines()

    def text(self) -> str:
        """The text that the program `reduce` reads.

        >>> print(GeneratorList.from_strings("-Z").text(), end="")
        sign z x
        1 0000000000000001 0000000000000000
        """
        rows = zip(self.signs, self.z, self.x)
        return "".join(["sign z x\n", *(f"{sign} {z:016x} {x:016x}\n" for sign, z, x in rows)])

    def refused(self, number: int) -> Refusal:
        """The refusal of this list in words that name its generators, counted from 0.

        >>> GeneratorList((0, 0), (0, 1), (1, 0)).refused(9)
        Refusal(9, 'generators 0 and 1 do not commute')
        """
        return Refusal(number, _why(number, list(zip(self.z, self.x)), "generator", list(range(self.n))))

    def buffers(self) -> tuple[library.Argument, ...]:
        """Signs, z words and x words as lent buffers."""
        return library.octets(self.signs), library.words(self.z), library.words(self.x)

    def check(self) -> None:
        """Raises `Refusal` where this is no generator list: wrong words, not commuting, or dependent.

        >>> GeneratorList((0, 0), (0, 0), (3, 3)).check()
        Traceback (most recent call last):
        ...
        sukhlent.refusals.Refusal: refused 10: generator 1 is a product of those before it, up to its sign
        """
        number = library.call("check", self.n, *self.buffers())
        if number:
            raise self.refused(number)

    def product(self, *rows: int) -> tuple[int, str]:
        """The product of these rows in index order: the power of i in front of it, and its letters.

        The rows of the list need neither commute nor be independent; a row that is named twice is taken once.

        >>> GeneratorList((0, 0), (0, 1), (1, 1)).product(0, 1)
        (1, 'ZI')
        """
        z, x, phase = library.word(), library.word(), library.octet()
        chosen = library.word_of(rows)
        accept(library.call("product", self.n, *self.buffers(), chosen, z, x, phase))
        return phase.value, _letters(z.value, x.value, self.n)
