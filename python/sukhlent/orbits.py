"""The graphs that local complementations reach from one, on up to six vertices."""

from __future__ import annotations

import ctypes
from dataclasses import dataclass
from typing import Iterable, Iterator

from . import library
from .graphs import neighbour_words
from .refusals import Refusal


def number_of(n: int, edges: Iterable[tuple[int, int]]) -> int:
    """A graph's number: its pairs 0-1, 0-2, .., 1-2, .. read as bits, the first lowest. An edge that is named twice is one
    edge; refused by 5 where an edge leaves the n vertices, by 7 where it joins one to itself.

    >>> number_of(4, [(0, 3)]), number_of(4, [(0, 3), (3, 0)])
    (4, 4)
    """
    words = neighbour_words(n, edges)
    pairs = [(a, b) for a in range(n) for b in range(a + 1, n)]
    return sum((words[a] >> b & 1) << place for place, (a, b) in enumerate(pairs))


def edges_of(n: int, number: int) -> list[tuple[int, int]]:
    """The edges of the graph with this number.

    >>> edges_of(4, 4)
    [(0, 3)]
    """
    pairs = [(a, b) for a in range(n) for b in range(a + 1, n)]
    if not 0 <= number < 1 << len(pairs):
        raise ValueError(f"a graph on {n} vertices has a number below {1 << len(pairs)}, not {number}")
    return [pair for place, pair in enumerate(pairs) if number >> place & 1]


@dataclass(frozen=True)
class Orbit:
    """All graphs that complementations reach from one, each once: their numbers, rising.

    >>> orbit(2, [(0, 1)])
    Orbit(n=2, numbers=[1])
    """

    n: int
    numbers: list[int]

    def graphs(self) -> Iterator[list[tuple[int, int]]]:
        """The edges of each graph, in the order of the numbers.

        >>> list(Orbit(3, [3, 7]).graphs())
        [[(0, 1), (0, 2)], [(0, 1), (0, 2), (1, 2)]]
        """
        return (edges_of(self.n, number) for number in self.numbers)


def orbit(n: int, edges: Iterable[tuple[int, int]]) -> Orbit:
    """All graphs that complementations reach from this one, itself among them; refused by 2 where n is not 1 to 6.

    >>> path = orbit(3, [(0, 1), (1, 2)])
    >>> path.numbers
    [3, 5, 6, 7]
    """
    places, count = (ctypes.c_uint16 * 32768)(), library.word()
    number = library.call("orbit", n, library.words(neighbour_words(n, edges)), places, count)
    if number:
        raise Refusal(number, f"{n} vertices, but an orbit has 1 to 6" if number == 2 else "")
    return Orbit(n, list(places[: count.value]))
