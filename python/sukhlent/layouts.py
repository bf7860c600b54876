"""Places for the vertices of a drawing: on a circle, on a line, on a grid, or given one by one."""

from __future__ import annotations

import math
import re
from typing import Iterable, Sequence, Union

from .arguments import called

#: a place in pixels, right and down
Place = tuple[float, float]

#: "circle", "line", "grid 8 x 8" or "8x8", or a place for each vertex; None is the circle
Layout = Union[None, str, Iterable[Place]]

_STEP = 70.0


def circle(n: int) -> list[Place]:
    """Places of n vertices on a circle, vertex 0 on top, going right.

    >>> circle(4)
    [(0.0, -60.0), (60.0, 0.0), (0.0, 60.0), (-60.0, 0.0)]
    """
    radius = 0.0 if n == 1 else max(60.0, 12.0 * n)
    angles = (2 * math.pi * q / n for q in range(n))
    return [(round(radius * math.sin(t), 6) + 0.0, round(-radius * math.cos(t), 6) + 0.0) for t in angles]


def grid(rows: int, columns: int) -> list[Place]:
    """Places of rows × columns vertices, row by row.

    >>> grid(2, 2)
    [(0.0, 0.0), (70.0, 0.0), (0.0, 70.0), (70.0, 70.0)]
    """
    return [(_STEP * column, _STEP * row) for row in range(rows) for column in range(columns)]


def line(n: int) -> list[Place]:
    """Places of n vertices from left to right.

    >>> line(3)
    [(0.0, 0.0), (70.0, 0.0), (140.0, 0.0)]
    """
    return grid(1, n)


def places(layout: Layout, n: int) -> "list[Place] | None":
    """The places that a layout names for n vertices; None is the circle.

    >>> places("grid 1 x 2", 2) == places("line", 2) == places("1x2", 2)
    True
    >>> places("2x2", 3)
    Traceback (most recent call last):
    ...
    ValueError: the layout 2x2 is not circle, line, or rows and columns, as 2x3 or 'grid 2 x 3', of 3 vertices
    """
    if layout is None or layout == "circle":
        return None
    if layout == "line":
        return line(n)
    if isinstance(layout, str):
        found = re.fullmatch(r"(?:grid\s+)?(\d+)\s*[x×]\s*(\d+)", layout.strip())
        if found is None or int(found[1]) * int(found[2]) != n:
            raise ValueError(
                f"the layout {layout} is not circle, line, or rows and columns, as 2x3 or 'grid 2 x 3', of {n} vertices"
            )
        return grid(int(found[1]), int(found[2]))
    try:
        given = [(float(x), float(y)) for x, y in layout]
    except (TypeError, ValueError):
        raise TypeError(f"a layout is circle, line, rows and columns, or a place for each vertex, not {called(layout)}") from None
    if len(given) != n:
        raise ValueError(f"a layout of {len(given)} places for {n} vertices")
    return given


def lattice_of(neighbours: Sequence[int]) -> "str | None":
    """The layout of a graph that is a whole lattice of at least two rows and columns, numbered row by row; else None.

    >>> lattice_of([0b0110, 0b1001, 0b1001, 0b0110]), lattice_of([2, 1])
    ('grid 2 x 2', None)
    """
    n = len(neighbours)
    for columns in range(2, n // 2 + 1):
        if n % columns == 0 and list(neighbours) == lattice_words(n // columns, columns):
            return f"grid {n // columns} x {columns}"
    return None


def lattice_words(rows: int, columns: int) -> list[int]:
    """The neighbour words of a lattice, numbered row by row.

    >>> lattice_words(1, 3)
    [2, 5, 2]
    """
    words = [0] * (rows * columns)
    for q in range(rows * columns):
        for other in ([q + 1] if (q + 1) % columns else []) + ([q + columns] if q + columns < rows * columns else []):
            words[q] |= 1 << other
            words[other] |= 1 << q
    return words
