"""A state as text and as a picture."""

from __future__ import annotations

from pathlib import Path
from typing import Any

from . import beyond, blocks, files
from .drawing import record_svg
from .layouts import Layout, lattice_of, places
from .pictures import draw


class Shows:
    """The part of `State` that shows it."""

    __slots__ = ()
    _block: bytearray
    _layout: Layout
    _labels: "tuple[Any, ...] | None"

    def __str__(self) -> str:
        return beyond.record_text(self._block)[:-1]

    def save(self, path: files.Place) -> None:
        """Writes the record's text to a file, flushed: after a power cut the file is the old one or the new one, whole. The
        layout and the labels are not in it.

        >>> import tempfile
        >>> from sukhlent import State
        >>> with tempfile.TemporaryDirectory() as folder:
        ...     State.zeros(1).save(folder + "/state.txt")
        ...     print(files.read(folder + "/state.txt"), end="")
        qubit code neighbours used
        0 8 0000000000000000 0
        """
        files.replace(path, beyond.record_text(self._block))

    def __repr__(self) -> str:
        neighbours, codes, used = blocks.parts(self._block)
        return f"State({list(neighbours)}, {list(codes)}, {used})"

    @property
    def layout(self) -> Layout:
        """How the state is drawn where a drawing is not told otherwise: "circle", "line", "grid 8 x 8", or a place for each
        vertex; None is a circle, or the grid of a graph that is a lattice. It stays with copies, and a lattice that `graph`
        makes keeps its grid.

        >>> from sukhlent import State
        >>> state = State.zeros(6)
        >>> state.layout = "grid 2 x 3"
        >>> state.copy().layout
        'grid 2 x 3'
        """
        return self._layout

    @layout.setter
    def layout(self, layout: Layout) -> None:
        found = places(layout, blocks.size(self._block))
        self._layout = layout if layout is None or isinstance(layout, str) else found

    @property
    def labels(self) -> "tuple[Any, ...] | None":
        """What the vertices are called, where they have names: those of a networkx graph. None: their numbers.

        >>> from sukhlent import State
        >>> print(State.zeros(2).labels)
        None
        """
        return self._labels

    def svg(self, layout: Layout = None) -> str:
        """A drawing: at the places of `layout`, else of the state's own layout; a code as its gate; a used vertex hollow,
        with what was measured.

        >>> from sukhlent import State
        >>> State.graph(3, [(0, 1), (1, 2)]).svg().count("<line")
        2
        """
        neighbours, codes, used = blocks.parts(self._block)
        own = self._layout if self._layout is not None else lattice_of(neighbours)
        return record_svg(neighbours, codes, used, own if layout is None else layout, labels=self._labels)

    def draw(self, file: "str | Path", layout: Layout = None) -> None:
        """Writes the drawing to a file: .svg, .png or .pdf. (A notebook shows a state by itself.)

        >>> import os, tempfile
        >>> from sukhlent import State
        >>> with tempfile.TemporaryDirectory() as folder:
        ...     State.zeros(2).draw(folder + "/state.svg")
        ...     os.listdir(folder)
        ['state.svg']
        """
        draw(self.svg(layout), file)

    def _repr_svg_(self) -> str:
        return self.svg()
