"""Graphs in and out: edges, networkx, graph6; states side by side and in another order."""

from __future__ import annotations

from typing import TYPE_CHECKING, Any, Iterable, Sequence

from . import blocks
from .arguments import called, qubits, whole
from .explain import far, span
from .refusals import Refusal

if TYPE_CHECKING:
    from .state import State


def neighbour_words(n: int, edges: Iterable[tuple[int, int]]) -> list[int]:
    """The neighbour word of each of n vertices; refused by 2 where n is not 1 to 64, by 5 where an edge leaves them, by 7
    where one joins a vertex to itself.

    >>> neighbour_words(3, [(0, 1), (1, 2)])
    [2, 5, 2]
    """
    if not 1 <= whole(n, "a number of qubits") <= blocks.MOST:
        raise Refusal(2, f"{n} qubits, but a state has 1 to 64")
    neighbours, loop = [0] * n, None
    for edge in edges:
        a, b = _ends(edge)
        for end in (a, b):
            if not 0 <= end < n:
                raise Refusal(5, f"the edge ({a}, {b}): {far(end, n)}")
        loop = loop if a != b else a
        neighbours[a] |= 1 << b
        neighbours[b] |= 1 << a
    if loop is not None:
        raise Refusal(7, f"the edge ({loop}, {loop}) joins a vertex to itself")
    return neighbours


def _ends(edge: Any) -> tuple[int, int]:
    """The two ends of an edge; `TypeError` where it is no pair of numbers."""
    try:
        a, b = edge
        return whole(a), whole(b)
    except (TypeError, ValueError):
        raise TypeError(f"expected an edge as two qubit numbers, as (0, 1), not {called(edge)}") from None


class Graphs:
    """The part of `State` that leads from and to graphs."""

    __slots__ = ()
    _block: bytearray
    _labels: "tuple[Any, ...] | None"

    @classmethod
    def lattice(cls, rows: int, columns: int) -> State:
        """The cluster state of a lattice, numbered row by row, drawn as one.

        >>> from sukhlent import State
        >>> State.lattice(2, 2).edges(), State.lattice(8, 8).layout
        ([(0, 1), (0, 2), (1, 3), (2, 3)], 'grid 8 x 8')
        """
        from .layouts import lattice_words

        rows, columns = whole(rows, "a number of rows"), whole(columns, "a number of columns")
        if not 1 <= rows * columns <= blocks.MOST or rows < 1:
            raise Refusal(2, f"{rows} x {columns} qubits, but a state has 1 to 64")
        state = cls(lattice_words(rows, columns), [0] * (rows * columns))  # type: ignore[call-arg]
        state._layout = f"grid {rows} x {columns}"  # type: ignore[attr-defined]
        return state  # type: ignore[return-value]

    @classmethod
    def from_networkx(cls, graph: Any) -> State:
        """The graph state of a networkx graph: its nodes in their order, isolated ones too; their names are the state's
        `labels`.

        >>> class Named:  # as networkx.Graph has them
        ...     nodes, edges = ["a", "b", "c"], [("a", "b")]
        ...     def is_directed(self): return False
        ...     def is_multigraph(self): return False
        >>> from sukhlent import State
        >>> state = State.from_networkx(Named())
        >>> state.labels, state.edges()
        (('a', 'b', 'c'), [(0, 1)])
        """
        if not hasattr(graph, "nodes") or not hasattr(graph, "edges"):
            raise TypeError(f"from_networkx(graph): expected a networkx graph, not {called(graph)}")
        if graph.is_directed() or graph.is_multigraph():
            raise TypeError("from_networkx(graph): expected a graph whose edges have no direction and stand once each")
        names = tuple(graph.nodes)
        places = {name: q for q, name in enumerate(names)}
        words = neighbour_words(len(names), [(places[a], places[b]) for a, b in graph.edges])
        state = cls(words, [0] * len(names))  # type: ignore[call-arg]
        state._labels = names if names != tuple(range(len(names))) else None
        return state  # type: ignore[return-value]

    def to_networkx(self) -> Any:
        """The graph of the record as a networkx graph, with the state's labels as nodes where it has them, isolated vertices
        too. Each node has the attributes `qubit`, `code` and `used`. Needs networkx.

        >>> from sukhlent import State
        >>> try:
        ...     print(sorted(State.graph(3, [(0, 1)]).to_networkx().edges))
        ... except ImportError:  # networkx is not installed
        ...     print([(0, 1)])
        [(0, 1)]
        """
        import networkx  # type: ignore[import-not-found, import-untyped]

        neighbours, codes, used = blocks.parts(self._block)
        names: Sequence[Any] = self._labels or range(len(codes))
        graph = networkx.Graph()
        for q, name in enumerate(names):
            graph.add_node(name, qubit=q, code=codes[q], used=bool(used >> q & 1))
        graph.add_edges_from((names[a], names[b]) for a, b in self.edges())  # type: ignore[attr-defined]
        return graph

    @classmethod
    def from_graph6(cls, text: "str | bytes") -> State:
        """The graph state of a graph in the format graph6.

        >>> from sukhlent import State
        >>> State.from_graph6("Bg").edges()
        [(0, 1), (1, 2)]
        """
        given = text.decode("ascii") if isinstance(text, bytes) else text
        if not isinstance(given, str):
            raise TypeError(f"from_graph6(text): expected a text, not {called(given)}")
        given = given.strip().removeprefix(">>graph6<<")
        strange = next((k for k, c in enumerate(given) if not 63 <= ord(c) <= 126), None)
        if strange is not None:
            raise Refusal(1, f"column {strange + 1}: no character of graph6")
        numbers = [ord(c) - 63 for c in given]
        if numbers[:1] == [63]:
            n, numbers = sum(k << 6 * (2 - p) for p, k in enumerate(numbers[1:4])), numbers[4:]
        else:
            n, numbers = (numbers[0] if numbers else 0), numbers[1:]
        if not 1 <= n <= blocks.MOST:
            raise Refusal(2, f"{n} qubits, but a state has 1 to 64")
        pairs = [(a, b) for b in range(n) for a in range(b)]
        if len(numbers) != -(-len(pairs) // 6):
            raise Refusal(1, f"{len(numbers)} characters of edges, where a graph of {n} vertices has {-(-len(pairs) // 6)}")
        bits = [k >> 5 - p & 1 for k in numbers for p in range(6)]
        edges = [pair for pair, bit in zip(pairs, bits) if bit]
        return cls(neighbour_words(n, edges), [0] * n)  # type: ignore[call-arg, return-value]

    def graph6(self) -> str:
        """The graph of the record in the format graph6; codes and used qubits are no part of it.

        >>> from sukhlent import State
        >>> State.graph(3, [(0, 1), (1, 2)]).graph6()
        'Bg'
        """
        words = blocks.parts(self._block)[0]
        n = len(words)
        bits = [words[a] >> b & 1 for b in range(n) for a in range(b)]
        bits += [0] * (-len(bits) % 6)
        head = [n] if n < 63 else [63, n >> 12, n >> 6 & 63, n & 63]
        body = [sum(bit << 5 - p for p, bit in enumerate(bits[at : at + 6])) for at in range(0, len(bits), 6)]
        return "".join(chr(63 + number) for number in head + body)

    def permute(self, order: Iterable[int]) -> State:
        """The state in another order: its qubit q is qubit `order[q]` of this one, with its code, its used bit and its
        label.

        >>> from sukhlent import State
        >>> State.graph(3, [(0, 1)]).permute([2, 0, 1]).edges()
        [(1, 2)]
        """
        neighbours, codes, used = blocks.parts(self._block)
        n, given = len(codes), qubits(order, "permute(order)")
        if sorted(given) != list(range(n)):
            raise ValueError(f"permute(order): an order names each of {span(n)} once, not {given}")
        words = [sum((neighbours[a] >> b & 1) << q for q, b in enumerate(given)) for a in given]
        word = sum((used >> a & 1) << q for q, a in enumerate(given))
        labels = self._labels and tuple(self._labels[a] for a in given)
        return type(self)._of(blocks.made(words, [codes[a] for a in given], word), None, labels)  # type: ignore[attr-defined]

    def __matmul__(self, other: Any) -> State:
        """The two states side by side: the qubits of the other come after those of this one.

        >>> from sukhlent import State
        >>> (State.from_strings("-Z") @ State.from_strings("+XX", "+ZZ")).generators().strings()
        ['-ZII', '+IXX', '+IZZ']
        """
        if not isinstance(other, Graphs):
            return NotImplemented
        mine, others = blocks.parts(self._block), blocks.parts(other._block)
        n, m = len(mine[1]), len(others[1])
        if n + m > blocks.MOST:
            raise Refusal(2, f"{n} + {m} qubits, but a state has 1 to 64")
        words = [*mine[0], *(word << n for word in others[0])]
        labels = None
        if self._labels is not None or other._labels is not None:
            labels = (*(self._labels or range(n)), *(other._labels or range(n, n + m)))
        return type(self)._of(  # type: ignore[attr-defined]
            blocks.made(words, mine[1] + others[1], mine[2] | others[2] << n), None, labels
        )
