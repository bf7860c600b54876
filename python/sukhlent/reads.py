"""What is read off a state: its record, its generators, entanglement, values, amplitudes, and how it compares."""

from __future__ import annotations

from ctypes import c_uint8, c_uint64
from typing import TYPE_CHECKING, Any, Iterable, Tuple

from . import blocks, calls, explain, library
from .answers import Equivalence, Image, PlotLine, Renumbered
from .arguments import called, qubits, whole
from .lists import GeneratorList
from .refusals import Refusal, accept
from .rows import Row, row_words

if TYPE_CHECKING:
    from .state import State


class Reads:
    """The part of `State` that changes nothing."""

    __slots__ = ()
    _block: bytearray

    @property
    def n(self) -> int:
        """The number of qubits.

        >>> from sukhlent import State
        >>> State.zeros(5).n
        5
        """
        return (len(self._block) - 8) // 9

    @property
    def neighbours(self) -> tuple[int, ...]:
        """The neighbour word of each vertex: bit q is 1 where q is a neighbour.

        >>> from sukhlent import State
        >>> State.graph(3, [(0, 1), (1, 2)]).neighbours
        (2, 5, 2)
        """
        return blocks.parts(self._block)[0]

    @property
    def codes(self) -> tuple[int, ...]:
        """The code of each vertex.

        >>> from sukhlent import State
        >>> State.zeros(2).codes
        (8, 8)
        """
        return blocks.parts(self._block)[1]

    @property
    def used(self) -> int:
        """The word of used qubits: those that were measured.

        >>> from sukhlent import State
        >>> state = State.zeros(3)
        >>> _ = state.measure("X", 2)
        >>> bin(state.used)
        '0b100'
        """
        return blocks.used(self._block)

    def edges(self) -> list[tuple[int, int]]:
        """The edges of the graph, each once.

        >>> from sukhlent import State
        >>> State.graph(3, [(2, 1), (1, 0)]).edges()
        [(0, 1), (1, 2)]
        """
        words = self.neighbours
        return [(a, b) for a in range(self.n) for b in range(a + 1, self.n) if words[a] >> b & 1]

    def _buffers(self) -> Tuple[Any, Any]:
        """Neighbour words and codes as lent buffers."""
        n = self.n
        return (c_uint64 * n).from_buffer(self._block), (c_uint8 * n).from_buffer(self._block, 8 * n + 8)

    def generators(self) -> GeneratorList:
        """The record expanded: its n generators, in order.

        >>> from sukhlent import State
        >>> print(State([2, 1], [0, 8]).generators(), end="")
        +XX
        +ZZ
        """
        n = self.n
        signs, z, x = library.blank_octets(n), library.blank_words(n), library.blank_words(n)
        accept(library.call("expand", n, *self._buffers(), self.used, signs, z, x))
        return GeneratorList(tuple(signs), tuple(z), tuple(x))

    def key(self) -> bytes:
        """Bytes that are equal exactly for equal states, their used qubits included: a key for sets and dictionaries. A
        state itself has no hash, since calls change it.

        >>> from sukhlent import State
        >>> State.from_strings("+XX", "+ZZ").key() == State.from_strings("-YY", "+ZZ").key()
        True
        >>> {State.zeros(2).key(): "start"}[State.zeros(2).key()]
        'start'
        """
        copied = bytearray(self._block)
        accept(calls.reduce(copied))
        return bytes(copied)

    def __eq__(self, other: object) -> bool:
        """Whether the two stand for one state with the same used qubits: their reduced records are equal."""
        if not isinstance(other, Reads):
            return NotImplemented
        return calls.same(self._block, other._block)

    __hash__ = None  # type: ignore[assignment]

    def cut(self, side: Iterable[int]) -> int:
        """The entanglement between these qubits and the others: the rank of the edges between them.

        >>> from sukhlent import State
        >>> path = State.graph(4, [(0, 1), (1, 2), (2, 3)])
        >>> path.cut([0, 1]), path.cut([0, 2])
        (1, 2)
        """
        given = qubits(side, "cut(qubits)")
        strange = next((q for q in given if not 0 <= q < self.n), None)
        if strange is not None:
            raise Refusal(5, explain.far(strange, self.n))
        found = calls.cut(self._block, library.word_of(given))
        if found < 0:
            raise Refusal(-found)
        return found

    def amplitude(self, y: int) -> PlotLine:
        """The amplitude at the word y over that at the smallest word with a nonzero one, and the probability of y; bit q
        of y is qubit q.

        >>> from sukhlent import State
        >>> State.from_strings("-ZZ", "+XY").amplitude(2)
        PlotLine(re=0.0, im=1.0, p=0.5)
        """
        numbers = [library.FloatCell() for _ in range(3)]
        word = library.bits(whole(y, "a word of bits"))
        number = library.call("amplitude", self.n, *self._buffers(), self.used, word, *numbers)
        if number == 5:
            raise Refusal(5, f"the word {y} has a bit for a qubit that is not there: the state has {explain.span(self.n)}")
        accept(number)
        return PlotLine(*(cell.value for cell in numbers))  # type: ignore[arg-type]

    def expectation(self, row: Row) -> int:
        """The expectation value of a Pauli row such as `XZI`, `-YY`, `X_Z`, `X0*Z2` or `{0: "X", 2: "Z"}`: 1 where the row
        is in the group of the state, -1 where its negative is, 0 where neither is. A row of another form is refused by 1.

        >>> from sukhlent import State
        >>> bell = State.from_strings("+XX", "+ZZ")
        >>> [bell.expectation(row) for row in ("+XX", "+YY", "-YY", "XI", "X0*X1")]
        [1, -1, 1, 0, 1]
        """
        sign, z, x = row_words(row, self.n)
        found = calls.expectation(self._block, z, x)
        if found < 0:
            raise Refusal(-found)
        return (1, -1, 0)[found] * (1 - 2 * sign)

    def image(self) -> Image:
        """The graph to which the codes send the graph; refused by 11 or 12 where that is no graph's group.

        >>> from sukhlent import State
        >>> State([2, 1], [0, 2]).image()
        Image(neighbours=(2, 1), signs=(0, 1), complementations=())
        """
        n = self.n
        words, signs = library.blank_words(n), library.blank_octets(n)
        places, count = library.blank_octets(96), library.word()
        accept(library.call("image", n, *self._buffers(), words, signs, places, count))
        return Image(tuple(words), tuple(signs), tuple(places[: count.value]))

    def compare(self, other: State) -> "Equivalence | None":
        """The least choice of local Cliffords that carries this state onto the other; None where there is none. Refused by 3
        where a connected part has more than 20 vertices; `equivalent` takes parts of any size.

        >>> from sukhlent import State
        >>> path = State.graph(3, [(0, 1), (1, 2)])
        >>> triangle = State.graph(3, [(0, 1), (1, 2), (0, 2)])
        >>> path.compare(triangle)
        Equivalence(choice=(4, 12, 4), complementations=(1,))
        >>> print(path.compare(State.zeros(3)))
        None
        """
        return self._compared("compare_records", "compare(other)", other)

    def equivalent(self, other: State, renumbered: bool = False) -> "Equivalence | Renumbered | None":
        """What `compare` answers, for parts of any size. With `renumbered`, for up to 8 qubits, the first order of this
        state's qubits in which it is equivalent to the other, and the choice there: qubit q of the other is qubit
        `order[q]` of this one.

        >>> from sukhlent import State
        >>> path, star = State.graph(3, [(0, 1), (1, 2)]), State.graph(3, [(0, 1), (0, 2)])
        >>> path.equivalent(star).gates
        ('H', 'H', 'I')
        >>> longer, other = State.graph(4, [(0, 1), (1, 2), (2, 3)]), State.graph(4, [(0, 2), (2, 1), (1, 3)])
        >>> print(longer.equivalent(other))
        None
        >>> longer.equivalent(other, renumbered=True).order
        (0, 2, 1, 3)
        """
        if renumbered:
            from .renumbering import renumbering

            self._other(other, "equivalent(other)")
            return renumbering(self, other)  # type: ignore[arg-type]
        return self._compared("equivalent_records", "equivalent(other)", other)

    def _other(self, other: Any, call: str) -> None:
        """Another state on as many qubits."""
        if not isinstance(other, Reads):
            raise TypeError(f"{call}: expected a State, not {called(other)}")
        if other.n != self.n:
            raise Refusal(2, f"{call}: the other state has {other.n} qubits, this one {self.n}")

    def _compared(self, name: str, call: str, other: Reads) -> "Equivalence | None":
        self._other(other, call)
        choice, places, count = library.blank_octets(self.n), library.blank_octets(96), library.word()
        number = library.call(
            name, self.n, *self._buffers(), other.n, *other._buffers(), choice, places, count
        )
        if number == 13:
            return None
        accept(number)
        return Equivalence(tuple(choice), tuple(places[: count.value]))
