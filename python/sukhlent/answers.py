"""What the calls answer, as objects."""

from __future__ import annotations

from dataclasses import dataclass

from .codes import NAMES


@dataclass(frozen=True)
class Measured:
    """What a measurement answers: the outcome (1 for minus), and whether the state determined it.

    >>> from sukhlent import State
    >>> State.zeros(1).measure("Z", 0, 0)
    Measured(outcome=0, determined=True)
    """

    outcome: int
    determined: bool


@dataclass(frozen=True)
class PlotLine:
    """An amplitude over that at the smallest word with a nonzero amplitude, by its real and imaginary part, and the
    probability of its word. All are 0 where the amplitude is.

    >>> from sukhlent import State
    >>> State.from_strings("+X").amplitude(1)
    PlotLine(re=1.0, im=0.0, p=0.5)
    """

    re: float
    im: float
    p: float


@dataclass(frozen=True)
class Equivalence:
    """What a comparison finds: the least choice of a local Clifford per qubit that carries the first state onto the
    second, and the vertices at which the first reduced graph is complemented, in order, to become the second.

    >>> from sukhlent import State
    >>> found = State.graph(3, [(0, 1), (1, 2)]).compare(State.graph(3, [(0, 1), (1, 2), (0, 2)]))
    >>> found.choice, found.complementations
    ((4, 12, 4), (1,))
    """

    choice: tuple[int, ...]
    complementations: tuple[int, ...]

    @property
    def gates(self) -> tuple[str, ...]:
        """The choice by names.

        >>> Equivalence((4, 12, 4), (1,)).gates
        ('S', 'SQRT_X_DAG', 'S')
        """
        return tuple(NAMES[number] for number in self.choice)


@dataclass(frozen=True)
class Image:
    """The graph to which a state's codes send its graph: neighbour words, minus signs, and complementations done.

    >>> from sukhlent import State
    >>> State([6, 1, 1], [12, 4, 4]).image()
    Image(neighbours=(6, 5, 3), signs=(0, 0, 0), complementations=(0,))
    """

    neighbours: tuple[int, ...]
    signs: tuple[int, ...]
    complementations: tuple[int, ...]


@dataclass(frozen=True)
class Renumbered:
    """What a comparison with renumbering finds: qubit q of the second state is qubit `order[q]` of the first; then a local
    Clifford per qubit of the second, and complementations, as in an `Equivalence`.

    >>> from sukhlent import State
    >>> star, other = State.graph(3, [(0, 1), (0, 2)]), State.graph(3, [(2, 1), (2, 0)])
    >>> star.equivalent(other, renumbered=True)
    Renumbered(order=(0, 1, 2), choice=(8, 0, 8), complementations=(0, 2, 0))
    """

    order: tuple[int, ...]
    choice: tuple[int, ...]
    complementations: tuple[int, ...]

    @property
    def gates(self) -> tuple[str, ...]:
        """The choice by names.

        >>> Renumbered((1, 0), (4, 12), ()).gates
        ('S', 'SQRT_X_DAG')
        """
        return tuple(NAMES[number] for number in self.choice)
