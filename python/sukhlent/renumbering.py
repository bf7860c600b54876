"""Equivalence of two states where qubits may be renumbered, on up to eight qubits: an order is built up qubit by qubit, as
long as every cut of the qubits in it has the rank that it has in the other state, and the whole order is compared."""

from __future__ import annotations

from typing import TYPE_CHECKING, Iterator

from . import blocks, calls
from .answers import Renumbered
from .refusals import Refusal

if TYPE_CHECKING:
    from .state import State

#: the most qubits
MOST = 8


def renumbering(first: State, second: State) -> "Renumbered | None":
    """The first order of the qubits of one state in which it is equivalent to another, and how; None where there is none.

    >>> from sukhlent import State
    >>> path = State.graph(4, [(0, 1), (1, 2), (2, 3)])
    >>> renumbering(path, State.graph(4, [(0, 2), (2, 1), (1, 3)]))
    Renumbered(order=(0, 2, 1, 3), choice=(0, 0, 0, 0), complementations=())
    """
    n = first.n
    if n > MOST:
        raise Refusal(2, f"{n} qubits, but equivalence with renumbering is for at most {MOST}")
    mine, others = _ranks(first), _ranks(second)
    for order in _orders((), mine, others, n):
        found = first.permute(order).equivalent(second)
        if found is not None:
            return Renumbered(order, found.choice, found.complementations)
    return None


def _ranks(state: State) -> list[int]:
    """The rank of each cut, by the word of its side."""
    return [calls.cut(state._block, side) for side in range(1 << blocks.size(state._block))]


def _orders(begun: tuple[int, ...], mine: list[int], others: list[int], n: int) -> Iterator[tuple[int, ...]]:
    """The orders that begin so and keep every cut rank, the least first."""
    if len(begun) == n:
        yield begun
        return
    for qubit in range(n):
        longer = (*begun, qubit)
        if qubit not in begun and _keeps(longer, mine, others):
            yield from _orders(longer, mine, others, n)


def _keeps(order: tuple[int, ...], mine: list[int], others: list[int]) -> bool:
    """Whether every cut of these qubits with the last one among them has the rank of its image."""
    last = len(order) - 1
    for side in range(1 << last, 2 << last):
        image = sum(1 << qubit for q, qubit in enumerate(order) if side >> q & 1)
        if mine[image] != others[side]:
            return False
    return True
