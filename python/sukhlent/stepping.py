"""The steps of a session's log on a record's block: those of a job, and observe and renew."""

from __future__ import annotations

from typing import Callable, NamedTuple

from . import calls
from .running import run_tuples

#: the largest number that a field of a line holds; it stands for every other one, and is refused as they are
MOST = 999


class Fields(NamedTuple):
    """A step as a line has it: the name of its operation, two qubits and a value."""

    op: str
    a: int
    b: int
    value: int


class Answer(NamedTuple):
    """What a step answered: its refusal (0 where it ran), the outcome and whether it was determined."""

    refusal: int
    outcome: int
    determined: int


def field(number: int) -> int:
    """A number as a field of a line.

    >>> field(3), field(-1), field(1 << 70)
    (3, 999, 999)
    """
    return number if 0 <= number <= MOST else MOST


def reading(pauli: int, bit: int) -> int:
    """The value of a measurement: 2 * (Pauli - 1) + bit; of what is no Pauli or no bit, one that is refused as they are.

    >>> reading(3, 1), reading(1, 3), reading(0, 0)
    (5, 999, 999)
    """
    return 2 * (pauli - 1) + bit if 1 <= pauli <= 3 and 0 <= bit <= 1 else MOST


def done(block: bytearray, step: Fields) -> Answer:
    """Does a step on a block. A refused one changes nothing.

    >>> from sukhlent import blocks
    >>> block = blocks.made([0], [8], 0)
    >>> [tuple(done(block, Fields(op, 0, 0, value))) for op, value in (("observe", 1), ("gate", 8), ("renew", 0))]
    [(0, 1, 0), (16, 0, 0), (0, 0, 0)]
    """
    unused, does = _DOES[step.op]
    return Answer(6, 0, 0) if unused(step) else does(block, step)


def _plain(call: Callable[..., int]) -> Callable[[bytearray, Fields], Answer]:
    """A step that measures nothing."""
    return lambda block, step: Answer(call(block, step), 0, 0)


def _measured(call: Callable[..., int]) -> Callable[[bytearray, Fields], Answer]:
    """A measurement, with the outcome or with a bit by lot."""

    def does(block: bytearray, step: Fields) -> Answer:
        found = call(block, step.value // 2 + 1, step.a, step.value % 2)
        return Answer(-found, 0, 0) if found < 0 else Answer(0, found & 1, found >> 1)

    return does


def _pivot(block: bytearray, step: Fields) -> Answer:
    return Answer(*run_tuples(block, [(4, step.a, step.b, 0)])[0])


#: the name of a step: whether it has a field that it does not use or a value that is none, and what it does
_DOES: "dict[str, tuple[Callable[[Fields], bool], Callable[[bytearray, Fields], Answer]]]" = {
    "gate": (lambda step: step.b != 0, _plain(lambda block, step: calls.gate(block, step.a, step.value))),
    "cz": (lambda step: step.value != 0, _plain(lambda block, step: calls.cz(block, step.a, step.b))),
    "measure": (lambda step: step.b != 0 or step.value > 5, _measured(calls.measure)),
    "complement": (
        lambda step: step.b != 0 or step.value != 0,
        _plain(lambda block, step: calls.complement(block, step.a)),
    ),
    "pivot": (lambda step: step.value != 0, _pivot),
    "observe": (lambda step: step.b != 0 or step.value > 5, _measured(calls.observe)),
    "renew": (lambda step: step.b != 0, _plain(lambda block, step: calls.renew(block, step.a, step.value))),
}

#: the names of the steps, in the order of their numbers
NAMES = tuple(_DOES)
