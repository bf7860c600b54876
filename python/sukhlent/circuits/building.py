"""A circuit while it is read: steps are gathered into batches, and qubits counted."""

from __future__ import annotations

from typing import Iterable

from ..refusals import Refusal
from .model import Batch, Circuit, Part, Repeat
from .steps import Step


def fault(line: int, column: int, why: str) -> Refusal:
    """The refusal of a circuit's text, with its place."""
    return Refusal(1, f"line {line}, column {column}: {why}")


def small(text: str) -> "int | None":
    """A number of at most nine digits; None of anything else.

    >>> small("12"), small("-1"), small("1" * 10)
    (12, None, None)
    """
    return int(text) if text.isascii() and text.isdigit() and len(text) <= 9 else None


class Building:
    """The parts of a circuit, or of a part of it."""

    def __init__(self) -> None:
        self.parts: list[Part] = []
        self._steps: list[Step] = []

    def steps(self, steps: Iterable[Step]) -> None:
        """More gates, behind those before."""
        self._steps.extend(steps)

    def part(self, part: Part) -> None:
        """A part that is no gate."""
        self.close()
        self.parts.append(part)

    def close(self) -> list[Part]:
        """All parts, the gates gathered so far as a batch."""
        if self._steps:
            self.parts.append(Batch(self._steps))
            self._steps = []
        return self.parts

    def repeat(self, count: int, body: Building) -> None:
        """A body that is done several times."""
        if count and body.close():
            self.part(Repeat(count, body.parts))


def circuit(building: Building, n: int, registers: "dict[str, int] | None" = None) -> Circuit:
    """The circuit that was read."""
    return Circuit(n, building.close(), registers or {})
