"""Gates, CNOT and measurements by lot in terms of a few calls: what a state and a group's handle have in common."""

from __future__ import annotations

from .answers import Measured
from .lots import Source, bits_from

#: what a measurement answers, by outcome + 2 where it was determined
MEASURED = (Measured(0, False), Measured(1, False), Measured(0, True), Measured(1, True))


class Gates:
    """What has `gate`, `cz`, `_measured` and `_observed` has all of these."""

    __slots__ = ()

    def gate(self, qubit: int, gate: "int | str") -> None:
        """Applies a local Clifford."""
        raise NotImplementedError

    def _measured(self, pauli: "str | int", qubit: int, outcome: int) -> int:
        """The outcome, and 2 more where it was determined; raises where it is refused."""
        raise NotImplementedError

    def _observed(self, pauli: "str | int", qubit: int, bit: int) -> int:
        """The same with a bit by lot, which plays no part where the state determines the outcome."""
        raise NotImplementedError

    def h(self, qubit: int) -> None:
        """The Hadamard.

        >>> from sukhlent import State
        >>> state = State.zeros(1)
        >>> state.h(0)
        >>> state.generators().strings()
        ['+X']
        """
        self.gate(qubit, 8)

    def s(self, qubit: int) -> None:
        """The phase gate.

        >>> from sukhlent import State
        >>> state = State.from_strings("+X")
        >>> state.s(0)
        >>> state.generators().strings()
        ['+Y']
        """
        self.gate(qubit, 4)

    def x(self, qubit: int) -> None:
        """X.

        >>> from sukhlent import State
        >>> state = State.zeros(1)
        >>> state.x(0)
        >>> state.generators().strings()
        ['-Z']
        """
        self.gate(qubit, 1)

    def y(self, qubit: int) -> None:
        """Y.

        >>> from sukhlent import State
        >>> state = State.from_strings("+X")
        >>> state.y(0)
        >>> state.generators().strings()
        ['-X']
        """
        self.gate(qubit, 3)

    def z(self, qubit: int) -> None:
        """Z.

        >>> from sukhlent import State
        >>> state = State.from_strings("+Y")
        >>> state.z(0)
        >>> state.generators().strings()
        ['-Y']
        """
        self.gate(qubit, 2)

    def measure(
        self, pauli: "str | int", qubit: int, outcome: "int | None" = None, source: Source = None
    ) -> Measured:
        """Measures X, Y or Z, by letter or as 1, 2 or 3. A given outcome that the state forbids is refused by 14; without
        one the outcome is the state's, or a fair bit drawn from `source`: `random.Random`, numpy's Generator, or a seed.
        The qubit is used afterwards.

        >>> from sukhlent import State
        >>> state = State.from_strings("+XX", "-ZZ")
        >>> state.measure("Z", 0, 0)
        Measured(outcome=0, determined=False)
        >>> state.measure("Z", 1)
        Measured(outcome=1, determined=True)
        >>> State.from_strings("+X").measure("Z", 0, source=5)
        Measured(outcome=1, determined=False)
        """
        if outcome is not None:
            return MEASURED[self._measured(pauli, qubit, outcome)]
        return MEASURED[self._observed(pauli, qubit, bits_from(source)())]
