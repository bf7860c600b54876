"""The published list of refusals, in checking order, and the exception that carries one."""

from __future__ import annotations

#: number: what is wrong; in checking order
TEXTS: dict[int, str] = {
    1: "the text does not have its form",
    15: "a job or a run has more than 4,096 steps",
    2: "n is 0 or above the call's limit, or the two lists' or records' n differ, or a group's call, or a state that it holds,"
    " has another n than 64",
    4: "a buffer's length is not what is required",
    5: "a word has a bit at or above n",
    6: "a sign, outcome or group is above 1, a code above 23 or no photon's, a Pauli not 1 to 3, a seed 0, a run's operation above 6,"
    " or a field that a step does not use is not 0",
    7: "a graph is not simple, or a used vertex has a neighbour or a code that no measurement leaves, or a store holds a name twice,"
    " or a group's held state has a neighbour outside it",
    19: "a group's call names a qubit of the other group, or the record has an edge between the groups",
    8: "a qubit number is n or more, or a qubit is named twice, or a pivot's pair has no edge",
    16: "the call names a used qubit",
    20: "the qubit to renew is not used",
    17: "a name to return to or forget is not held",
    18: "a save finds eight other names held, or a group's save four",
    9: "two generators do not commute",
    10: "the generators are dependent",
    3: "a connected part has more than 20 vertices",
    14: "a determined outcome contradicts the supplied bit",
    11: "the image is that of no graph: the image loop stops with some C = 1",
    12: "the image has Y at some vertex's own place",
    13: "no choice of local Cliffords carries one group to the other",
}

#: number: its name, which is that of the header without SUKHLENT_
_NAMES: dict[int, str] = {
    1: "FORM", 15: "STEPS", 2: "COUNT", 4: "LENGTH", 5: "STRAY", 6: "VALUE", 7: "GRAPH", 19: "OTHER_GROUP",
    8: "QUBIT", 16: "USED", 20: "NOT_USED", 17: "NOT_HELD", 18: "FULL", 9: "ANTICOMMUTE", 10: "DEPENDENT", 3: "LARGE",
    14: "CONTRADICTED", 11: "IMAGE_C", 12: "IMAGE_Y", 13: "INEQUIVALENT",
}  # fmt: skip


class Refusal(ValueError):
    """A refused call: `number` of the published list, its `name` there and its `text`; `where` says which argument it was,
    or where a text leaves its form. Which numbers a call can answer stands under its name in include/sukhlent.h, in
    checking order; docs/ENGINE.md, 'Refusals', says what to do on each.

    >>> from sukhlent import State
    >>> State.zeros(65)
    Traceback (most recent call last):
    ...
    sukhlent.refusals.Refusal: refused 2: 65 qubits, but a state has 1 to 64
    >>> try:
    ...     State.zeros(2).measure("Z", 0, 1)
    ... except Refusal as refusal:
    ...     print(refusal.number, refusal.name, refusal.text, refusal.where, sep="; ")
    14; CONTRADICTED; a determined outcome contradicts the supplied bit; Z at qubit 0 has the outcome 0 in this state, not 1
    """

    def __init__(self, number: int, where: str = ""):
        self.number = number
        self.name = _NAMES.get(number, "UNKNOWN")
        self.text = TEXTS.get(number, "unknown refusal")
        self.where = where
        super().__init__(f"refused {number}: {where or self.text}")

    def __repr__(self) -> str:
        return f"Refusal({self.number}, {self.where!r})"

    def __reduce__(self) -> "tuple[type[Refusal], tuple[int, str]]":
        return type(self), (self.number, self.where)


def accept(number: int) -> None:
    """Raises `Refusal` where a call did not answer 0."""
    if number != 0:
        raise Refusal(number)
