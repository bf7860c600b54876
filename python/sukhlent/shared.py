"""Two groups that share one record of 64 qubits, each with a handle of its own."""

from __future__ import annotations

from pathlib import Path
from typing import Any, Iterable, Sequence

from . import beyond, blocks, calls, explain, files, forms, library
from .arguments import qubits
from .drawing import record_svg
from .gates import Gates
from .kept import Lines, fill, free_name, held_text
from .layouts import Layout
from .lots import Source, bits_from
from .pictures import draw
from .refusals import Refusal
from .rows import Row, row_words
from .running import OBSERVE, OPS, RUN_OPS, with_bit
from .state import PHOTONS, State
from .stores import Buffers, held_names, name_number, not_held


#: the first line of the text of a shared record
_GROUPS: "list[forms.Piece]" = [("groups [0-9a-f]{16}", "'groups' and 16 lower-case hexadecimal digits")]


class Shared:
    """A record of 64 qubits that two groups share, each with four named states of its own. The qubits given are those of
    group 1, the others those of group 0. Every qubit starts in +Z, and no state is held.

    >>> shared = Shared(range(32, 64))
    >>> lower, upper = shared.groups()
    >>> lower.h(0)
    >>> upper.gate(40, "X")
    >>> shared.state().codes[0], shared.state().codes[40]
    (0, 10)
    >>> upper.h(0)
    Traceback (most recent call last):
    ...
    sukhlent.refusals.Refusal: refused 19: qubit 0 belongs to group 0, and this is group 1
    """

    def __init__(self, ones: Iterable[int]):
        given = qubits(ones, "Shared(qubits)")
        strange = next((q for q in given if not 0 <= q < 64), None)
        if strange is not None:
            raise Refusal(5, explain.far(strange, 64))
        self._word = library.word_of(given)
        self._block = blocks.made([0] * 64, [8] * 64, 0)
        self._store = Buffers()

    def copy(self) -> Shared:
        """The same record, groups and named states, apart; groups have handles of their own there.

        >>> first = Shared(range(32, 64))
        >>> second = first.copy()
        >>> second.group(0).h(0)
        >>> first.state() == second.state()
        False
        """
        shared = Shared(())
        shared._word, shared._block, shared._store = self._word, bytearray(self._block), self._store.__copy__()
        return shared

    __copy__ = copy

    def __deepcopy__(self, memo: dict) -> Shared:
        return self.copy()

    @classmethod
    def read(cls, text: str) -> Shared:
        """The record, the groups and their named states of a text, as `str` writes it.

        >>> shared = Shared([1, 3])
        >>> shared.group(1).h(3)
        >>> shared.group(1).save("plus")
        >>> other = Shared.read(str(shared))
        >>> other.group(1).qubits(), other.group(1).names(), other.state() == shared.state()
        ([1, 3], ['plus'], True)
        """
        shared, lines = cls(()), Lines(text)
        shared._word = int(lines.take(_GROUPS).text[7:], 16)
        shared._block = lines.record(64)._block
        fill(lines, shared._store.all, shared._refusal)
        lines.end()
        return shared

    def _refusal(self, place: int) -> int:
        """Why the named states of the group that has a place are none; 0 where they are sound."""
        neighbours, codes, used = blocks.parts(self._block)
        head = (64, self._word, place // 4, library.words(neighbours), library.octets(codes), used)
        number = library.call("group_forget", *head, free_name(self._store.all[0]), *self._store.all)
        return 0 if number in (17, 19) else number  # 19: an edge between the groups, which comes after what is held

    def _text(self) -> str:
        return f"groups {self._word:016x}\n{beyond.record_text(self._block)}{held_text(*self._store.all)}"

    def __str__(self) -> str:
        return self._text()[:-1]

    def save(self, path: files.Place) -> None:
        """Writes the record, the groups and their named states to a file, flushed: after a power cut the file is the old one
        or the new one, whole.

        >>> import tempfile
        >>> with tempfile.TemporaryDirectory() as folder:
        ...     Shared([1, 3]).save(folder + "/shared.txt")
        ...     print(files.read(folder + "/shared.txt")[:50], end="")
        groups 000000000000000a
        qubit code neighbours used
        """
        files.replace(path, self._text())

    @classmethod
    def load(cls, path: files.Place) -> Shared:
        """The record, the groups and their named states of a file that `save` wrote.

        >>> import tempfile
        >>> with tempfile.TemporaryDirectory() as folder:
        ...     Shared([1, 3]).save(folder + "/shared.txt")
        ...     Shared.load(folder + "/shared.txt").word
        10
        """
        return files.loaded(path, cls.read)

    def groups(self) -> tuple[Group, Group]:
        """The handles of groups 0 and 1.

        >>> zero, one = Shared([1, 3]).groups()
        >>> one.qubits()
        [1, 3]
        """
        return Group(self, 0), Group(self, 1)

    def group(self, number: int) -> Group:
        """The handle of one group; 6 where the number is not 0 or 1.

        >>> Shared([1, 3]).group(1).qubits()
        [1, 3]
        """
        if number not in (0, 1):
            raise Refusal(6, f"the group {number}, but groups are 0 and 1")
        return Group(self, number)

    @property
    def word(self) -> int:
        """The word whose bit q is the group of qubit q.

        >>> Shared([1, 3]).word
        10
        """
        return self._word

    def state(self) -> State:
        """The whole record as it is now, apart, drawn in eight rows.

        >>> Shared([]).state() == State.zeros(64)
        True
        """
        return State._of(bytearray(self._block), "grid 8 x 8")

    def replace(self, state: State) -> None:
        """Puts another record of 64 qubits in place, as the operator: every vertex of both groups. Where it has an edge
        between the two groups, every call of either group is refused, by 19 if by no number before it, until no edge joins
        them.

        >>> shared = Shared(range(32, 64))
        >>> shared.replace(State.graph(64, [(0, 40)]))
        >>> shared.groups()[0].h(1)
        Traceback (most recent call last):
        ...
        sukhlent.refusals.Refusal: refused 19: the record has an edge between the groups
        """
        if state.n != 64:
            raise Refusal(2, f"a state of {state.n} qubits, but two groups share one of 64")
        self._block = bytearray(state._block)

    def svg(self, layout: Layout = "grid 8 x 8") -> str:
        """A drawing, eight vertices in a row, or at given places: group 0 as discs, group 1 as squares.

        >>> Shared(range(32, 64)).svg().count("<circle")
        32
        """
        neighbours, codes, used = blocks.parts(self._block)
        return record_svg(neighbours, codes, used, layout, self._word)

    def draw(self, file: "str | Path", layout: Layout = "grid 8 x 8") -> None:
        """Writes the drawing to a file: .svg, .png or .pdf.

        >>> import os, tempfile
        >>> with tempfile.TemporaryDirectory() as folder:
        ...     Shared([]).draw(folder + "/shared.svg")
        ...     os.listdir(folder)
        ['shared.svg']
        """
        draw(self.svg(layout), file)

    def _repr_svg_(self) -> str:
        return self.svg()


class Group(Gates):
    """The handle of one group: its calls work on its own qubits and on its own named states; one that names a qubit of
    the other group is refused by 19. `Shared.groups` hands it out.

    >>> lower, upper = Shared(range(32, 64)).groups()
    >>> lower.save("start")
    >>> lower.measure("X", 0, 1)
    Measured(outcome=1, determined=False)
    >>> lower.return_to("start")
    >>> lower.state().used, upper.names()
    (0, [])
    """

    __slots__ = ("_shared", "_number")

    def __init__(self, shared: Shared, number: int):
        self._shared = shared
        self._number = number

    def _own(self) -> int:
        """The word of the group's qubits."""
        word = self._shared._word
        return word if self._number else ~word & (1 << 64) - 1

    def qubits(self) -> list[int]:
        """The qubits of the group, rising.

        >>> [len(group.qubits()) for group in Shared(range(10)).groups()]
        [54, 10]
        """
        return [q for q in range(64) if self._own() >> q & 1]

    def state(self) -> State:
        """The state that the group sees: its own vertices, every other in +Z. Refused by 19, as every call of a group, while
        the record has an edge between the groups.

        >>> lower, upper = Shared(range(32, 64)).groups()
        >>> upper.gate(40, "X")
        >>> lower.state().codes[40], upper.state().codes[40]
        (8, 10)
        """
        neighbours, codes, used = blocks.parts(self._shared._block)
        own = self._own()
        seen = [word if own >> q & 1 else 0 for q, word in enumerate(neighbours)]
        if any(word & ~own for word in seen):
            raise self._other(19, ())
        kept = [held if own >> q & 1 else 8 for q, held in enumerate(codes)]
        return State._of(blocks.made(seen, kept, used & own), "grid 8 x 8")

    def _other(self, number: int, named: Sequence[int]) -> Refusal:
        """The refusal by 19."""
        foreign = [q for q in named if 0 <= q < 64 and not self._own() >> q & 1]
        if number != 19:
            return Refusal(number)
        if not foreign:
            return Refusal(19, "the record has an edge between the groups")
        return Refusal(19, f"qubit {foreign[0]} belongs to group {1 - self._number}, and this is group {self._number}")

    def _head(self) -> tuple[bytearray, int, int]:
        return self._shared._block, self._shared._word, self._number

    def _used(self) -> int:
        return blocks.used(self._shared._block)

    def gate(self, qubit: int, gate: "int | str") -> None:
        """Applies a local Clifford, by name or code, and reduces the group's vertices.

        >>> lower, _ = Shared(range(32, 64)).groups()
        >>> lower.gate(0, "SQRT_X")
        >>> lower.state().codes[0]
        6
        """
        try:
            number = calls.group_gate(*self._head(), qubit, gate)
        except TypeError as error:
            raise TypeError(f"gate(qubit, gate): {error}") from None
        if number:
            raise self._other(19, (qubit,)) if number == 19 else explain.gate(number, 64, self._used(), qubit, gate)

    def cz(self, a: int, b: int) -> None:
        """CZ on two qubits of the group.

        >>> _, upper = Shared(range(32, 64)).groups()
        >>> upper.h(40)
        >>> upper.h(41)
        >>> upper.cz(40, 41)
        >>> upper.state().edges()
        [(40, 41)]
        """
        self._pair(self._shared._block, a, b, "cz(a, b)")

    def _pair(self, block: bytearray, a: int, b: int, call: str) -> None:
        """CZ on a block; raises where it is refused."""
        try:
            number = calls.group_cz(block, self._shared._word, self._number, a, b)
        except TypeError as error:
            raise TypeError(f"{call}: {error}") from None
        if number == 19:
            raise self._other(19, (a, b))
        if number:
            raise explain.on_qubits(number, 64, self._used(), (a, b), call.partition("(")[0])

    def cx(self, control: int, target: int) -> None:
        """CNOT on two qubits of the group. Refused as a whole, before the first gate.

        >>> _, upper = Shared(range(32, 64)).groups()
        >>> upper.h(40)
        >>> upper.cx(40, 41)
        >>> upper.expectation("X40*X41"), upper.expectation("Z40*Z41")
        (1, 1)
        """
        self._pair(bytearray(self._shared._block), control, target, "cx(control, target)")
        self.h(target)
        self.cz(control, target)
        self.h(target)

    def _measured(self, pauli: "str | int", qubit: int, outcome: int) -> int:
        found = self._asked(pauli, qubit, outcome)
        if found < 0:
            raise explain.measure(14, 64, self._used(), pauli, qubit, outcome)
        return found

    def _observed(self, pauli: "str | int", qubit: int, bit: int) -> int:
        """By the other bit where the state forbids the first."""
        found = self._asked(pauli, qubit, bit)
        return self._asked(pauli, qubit, 1 - bit) if found < 0 else found

    def _asked(self, pauli: "str | int", qubit: int, outcome: int) -> int:
        """The outcome, and 2 more where it was determined, or -14; raises where it is refused otherwise."""
        try:
            found = calls.group_measure(*self._head(), pauli, qubit, outcome)
        except TypeError as error:
            raise TypeError(f"measure(pauli, qubit, outcome): {error}") from None
        if found == -19:
            raise self._other(19, (qubit,))
        if found < 0 and found != -14:
            raise explain.measure(-found, 64, self._used(), pauli, qubit, outcome)
        return found

    def complement(self, vertex: int) -> None:
        """Complements at a vertex of the group: the same state, not reduced.

        >>> lower, upper = Shared(range(32, 64)).groups()
        >>> lower.complement(0)
        >>> upper.h(40)
        >>> lower.state().codes[0]
        20
        """
        try:
            number = calls.group_complement(*self._head(), vertex)
        except TypeError as error:
            raise TypeError(f"complement(vertex): {error}") from None
        if number:
            raise self._other(19, (vertex,)) if number == 19 else explain.on_qubits(
                number, 64, self._used(), (vertex,), "complement"
            )

    def run(self, steps: Iterable[Sequence[int]], source: Source = None) -> list[tuple[int, int, int]]:
        """Runs steps of the group one after the other, given as to `State.run`: an operation, two qubits and a value each.
        Answers refusal, outcome and determined of each; a refused step changes nothing. Refused as a whole by 15 where
        there are more than 4,096, by 6 where an operation is none. With a `source` the bits of observations are drawn from it.

        >>> lower, upper = Shared(range(32, 64)).groups()
        >>> lower.run([(0, 0, 0, 8), (0, 40, 0, 8), (2, 0, 0, 0)])
        [(0, 0, 0), (19, 0, 0), (0, 0, 1)]
        >>> lower.run([(6, 0, 0, 8), (5, 0, 0, 5), (5, 40, 0, 4)])
        [(0, 0, 0), (0, 0, 1), (19, 0, 0)]
        """
        bit = None if source is None else bits_from(source)
        given = [(op, a, b, value) for op, a, b, value in steps]
        if len(given) > 4096:
            raise Refusal(15, f"{len(given)} steps, but a run has at most 4,096")
        strange = next(((k, step[0]) for k, step in enumerate(given) if not 0 <= step[0] < len(RUN_OPS)), None)
        if strange is not None:
            raise Refusal(6, f"step {strange[0]} has the operation {strange[1]}, but operations are 0 to {len(RUN_OPS) - 1}")
        if bit is not None:
            given = [(op, a, b, with_bit(value, bit) if op == OBSERVE else value) for op, a, b, value in given]
        return [self._stepped(*step) for step in given]

    def _stepped(self, op: int, a: int, b: int, value: int) -> tuple[int, int, int]:
        """What a step of a run answers."""
        from .jobs import Step, run_step

        if op < len(OPS):
            result = run_step(self, Step(OPS[op], a, b, value))
            return result.refusal, result.outcome, result.determined
        try:
            if b != 0 or value not in (range(6) if op == OBSERVE else PHOTONS.values()):
                raise Refusal(6)
            if op == OBSERVE:
                found = self._observed("XYZ"[value // 2], a, value % 2)
                return 0, found & 1, found >> 1
            self.renew(a, next(photon for photon, code in PHOTONS.items() if code == value))
        except Refusal as refusal:
            return refusal.number, 0, 0
        return 0, 0, 0

    def expectation(self, row: Row) -> int:
        """The expectation value of a Pauli row on the group's qubits, as `State.expectation` has it: a row of 64 letters, or
        one that names its qubits.

        >>> lower, upper = Shared(range(32, 64)).groups()
        >>> lower.expectation("Z0*Z1"), lower.expectation({0: "X"})
        (1, 0)
        """
        sign, z, x = row_words(row, 64)
        self._all_own([q for q in range(64) if (z | x) >> q & 1])
        return self.state().expectation(row)

    def cut(self, side: Iterable[int]) -> int:
        """The entanglement between these qubits of the group and the group's others.

        >>> lower, upper = Shared(range(32, 64)).groups()
        >>> lower.h(0)
        >>> lower.cx(0, 1)
        >>> lower.cut([0])
        1
        """
        given = qubits(side, "cut(qubits)")
        self._all_own(given)
        return self.state().cut(given)

    def _all_own(self, named: Sequence[int]) -> None:
        """Refused by 19 where a qubit is the other group's."""
        if any(0 <= q < 64 and not self._own() >> q & 1 for q in named):
            raise self._other(19, named)

    def renew(self, qubit: int, photon: str = "+Z") -> None:
        """Puts a new photon at a used place of the group, as `State.renew` does.

        >>> lower, upper = Shared(range(32, 64)).groups()
        >>> lower.measure("X", 0, 1)
        Measured(outcome=1, determined=False)
        >>> lower.renew(0)
        >>> lower.state() == State.zeros(64)
        True
        """
        state = self.state()
        self._all_own([qubit])
        state.renew(qubit, photon)
        calls.renew(self._shared._block, qubit, state.codes[qubit])

    def _named(self, call: str, name: "bytes | str", used: Any) -> None:
        """A call on the group's named states; raises where it is refused."""
        neighbours, codes, _ = blocks.parts(self._shared._block)
        lent = library.words(neighbours), library.octets(codes)
        head = (64, self._shared._word, self._number, *lent)
        number = library.call(call, *head, used, name_number(name), *self._shared._store.all)
        if number:
            raise self._other(19, ()) if number == 19 else not_held(number, name, self.names())
        if call == "group_return":
            self._shared._block[:] = blocks.made(*lent, used.value)

    def save(self, name: "bytes | str") -> None:
        """Holds the group's vertices under the name; 18 where the group holds four other names.

        >>> lower, upper = Shared(range(32, 64)).groups()
        >>> for letter in "ABCD":
        ...     lower.save(letter)
        >>> upper.save("E")
        >>> lower.save("E")
        Traceback (most recent call last):
        ...
        sukhlent.refusals.Refusal: refused 18: no place is free for 'E'; held: 'A', 'B', 'C', 'D'
        """
        self._named("group_save", name, self._used())

    def return_to(self, name: "bytes | str") -> None:
        """Brings the group's vertices back to what it holds under the name; 17 where there is nothing.

        >>> lower, upper = Shared(range(32, 64)).groups()
        >>> lower.save("start")
        >>> lower.h(0)
        >>> upper.h(40)
        >>> lower.return_to("start")
        >>> lower.state() == State.zeros(64), upper.state().codes[40]
        (True, 0)
        """
        self._named("group_return", name, library.word(self._used()))

    def forget(self, name: "bytes | str") -> None:
        """Makes the place of the name free; 17 where the group holds nothing under it.

        >>> lower, upper = Shared(range(32, 64)).groups()
        >>> lower.save("start")
        >>> upper.forget("start")
        Traceback (most recent call last):
        ...
        sukhlent.refusals.Refusal: refused 17: nothing is held under 'start'; held: nothing
        >>> lower.forget("start")
        """
        self._named("group_forget", name, self._used())

    def names(self) -> list[str]:
        """The names that the group holds, in the order of their places.

        >>> lower, upper = Shared(range(32, 64)).groups()
        >>> lower.save("start")
        >>> lower.names(), upper.names()
        (['start'], [])
        """
        return held_names(self._shared._store.all[0], range(4 * self._number, 4 * self._number + 4))
