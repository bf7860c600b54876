"""The calls on a record's block through ctypes: the same as python/extension/calls.c, for a Python without that
extension. Each answers the refusal, or 0; where a call has an answer of its own, that, or the refusal as a negative
number."""

from __future__ import annotations

from ctypes import c_uint8, c_uint64
from typing import Any, Sequence

from . import blocks, library
from .arguments import bit, pauli_number, place
from .codes import code


def _record(block: bytearray) -> tuple[Any, ...]:
    """n and the two buffers of a block."""
    n = blocks.size(block)
    return n, (c_uint64 * n).from_buffer(block), (c_uint8 * n).from_buffer(block, 8 * n + 8)


def _used(block: bytearray) -> library.Cell:
    """The used word of a block, as a cell that a call writes."""
    return library.Cell.at(c_uint64.from_buffer(block, 8 * blocks.size(block)))


def _call(name: str, block: bytearray, *more: Any) -> int:
    return library.call(name, *_record(block), blocks.used(block), *more)


def gate(block: bytearray, qubit: int, named: "int | str") -> int:
    """A local Clifford at a qubit."""
    return _call("gate", block, place(qubit), code(named))


def cz(block: bytearray, a: int, b: int) -> int:
    """CZ."""
    return _call("cz", block, place(a), place(b))


def cx(block: bytearray, control: int, target: int) -> int:
    """CNOT; refused as CZ is, before its first gate."""
    number = cz(bytearray(block), control, target)
    if not number:
        gate(block, target, 8)
        cz(block, control, target)
        gate(block, target, 8)
    return number


def _measured(number: int, answer: library.Cell, determined: library.Cell) -> int:
    return -number if number else answer.value + 2 * determined.value


def _measured_by(name: str, block: bytearray, pauli: "int | str", qubit: int, given: int) -> int:
    answer, determined = library.octet(), library.octet()
    asked = (pauli_number(pauli), place(qubit), bit(given))
    number = library.call(name, *_record(block), _used(block), *asked, answer, determined)
    return _measured(number, answer, determined)


def measure(block: bytearray, pauli: "int | str", qubit: int, outcome: int) -> int:
    """A Pauli measured: the outcome, and 2 more where it was determined."""
    return _measured_by("measure", block, pauli, qubit, outcome)


def observe(block: bytearray, pauli: "int | str", qubit: int, lot: int) -> int:
    """The same with a bit by lot, which plays no part where the state determines the outcome."""
    return _measured_by("observe", block, pauli, qubit, lot)


def measure_row(block: bytearray, z: int, x: int, lot: int) -> int:
    """A Pauli row of any weight measured with a bit by lot: the outcome, and 2 more where it was determined. No qubit is
    used up."""
    answer, determined = library.octet(), library.octet()
    number = _call("measure_row", block, place(z), place(x), bit(lot), answer, determined)
    return _measured(number, answer, determined)


def renew(block: bytearray, qubit: int, photon: int) -> int:
    """A new photon at a used qubit, in the state of a code: 0, 2, 4, 6, 8, 10 are +X, -X, +Y, -Y, +Z, -Z."""
    return library.call("renew", *_record(block), _used(block), place(qubit), code(photon))


def complement(block: bytearray, vertex: int) -> int:
    """A complementation."""
    return _call("complement", block, place(vertex))


def cut(block: bytearray, side: int) -> int:
    """The rank between a side and the rest."""
    rank = library.word()
    number = _call("cut", block, place(side), rank)
    return -number if number else rank.value


def expectation(block: bytearray, z: int, x: int) -> int:
    """0, 1 or 2 where a row is in the group, its negative is, or neither."""
    value = library.octet()
    number = _call("expectation", block, place(z), place(x), value)
    return -number if number else value.value


def reduce(block: bytearray) -> int:
    """Makes the record the reduced one: by the gate I at a qubit that is not used; where all are, it is reduced."""
    unused = ~blocks.used(block) & (1 << blocks.size(block)) - 1
    return gate(block, (unused & -unused).bit_length() - 1, 0) if unused else 0


def same(first: bytearray, second: bytearray) -> bool:
    """Whether two blocks have equal reduced records and used words."""
    if len(first) != len(second):
        return False
    mine, others = bytearray(first), bytearray(second)
    return not reduce(mine) and not reduce(others) and mine == others


def run(block: bytearray, *slices: Any) -> int:
    """Steps on buffers as they are: ops, a, b, value, refusals, outcomes, determined."""
    lent = [library.lent(name, given) for name, given in zip(library.RUN_NAMES, slices)]
    return library.call("run", *_record(block), _used(block), *lent)


def run_many(records: Sequence[bytearray], *given: Any) -> int:
    """The same on each record of a list, in as many threads as the last argument says: one run for all of them, or one for
    each."""
    *slices, threads = given
    flat = [_flat(name, part) for name, part in zip(library.RUN_NAMES, slices)]
    count = len(records)
    steps = len(flat[4]) // count if count else 0
    shared = len(flat[0]) == steps and count != 1
    asked = {len(view) for view in flat[:4]}
    if {len(view) for view in flat[4:]} != {steps * count} or asked not in ({steps}, {steps * count}):
        raise ValueError("the buffers of a run have other lengths than its steps")

    def one(k: int) -> int:
        own = slice(k * steps, (k + 1) * steps)
        mine = flat[:4] if shared else [view[own] for view in flat[:4]]
        return run(records[k], *mine, *(view[own] for view in flat[4:]))

    if threads == 1:
        return next((number for number in map(one, range(count)) if number), 0)
    from concurrent.futures import ThreadPoolExecutor

    with ThreadPoolExecutor(min(threads, 64)) as pool:
        return next((number for number in pool.map(one, range(count)) if number), 0)


def _flat(name: str, given: Any) -> memoryview:
    """A slice of a run in one dimension; `TypeError` where its numbers are of another kind."""
    library.lent(name, given)
    view = memoryview(given)
    return view.cast("B").cast(view.format.lstrip("@=<"))


def _group(block: bytearray, word: int, number: int) -> tuple[Any, ...]:
    n, neighbours, codes = _record(block)
    return n, word, number, neighbours, codes


def group_gate(block: bytearray, word: int, group: int, qubit: int, named: "int | str") -> int:
    """A group's gate."""
    return library.call("group_gate", *_group(block, word, group), blocks.used(block), place(qubit), code(named))


def group_cz(block: bytearray, word: int, group: int, a: int, b: int) -> int:
    """A group's CZ."""
    return library.call("group_cz", *_group(block, word, group), blocks.used(block), place(a), place(b))


def group_measure(block: bytearray, word: int, group: int, pauli: "int | str", qubit: int, outcome: int) -> int:
    """A group's measurement."""
    answer, determined = library.octet(), library.octet()
    given = (pauli_number(pauli), place(qubit), bit(outcome))
    number = library.call("group_measure", *_group(block, word, group), _used(block), *given, answer, determined)
    return _measured(number, answer, determined)


def group_complement(block: bytearray, word: int, group: int, vertex: int) -> int:
    """A group's complementation."""
    return library.call("group_complement", *_group(block, word, group), blocks.used(block), place(vertex))
