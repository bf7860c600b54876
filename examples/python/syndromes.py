"""Syndromes: the four parities of the five-qubit code are measured jointly, an error is made, found and taken back. No
photon is used up."""

import itertools
import random

from sukhlent import State

CODE = ("XZZXI", "IXZZX", "XIXZZ", "ZXIXZ")
lot = random.Random(3)


def syndrome(state):
    return tuple(state.measure_row(row, source=lot).outcome for row in CODE)


def clash(error, row):
    """Whether an error changes the outcome of a row."""
    letter, qubit = error
    return int(row[qubit] not in ("I", letter))


state = State.from_strings(*(f"+{row}" for row in CODE), "+ZZZZZ")  # a code word: logical Z is +1
table = {tuple(clash(error, row) for row in CODE): error for error in itertools.product("XYZ", range(5))}
print(len(table), "errors, each with a syndrome of its own; now:", *syndrome(state))
for letter, qubit in (("Y", 3), ("Z", 0), ("X", 2)):
    state.gate(qubit, letter)
    found = syndrome(state)
    fault, place = table[found]
    state.gate(place, fault)
    print(f"{letter}{qubit}: syndrome {found}, so {fault}{place}; code word again: {state.expectation('ZZZZZ') == 1}")
