"""Parities by a joint measurement and by a helper qubit: each error of one letter on the five-qubit code and on Steane's code has
the same syndrome by both, and by theory, where it is 1 for each row with which the error does not commute."""

import random

from sukhlent import State

FIVE = ("XZZXI", "IXZZX", "XIXZZ", "ZXIXZ")
STEANE = ("IIIZZZZ", "IZZIIZZ", "ZIZIZIZ", "IIIXXXX", "IXXIIXX", "XIXIXIX")
lot = random.Random(7)


def by_helper(state, row):
    """The row's outcome by a helper in +X at the last place, which is used up and then renewed."""
    helper = state.n - 1
    state.h(helper)
    for qubit, letter in enumerate(row):
        if letter == "X":
            state.cx(helper, qubit)
        elif letter == "Z":
            state.cz(helper, qubit)
    outcome = state.measure("X", helper, source=lot).outcome
    state.renew(helper)
    return outcome


def judged(code):
    """The table from syndromes to errors, found by both kinds of measurement."""
    n, table = len(code[0]), {}
    word = State.zeros(n + 1)  # the last place is the helper's
    for row in code:
        word.measure_row(row + "I", 0)
    for letter in "XYZ":
        for qubit in range(n):
            state = word.copy()
            state.gate(qubit, letter)
            joint = [state.measure_row(row + "I") for row in code]
            syndrome = tuple(found.outcome for found in joint)
            theory = tuple(int(row[qubit] not in ("I", letter)) for row in code)
            helped = tuple(by_helper(state, row) for row in code)
            assert syndrome == theory == helped and all(found.determined for found in joint)
            table[syndrome] = f"{letter}{qubit}"
    return table


for name, code in (("the five-qubit code", FIVE), ("Steane's code", STEANE)):
    table = judged(code)
    print(f"{name}: {3 * len(code[0])} errors, {len(table)} syndromes")
    print(*(f"{error} {''.join(map(str, syndrome))}" for syndrome, error in sorted(table.items())[:5]), "..")
state = State.zeros(4)
checks = [state.measure_row("XXXX", source=lot) for _ in range(3)]
print("a parity check repeated:", *((found.outcome, found.determined) for found in checks))
