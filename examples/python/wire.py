"""A wire with byproducts: a qubit goes through a linear cluster by X measurements, and arrives up to X and Z, which the
outcomes tell."""

import random

from sukhlent import State

lot = random.Random(8)
for prepared in ("+X", "-Z", "+Y"):
    wire = State.from_strings(prepared) @ State.graph(4, [(0, 1), (1, 2), (2, 3)])
    wire.cz(0, 1)
    outcomes = [wire.measure("X", q, source=lot).outcome for q in range(4)]
    if (outcomes[1] + outcomes[3]) % 2:  # an even number of steps: no Hadamard is left, X from every second outcome
        wire.x(4)
    if (outcomes[0] + outcomes[2]) % 2:
        wire.z(4)
    print(f"sent {prepared}, outcomes {outcomes}, value of {prepared}4: {wire.expectation(prepared + '4')}")
