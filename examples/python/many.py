"""Many records at once: a thousand copies of a ring of eight each get errors of their own and are measured, in one call.
The interpreter's lock is free meanwhile, so that threads share the work."""

import random
from array import array

from sukhlent import State, run_many

lot = random.Random(5)
ring = State.graph(8, [(q, (q + 1) % 8) for q in range(8)])
copies = [ring.copy() for _ in range(1000)]
steps = []  # each row: an error or none at every qubit, then X measured at 0, 2, 4 and 6 with the outcome 0
for _ in copies:
    steps += [(0, q, 0, 2 if lot.random() < 0.05 else 0) for q in range(8)]  # Z is code 2
    steps += [(2, q, 0, 0) for q in (0, 2, 4, 6)]
columns = list(zip(*steps))
ops, *fields = (array("B" if k == 0 else "H", column) for k, column in enumerate(columns))
rows = [memoryview(part).cast("B").cast(part.typecode, [1000, 12]) for part in (ops, *fields)]
ran = run_many(copies, *rows, threads=2)
forbidden = [ran.refusals[12 * k + 11] == 14 for k in range(1000)]  # X at 6 is fixed by those at 0, 2 and 4
print("an odd number of errors at 0, 2, 4, 6:", sum(forbidden), "of 1000")
