#!/usr/bin/env python3
"""Steps a second of a session at 64 qubits, beside a state that is kept nowhere: each step flushed, not flushed, and many
flushed together. Prints the table of docs/SPEED.md. Needs tools/shared.

    PYTHONPATH=python python3 python/bench/sessions.py FOLDER     # the folder says which disk; --quick: once

Half of the steps are CZ, a quarter gates, the others measurements with a bit by lot and new photons. Each figure is the best
of five rounds, taken in turns.
"""

import os
import random
import sys
import tempfile
import time

from sukhlent import Session, State, calls, files

N = 64
QUICK = "--quick" in sys.argv[1:]
FOLDERS = [word for word in sys.argv[1:] if word != "--quick"]


def steps_of(count):
    """Steps that are all accepted, more or less: operation, two qubits and a value."""
    chance, used, steps = random.Random(1), [], []
    for k in range(count):
        free = [q for q in range(N) if q not in used]
        a, b = chance.sample(free, 2)
        kind = k % 8
        if kind == 7 and used:
            steps.append((6, used.pop(0), 0, 0))
        elif kind == 3:
            used.append(a)
            steps.append((5, a, 0, chance.randrange(6)))
        else:
            steps.append((0, a, 0, chance.randrange(24)) if kind % 2 else (1, a, b, 0))
    return steps


def alone(steps):
    """The same steps on a state, by the calls of the package."""
    state = State.zeros(N)
    block = state._block
    for op, a, b, value in steps:
        if op == 0:
            calls.gate(block, a, value)
        elif op == 1:
            calls.cz(block, a, b)
        elif op == 5:
            calls.observe(block, value // 2 + 1, a, value % 2)
        else:
            calls.renew(block, a, value)


def kept(steps, folder, flush, together):
    """The same steps in a session, some of them at a time."""
    with Session(os.path.join(folder, "run"), State.zeros(N), flush=flush) as session:
        for k in range(0, len(steps), together):
            session.run(steps[k : k + together])


def flushes(folder, count):
    """A line written and flushed, and nothing else."""
    file = os.open(os.path.join(folder, "line"), os.O_WRONLY | os.O_CREAT | os.O_APPEND)
    for _ in range(count):
        files.write(file, b"x" * 40)
        files.flush(file)
    os.close(file)


def rates(works):
    """Steps a second of each work, the best of some rounds, in which the works take turns."""
    best = {name: 0.0 for name in works}
    for _ in range(1 if QUICK else 5):
        for name, (count, work) in works.items():
            with tempfile.TemporaryDirectory(dir=FOLDERS[0] if FOLDERS else None) as folder:
                start = time.perf_counter()
                work(folder)
                best[name] = max(best[name], count / (time.perf_counter() - start))
    return best


def main():
    many, few = (400, 40) if QUICK else (40960, 1000)
    steps = steps_of(many)
    works = {
        "a state, kept nowhere": (many, lambda folder: alone(steps)),
        "a session, not flushed": (many, lambda folder: kept(steps, folder, False, 1)),
        "a session, each step flushed": (few, lambda folder: kept(steps[:few], folder, True, 1)),
        "a session, runs of 100 steps, each run flushed": (many, lambda folder: kept(steps, folder, True, 100)),
        "a session, runs of 4,096 steps, each run flushed": (many, lambda folder: kept(steps, folder, True, 4096)),
        "a line of 40 bytes written and flushed, without the engine": (few, lambda folder: flushes(folder, few)),
    }
    print("| steps at 64 qubits from Python | a second |\n|---|---|")
    for name, found in rates(works).items():
        print(f"| {name} | {float(f'{found:.2g}'):,.0f} |")
    print(f"\nload {os.getloadavg()[0]:.1f}, {os.cpu_count()} cores")


if __name__ == "__main__":
    main()
