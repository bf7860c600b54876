#!/usr/bin/env python3
"""What a call costs from Python at 64 qubits, beside a tableau in numpy (python/bench/tableau.py) and, where it is
installed, QuTiP at 10 qubits. Prints the tables of docs/SPEED.md. Needs tools/shared; numpy and cffi where they are compared.

    PYTHONPATH=python python3 python/bench/speed.py            # --quick: once, to see that it runs

Each figure is the least of several rounds, taken in turns, so that what else runs on the machine counts least.
"""

import ctypes
import importlib.util
import os
import random
import sys
import tempfile
import time
from array import array
from pathlib import Path

from sukhlent import State, by_ctypes, calls, library, run_many

ROOT = Path(__file__).resolve().parents[2]
N = 64
ROUNDS = 15
QUICK = sys.argv[1:] == ["--quick"]


def least(works, calls_each=200, rounds=ROUNDS):
    """The least time of one call of each work, in microseconds: the works in turns."""
    rounds = 1 if QUICK else rounds
    best = [float("inf")] * len(works)
    for _ in range(rounds):
        for k, work in enumerate(works):
            start = time.perf_counter()
            for _ in range(calls_each):
                work()
            best[k] = min(best[k], (time.perf_counter() - start) / calls_each * 1e6)
    return best


def rows(head, lines):
    """A table."""
    print(f"| {' | '.join(head)} |\n|{'---|' * len(head)}")
    for line in lines:
        print(f"| {' | '.join(line)} |")
    print()


def micro(value):
    return "-" if value is None else f"{value:.2f} µs" if value < 10 else f"{value:.0f} µs"


def drawn(seed):
    """A random state of 64 qubits of which none is used."""
    chance = random.Random(seed)
    state = State.zeros(N)
    for q in range(N):
        state.h(q)
    for _ in range(400):
        state.gate(chance.randrange(N), chance.randrange(24))
        state.cz(*chance.sample(range(N), 2))
    return state


def numpy_tableau():
    """A random numpy tableau, or None. Its gates and measurements are held to the engine first."""
    if not importlib.util.find_spec("numpy"):
        return None
    from tableau import Tableau

    chance, table, state = random.Random(1), Tableau(N), State.zeros(N)
    for _ in range(1500):
        a, b = chance.sample(range(N), 2)
        for name, qubits in chance.choice(([("h", (a,)), ("s", (b,))], [("cz", (a, b))], [("cx", (a, b))])):
            getattr(table, name)(*qubits)
            getattr(state, name)(*qubits)
    other = table.copy()
    for q in range(N):
        bit = chance.randrange(2)
        if other.measure(q, bit) != state.measure_row(f"Z{q}", source=FixedBit(bit)).outcome:
            raise SystemExit("the tableau in numpy does not agree with the engine")
    return table


class FixedBit:
    """A source of one bit."""

    def __init__(self, bit):
        self.bit = bit

    def getrandbits(self, count):
        return self.bit


def steps_of(count, seed):
    """A run of gates, CZ and a few measurements, as four arrays."""
    chance = random.Random(seed)
    steps = []
    for k in range(count):
        kind = chance.random()
        a, b = chance.sample(range(N), 2)
        steps.append((0, a, 0, chance.randrange(24)) if kind < 0.6 else (1, a, b, 0))
    columns = list(zip(*steps))
    return [array("B", columns[0]), *(array("H", column) for column in columns[1:])]


def cffi_gate():
    """`sukhlent_gate` through cffi in its API mode, or None where it is not installed."""
    if not importlib.util.find_spec("cffi"):
        return None
    import cffi

    maker = cffi.FFI()
    maker.cdef("uint8_t sukhlent_gate(uint64_t n, uint64_t *neighbours, size_t neighbours_len, uint8_t *codes,"
               " size_t codes_len, uint64_t used, uint64_t qubit, uint8_t code);")
    maker.set_source("_sukhlent_cffi", '#include "sukhlent.h"', include_dirs=[str(ROOT / "include")],
                     libraries=["sukhlent"], library_dirs=[str(library.PATH.parent)],
                     extra_link_args=[f"-Wl,-rpath,{library.PATH.parent}"])
    folder = tempfile.mkdtemp()
    try:
        maker.compile(folder)
    except Exception as error:  # no compiler, or no setuptools
        print(f"cffi: {error}", file=sys.stderr)
        return None
    sys.path.insert(0, folder)
    import _sukhlent_cffi

    return _sukhlent_cffi


def bindings():
    """One gate by each way from Python to C."""
    state = drawn(1)
    neighbours, codes = (ctypes.c_uint64 * N)(*state.neighbours), (ctypes.c_uint8 * N)(*state.codes)
    plain = library._library.sukhlent_gate
    named = {"ctypes, buffers prepared": lambda: plain(N, neighbours, N, codes, N, 0, 5, 8)}
    made = cffi_gate()
    if made:
        held, kept = made.ffi.new("uint64_t[]", list(state.neighbours)), made.ffi.new("uint8_t[]", list(state.codes))
        gate = made.lib.sukhlent_gate
        named["cffi in API mode, buffers prepared"] = lambda: gate(N, held, N, kept, N, 0, 5, 8)
    block, other = bytearray(state._block), bytearray(state._block)
    named["the package's ctypes, on a block"] = lambda: by_ctypes.gate(other, 5, 8)
    if calls.TAKEN == "extension":
        named["the extension, on a block"] = lambda: calls.gate(block, 5, 8)
    named["`state.gate(5, \"H\")`"] = lambda: state.gate(5, "H")
    times = least(list(named.values()))
    rows(["one gate at 64 qubits", "time"], [[name, micro(t)] for name, t in zip(named, times)])


def table():
    """The calls of a state beside a numpy tableau."""
    state, other = drawn(1), drawn(1)
    sealed = other.copy()
    numpy = numpy_tableau()
    measured = [state.copy() for _ in range(200 * ROUNDS + 1)]
    peers = [numpy.copy() for _ in range(200 * ROUNDS + 1)] if numpy else []
    works = {
        "a gate, `state.h(5)`": (lambda: state.h(5), numpy and (lambda: numpy.h(5))),
        "`state.cz(3, 40)`": (lambda: state.cz(3, 40), numpy and (lambda: numpy.cz(3, 40))),
        "`state.cx(3, 40)`": (lambda: state.cx(3, 40), numpy and (lambda: numpy.cx(3, 40))),
        "`state.copy()`": (lambda: state.copy(), numpy and (lambda: numpy.copy())),
        "`state == other`, equal": (lambda: other == sealed, None),
        "`state.measure(\"Z\", 5)`": (lambda: measured.pop().measure("Z", 5), numpy and (lambda: peers.pop().measure(5, 0))),
        "`state.expectation(\"X3*Z40\")`": (lambda: state.expectation("X3*Z40"), None),
        "`state.cut(range(32))`": (lambda: state.cut(range(32)), None),
        "`state.key()`": (lambda: state.key(), None),
    }
    lines = []
    for name, (mine, peer) in works.items():
        times = least([mine] + ([peer] if peer else []))
        lines.append([name, micro(times[0]), micro(times[1]) if peer else "-"])
    rows(["at 64 qubits", "Sukhlent", "a tableau in numpy"], lines)


def runs():
    """4,096 steps in one call: through C alone, from buffers, from tuples; and many records in threads."""
    slices = steps_of(4096, 4)
    state = drawn(5)
    start = bytes(state._block)  # every run starts from the same record
    given = list(zip(*slices))
    answers = [(ctypes.c_uint8 * 4096)() for _ in range(3)]
    n, neighbours, codes = by_ctypes._record(state._block)
    used = ctypes.c_uint64(0)
    lent = [library.lent(name, part) for name, part in zip(library.RUN_NAMES, slices)]
    spread = [value for part in (*lent, *answers) for value in (part, 4096)]

    def anew(work):
        def done():
            state._block[:] = start
            work()

        return done

    named = {
        "the C call": lambda: library._library.sukhlent_run(n, neighbours, n, codes, n, ctypes.byref(used), *spread),
        "`state.run(ops, a, b, value)`, arrays": lambda: state.run(*slices),
        "`state.run(steps)`, tuples": lambda: state.run(given),
    }
    if importlib.util.find_spec("numpy"):
        import numpy

        arrays = [numpy.array(part, "uint8" if k == 0 else "uint16") for k, part in enumerate(slices)]
        named["`state.run(ops, a, b, value)`, numpy"] = lambda: state.run(*arrays)
    times = least([anew(work) for work in named.values()], 3, 40)
    lines = [[name, f"{t / 4.096:.0f} ns", f"{t / times[0]:.2f}"] for name, t in zip(named, times)]
    rows(["a step of a run of 4,096 at 64 qubits", "time", "to the C call"], lines)
    many()


def many():
    """16 records, each with 4,096 steps of its own, in one call: in one thread and in two."""
    states = [drawn(seed) for seed in range(16)]
    starts = [bytes(state._block) for state in states]
    own = [steps_of(4096, seed) for seed in range(16)]
    flat = [array("H" if k else "B", b"".join(bytes(part[k]) for part in own)) for k in range(4)]
    rows_of_steps = [memoryview(part).cast("B").cast(part.typecode, [16, 4096]) for part in flat]

    def work(threads):
        for state, start in zip(states, starts):
            state._block[:] = start
        run_many(states, *rows_of_steps, threads=threads)

    one, two = least([lambda threads=threads: work(threads) for threads in (1, 2)], 1, 500)
    print(f"`run_many` on 16 records, each with 4,096 steps of its own: {one / 1000:.2f} ms in one thread, {two / 1000:.2f} ms in two,"
          f" {two / one:.2f} of it ({os.cpu_count()} cores).\n")


def qutip():
    """A Hadamard on ten qubits by QuTiP, where it is installed."""
    if not importlib.util.find_spec("qutip"):
        print("QuTiP is not installed.")
        return
    import qutip

    n = 10
    vector, state = qutip.tensor([qutip.basis(2, 0)] * n), State.zeros(n)
    try:
        gate = qutip.tensor([qutip.qeye(2)] * 4 + [qutip.Qobj([[1, 1], [1, -1]]) / 2**0.5] + [qutip.qeye(2)] * 5)
    except Exception as error:
        print(f"QuTiP: {error}")
        return
    times = least([lambda: state.h(4), lambda: gate * vector], 50)
    rows(["a Hadamard at 10 qubits", "time"], [["Sukhlent", micro(times[0])], ["QuTiP, matrix prepared", micro(times[1])]])


if __name__ == "__main__":
    print(f"Python {sys.version.split()[0]}, {calls.TAKEN}, load {os.getloadavg()[0]:.1f}\n")
    bindings()
    table()
    runs()
    qutip()
