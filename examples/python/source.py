"""A source that emits and measures a million photons on 64 places, by runs: each photon is joined to the one before it and
measured at the other end of the cluster, with a bit by lot, and its place takes a new one. The bits are those of
examples/c/source.c, so that both print the same."""

from array import array
from itertools import islice

from sukhlent import State

CZ, OBSERVE, RENEW = 1, 5, 6
PLACES, ALIVE, PLUS_X, X = 64, 40, 0, 0


def lot():
    """Bits by lot: those of a shift register."""
    word = 1
    while True:
        word ^= word << 13 & 0xFFFF_FFFF_FFFF_FFFF
        word ^= word >> 7
        word ^= word << 17 & 0xFFFF_FFFF_FFFF_FFFF
        yield word >> 63


def steps(photons):
    """Renewals, CZ and observations, one after the other."""
    for k in range(photons + ALIVE - 1):
        if PLACES <= k < photons:
            yield RENEW, k % PLACES, 0, PLUS_X
        if 0 < k < photons:
            yield CZ, (k - 1) % PLACES, k % PLACES, 0
        if k + 1 >= ALIVE:
            yield OBSERVE, (k + 1 - ALIVE) % PLACES, 0, X


def source(photons):
    """The outcomes of so many photons, and how many of them were determined."""
    state, bits, rest = State.graph(PLACES, []), lot(), steps(photons)
    outcomes, determined = bytearray(), 0
    while block := list(islice(rest, 4096)):
        ops, a, b, value = zip(*block)
        ran = state.run(array("B", ops), array("H", a), array("H", b), array("H", value), source=bits)
        assert not any(ran.refusals)
        outcomes += bytes(outcome for op, outcome in zip(ops, ran.outcomes) if op == OBSERVE)
        determined += sum(ran.determined)
    return outcomes, determined


if __name__ == "__main__":
    outcomes, determined = source(1_000_001)
    print(f"{len(outcomes)} photons emitted and measured on {PLACES} places")
    print(f"{sum(outcomes)} outcomes minus, {determined} determined")
    print(f"the last is {outcomes[-1]}, and the parity before it {sum(outcomes[:-1:2]) % 2}")
