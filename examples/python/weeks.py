"""Weeks of running: a source sends photon after photon through a record of three places. A measured place takes a new
photon, the record never fills up, and it is kept as a text from time to time."""

import random

from sukhlent import State, read_record

lot = random.Random(1)
state, kept, ones = State.zeros(3), "", 0
state.h(0)
for photon in range(30_000):
    here, there = photon % 3, (photon + 1) % 3
    if state.used >> there & 1:
        state.renew(there, "+X")
    else:
        state.h(there)  # the first photons start in +Z
    state.cz(here, there)
    ones += state.measure("X" if photon % 2 else "Y", here, source=lot).outcome
    if photon % 10_000 == 9_999:
        kept = str(state)  # a file would hold it
        state = read_record(kept)
print("30,000 photons, share of outcome 1:", round(ones / 30_000, 2))
print(kept)
