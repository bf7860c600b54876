"""Fusion with failure: two linear clusters are joined at their ends. A fusion measures X*Z and Z*X of both end photons, and
works in half of the tries; one that fails measures both photons in Z, which cuts them off, and the next two are tried."""

import random

from sukhlent import State

lot = random.Random(14)
chain = [(q, q + 1) for q in range(5)]
state = State.graph(12, chain + [(a + 6, b + 6) for a, b in chain])  # 0 to 5, and 6 to 11
left, right = 5, 6
while lot.random() < 0.5:
    for photon in (left, right):
        state.measure("Z", photon, source=lot)
    print(f"fusion of {left} and {right} failed; {left - 1} and {right + 1} are the ends now")
    left, right = left - 1, right + 1
rows = [f"X{left}*Z{right}", f"Z{left}*X{right}"]
outcomes = [state.measure_row(row, source=lot).outcome for row in rows]
for photon in (left, right):  # the detectors take both photons
    state.measure("Z", photon, source=lot)
print(f"fusion of {left} and {right}: {outcomes}")
joined = [q for q in range(12) if not state.used >> q & 1]
due = State.graph(12, list(zip(joined, joined[1:])))
found = state.equivalent(due)
print("one chain:", joined, "up to", *(f"{gate}{q}" for q, gate in enumerate(found.gates) if q in joined and gate != "I"))
