"""Comparison under renumbering: two labs built the same state, with other gates and in another order of the photons."""

from sukhlent import State

ours = State.graph(6, [(0, 1), (1, 2), (2, 3), (3, 4), (4, 5), (1, 4)])
theirs = State.graph(6, [(5, 2), (2, 0), (0, 4), (4, 1), (1, 3), (2, 1)], ["H", "S", "I", "SQRT_X", "Y", "H"])
print("photon by photon:", ours.equivalent(theirs))
found = ours.equivalent(theirs, renumbered=True)
print("their photon q is our photon", found.order, "after", *found.gates)
moved = ours.permute(found.order)
for qubit, gate in enumerate(found.gates):
    moved.gate(qubit, gate)
print("the same state:", moved == theirs)
