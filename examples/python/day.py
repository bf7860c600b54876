"""A day in a lab: a cluster is prepared and cut to a wire, which is saved. A first try measures the wrong Pauli and misses
the target, so the session returns to the wire, measures the right one, and ends in the target up to gates, which are done.
rust/sukhlent/examples/day.rs is the same in Rust."""

from sukhlent import State, Store

store = Store()
target = State.graph(6, [(3, 0), (0, 2), (2, 5)])  # the wire 3, 0, 2, 5; 1 and 4 apart

# Two rows of three: 0 1 2 above 3 4 5.
state = State.graph(6, [(0, 1), (1, 2), (3, 4), (4, 5), (0, 3), (1, 4), (2, 5)])
print("entanglement of the rows:", state.cut([0, 1, 2]))


def measure(pauli, qubit, outcome):
    """Measures, and says how it went."""
    how = "determined" if state.measure(pauli, qubit, outcome).determined else "free"
    print(f"{pauli} at {qubit}: {outcome}, {how}")


def compare():
    """Says which gates lead to the target, and answers them."""
    found = state.compare(target)
    print("to the target by " + " ".join(found.gates) if found else "no local gates lead to the target")
    return found


measure("Z", 4, 1)  # cuts 4 out: the wire 3, 0, 1, 2, 5 is left
store.save("wire", state)
measure("X", 1, 0)
compare()

state = store.return_to("wire")
print("back at the wire")
measure("Y", 1, 1)  # takes 1 out and joins 0 and 2
for qubit, gate in enumerate(compare().gates):
    if not state.used >> qubit & 1:
        state.gate(qubit, gate)
print(state)
