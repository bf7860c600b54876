"""Which of the 11 classes of six qubits: connected graph states of six vertices, equivalent where local Cliffords and a
renumbering carry one onto the other. One graph stands for each class."""

from sukhlent import State, orbit

CLASSES = {
    "star": [(0, 1), (0, 2), (0, 3), (0, 4), (0, 5)],
    "star with a longer ray": [(0, 1), (0, 2), (0, 3), (0, 4), (4, 5)],
    "two stars of three": [(0, 1), (0, 2), (0, 3), (3, 4), (3, 5)],
    "star with two longer rays": [(0, 1), (0, 2), (0, 3), (2, 4), (3, 5)],
    "path with a fork": [(0, 1), (0, 2), (0, 3), (3, 4), (4, 5)],
    "path": [(0, 1), (1, 2), (2, 3), (3, 4), (4, 5)],
    "square with two rays": [(0, 1), (1, 2), (2, 3), (3, 0), (0, 4), (2, 5)],
    "triangle with three rays": [(0, 1), (1, 2), (2, 0), (0, 3), (1, 4), (2, 5)],
    "ring of five with a ray": [(0, 1), (1, 2), (2, 3), (3, 4), (4, 0), (0, 5)],
    "ring": [(0, 1), (1, 2), (2, 3), (3, 4), (4, 5), (5, 0)],
    "prism": [(0, 1), (1, 2), (2, 0), (3, 4), (4, 5), (5, 3), (0, 3), (1, 4), (2, 5)],
}


def class_of(state):
    """The name of a state's class."""
    for name, edges in CLASSES.items():
        if State.graph(6, edges).equivalent(state, renumbered=True):
            return name
    return "not connected"


for name, edges in CLASSES.items():
    print(f"{name}: complementations reach {len(orbit(6, edges).numbers)} graphs")
print("a lattice of two rows:", class_of(State.lattice(2, 3)))
print("all joined to all:", class_of(State.graph(6, [(a, b) for b in range(6) for a in range(b)])))
code = State.from_strings("XZZXI_", "_XZZXI", "X_XZZ_", "ZX_XZ_", "ZZZZZZ", "XXXXXX")
print("the five-qubit code with a sixth qubit:", class_of(code))
