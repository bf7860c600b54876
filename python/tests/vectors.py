"""State vectors and matrices on a few qubits, for comparison: plain lists of complex numbers, qubit 0 leftmost."""

import itertools

I, X, Y, Z = [[1, 0], [0, 1]], [[0, 1], [1, 0]], [[0, -1j], [1j, 0]], [[1, 0], [0, -1]]
PAULIS = {"I": I, "X": X, "Y": Y, "Z": Z}


def kron(a, b):
    """The tensor product of two matrices."""
    return [[p * q for p in row for q in other] for row in a for other in b]


def product(a, b):
    return [[sum(p * q for p, q in zip(row, column)) for column in zip(*b)] for row in a]


def combined(*terms):
    """A sum of matrices with factors."""
    size = len(terms[0][1])
    return [[sum(factor * matrix[r][c] for factor, matrix in terms) for c in range(size)] for r in range(size)]


def dagger(a):
    return [[complex(value).conjugate() for value in column] for column in zip(*a)]


def letters(word):
    """The matrix of a word of letters."""
    matrix = [[1]]
    for letter in word:
        matrix = kron(matrix, PAULIS[letter])
    return matrix


def root(matrix):
    """The square root that has 1 where the matrix has 1, and i where it has -1."""
    size = len(matrix)
    one = [[int(r == c) for c in range(size)] for r in range(size)]
    return combined(((1 + 1j) / 2, one), ((1 - 1j) / 2, matrix))


SINGLES = {
    "I": I, "X": X, "Y": Y, "Z": Z, "H": combined((0.5**0.5, X), (0.5**0.5, Z)), "S": root(Z), "S_DAG": dagger(root(Z)),
    "SQRT_X": root(X), "SQRT_X_DAG": dagger(root(X)), "SQRT_Y": root(Y), "SQRT_Y_DAG": dagger(root(Y)),
    "SQRT_Z": root(Z), "H_XY": combined((0.5**0.5, X), (0.5**0.5, Y)), "H_YZ": combined((0.5**0.5, Y), (0.5**0.5, Z)),
}  # fmt: skip


def controlled(first, second):
    """-1 where both letters are -1."""
    one, a, b, both = (letters(word) for word in ("II", first + "I", "I" + second, first + second))
    return combined((0.5, one), (0.5, a), (0.5, b), (-0.5, both))


SWAP = [[1, 0, 0, 0], [0, 0, 1, 0], [0, 1, 0, 0], [0, 0, 0, 1]]
ISWAP = [[1, 0, 0, 0], [0, 0, 1j, 0], [0, 1j, 0, 0], [0, 0, 0, 1]]
PAIRS = {
    **{f"{p}C{q}": controlled(p, q) for p in "XYZ" for q in "XYZ"},
    "CX": controlled("Z", "X"), "CNOT": controlled("Z", "X"), "CY": controlled("Z", "Y"), "CZ": controlled("Z", "Z"),
    "SWAP": SWAP, "ISWAP": ISWAP, "ISWAP_DAG": dagger(ISWAP), "CXSWAP": product(SWAP, controlled("Z", "X")),
    "SWAPCX": product(controlled("Z", "X"), SWAP), "CZSWAP": product(SWAP, controlled("Z", "Z")),
    "SWAPCZ": product(controlled("Z", "Z"), SWAP),
    **{f"SQRT_{p * 2}": root(letters(p * 2)) for p in "XYZ"},
    **{f"SQRT_{p * 2}_DAG": dagger(root(letters(p * 2))) for p in "XYZ"},
}  # fmt: skip


class Vector:
    """n qubits in |0..0>."""

    def __init__(self, n):
        self.n, self.held = n, [1.0 + 0j] + [0j] * ((1 << n) - 1)

    def bit(self, index, qubit):
        return index >> self.n - 1 - qubit & 1

    def apply(self, matrix, *qubits):
        """A matrix on some qubits, the first leftmost."""
        new = [0j] * len(self.held)
        for index, value in enumerate(self.held):
            if value:
                column = sum(self.bit(index, q) << len(qubits) - 1 - k for k, q in enumerate(qubits))
                for row in range(len(matrix)):
                    target = index
                    for k, q in enumerate(qubits):
                        wanted = row >> len(qubits) - 1 - k & 1
                        target = target & ~(1 << self.n - 1 - q) | wanted << self.n - 1 - q
                    new[target] += matrix[row][column] * value
        self.held = new

    def moved(self, word):
        """The vector after a word of letters."""
        other = Vector(self.n)
        other.held = list(self.held)
        for q, letter in enumerate(word):
            other.apply(PAULIS[letter], q)
        return other.held

    def expectation(self, word):
        return sum((a.conjugate() * b).real for a, b in zip(self.held, self.moved(word)))

    def project(self, word, outcome):
        """Onto an outcome of a word of letters; answers its probability."""
        sign = -1 if outcome else 1
        new = [(a + sign * b) / 2 for a, b in zip(self.held, self.moved(word))]
        weight = sum(abs(value) ** 2 for value in new)
        if weight > 1e-9:
            self.held = [value / weight**0.5 for value in new]
        return weight

    def agrees(self, state):
        """Whether a state has the same expectation value of every word."""
        words = map("".join, itertools.product("IXYZ", repeat=self.n))
        return all(abs(self.expectation(word) - state.expectation(word)) < 1e-6 for word in words)
