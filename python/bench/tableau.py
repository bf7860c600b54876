"""A stabilizer tableau in numpy, with destabilizers, for comparison: each gate is a few operations on columns, and nothing
is checked."""

import numpy


class Tableau:
    """n qubits in +Z: rows 0 to n - 1 are destabilizers, the others stabilizers."""

    def __init__(self, n):
        self.n = n
        self.x = numpy.eye(2 * n, n, dtype=bool)
        self.z = numpy.eye(2 * n, n, k=-n, dtype=bool)
        self.signs = numpy.zeros(2 * n, dtype=bool)

    def copy(self):
        other = Tableau.__new__(Tableau)
        other.n, other.x, other.z, other.signs = self.n, self.x.copy(), self.z.copy(), self.signs.copy()
        return other

    def h(self, q):
        self.signs ^= self.x[:, q] & self.z[:, q]
        self.x[:, q], self.z[:, q] = self.z[:, q].copy(), self.x[:, q].copy()

    def s(self, q):
        self.signs ^= self.x[:, q] & self.z[:, q]
        self.z[:, q] ^= self.x[:, q]

    def cx(self, a, b):
        self.signs ^= self.x[:, a] & self.z[:, b] & (self.x[:, b] ^ self.z[:, a] ^ True)
        self.x[:, b] ^= self.x[:, a]
        self.z[:, a] ^= self.z[:, b]

    def cz(self, a, b):
        self.h(b)
        self.cx(a, b)
        self.h(b)

    def _times(self, rows, by):
        """Multiplies rows by one, the power of i by bits."""
        x1, z1, x2, z2 = self.x[by], self.z[by], self.x[rows], self.z[rows]
        plus = (x1 & ~z1 & x2 & z2) | (x1 & z1 & ~x2 & z2) | (~x1 & z1 & x2 & ~z2)
        minus = (x1 & ~z1 & ~x2 & z2) | (x1 & z1 & x2 & ~z2) | (~x1 & z1 & x2 & z2)
        power = 2 * (self.signs[rows].astype(int) + self.signs[by]) + plus.sum(1) - minus.sum(1)
        self.signs[rows] = power % 4 == 2
        self.x[rows] ^= x1
        self.z[rows] ^= z1

    def measure(self, q, bit):
        """Z with a bit by lot; answers the outcome."""
        n = self.n
        free = numpy.flatnonzero(self.x[n:, q])
        if len(free):
            pivot = n + free[0]
            others = numpy.flatnonzero(self.x[:, q])
            self._times(others[others != pivot], pivot)
            self.x[pivot - n], self.z[pivot - n], self.signs[pivot - n] = self.x[pivot], self.z[pivot], self.signs[pivot]
            self.x[pivot], self.z[pivot], self.signs[pivot] = False, False, bit
            self.z[pivot, q] = True
            return bit
        x, z, power = numpy.zeros(n, bool), numpy.zeros(n, bool), 0
        for row in n + numpy.flatnonzero(self.x[:n, q]):
            x1, z1 = self.x[row], self.z[row]
            plus = (x1 & ~z1 & x & z) | (x1 & z1 & ~x & z) | (~x1 & z1 & x & ~z)
            minus = (x1 & ~z1 & ~x & z) | (x1 & z1 & x & ~z) | (~x1 & z1 & x & z)
            power += 2 * self.signs[row] + plus.sum() - minus.sum()
            x, z = x ^ x1, z ^ z1
        return int(power % 4 == 2)
