"""A stabilizer tableau in plain Python, after Aaronson and Gottesman: the state that a run is compared with."""


class Tableau:
    """Rows of x bits, z bits and a sign: n destabilizers, then n stabilizers. All qubits start in +X."""

    def __init__(self, n):
        self.n = n
        self.rows = [[0, 1 << q, 0] for q in range(n)] + [[1 << q, 0, 0] for q in range(n)]

    def h(self, q):
        for row in self.rows:
            x, z = row[0] >> q & 1, row[1] >> q & 1
            row[2] ^= x & z
            row[0] ^= (x ^ z) << q
            row[1] ^= (x ^ z) << q

    def s(self, q):
        for row in self.rows:
            x, z = row[0] >> q & 1, row[1] >> q & 1
            row[2] ^= x & z
            row[1] ^= x << q

    def cz(self, a, b):
        for row in self.rows:
            xa, za, xb, zb = row[0] >> a & 1, row[1] >> a & 1, row[0] >> b & 1, row[1] >> b & 1
            row[2] ^= xa & xb & (za ^ zb)
            row[1] ^= xb << a | xa << b

    def x(self, q):
        for row in self.rows:
            row[2] ^= row[1] >> q & 1

    def join(self, row, other):
        """A row becomes its product with another."""
        power = 2 * (row[2] + other[2])
        both = (row[0] | row[1]) & (other[0] | other[1])
        while both:
            q = (both & -both).bit_length() - 1
            both &= both - 1
            x1, z1, x2, z2 = other[0] >> q & 1, other[1] >> q & 1, row[0] >> q & 1, row[1] >> q & 1
            power += (z2 - x2) if x1 and z1 else z2 * (2 * x2 - 1) if x1 else x2 * (1 - 2 * z2)
        row[0] ^= other[0]
        row[1] ^= other[1]
        row[2] = power % 4 // 2

    def observe_z(self, q, bit):
        """The outcome and whether it is determined."""
        n = self.n
        against = next((k for k in range(n, 2 * n) if self.rows[k][0] >> q & 1), None)
        if against is None:
            found = [0, 0, 0]
            for k in range(n):
                if self.rows[k][0] >> q & 1:
                    self.join(found, self.rows[k + n])
            return found[2], 1
        for k in range(2 * n):
            if k not in (against, against - n) and self.rows[k][0] >> q & 1:
                self.join(self.rows[k], self.rows[against])
        self.rows[against - n] = self.rows[against]
        self.rows[against] = [0, 1 << q, bit]
        return bit, 0

    def observe(self, pauli, q, bit):
        """Of X, Y or Z (1 to 3): the qubit is turned so that the Pauli is Z, and back."""
        for _ in range(3 if pauli == 2 else 0):  # S three times is its inverse: Y becomes X
            self.s(q)
        if pauli != 3:
            self.h(q)
        found = self.observe_z(q, bit)
        if pauli != 3:
            self.h(q)
        if pauli == 2:
            self.s(q)
        return found

    def renew(self, q, code):
        """A photon at a qubit that is alone: codes 0, 2, 4, 6, 8 and 10 are +X, -X, +Y, -Y, +Z and -Z."""
        if self.observe_z(q, 0)[0]:
            self.x(q)
        if code % 4:
            self.x(q)
        if code < 8:
            self.h(q)
        if code in (4, 6):
            self.s(q)
