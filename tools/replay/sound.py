"""Sound arguments for every call: a method of `Sound` for each, under the call's name (`return_` for return).

A new call is one method more. Records, lists, texts, stores and groups go on from call to call, so that the answers of one
are the arguments of another.
"""
import re

from recorder import Lent

LIST = 96
TEXT = 61463


class Record:
    """A record that goes on from call to call."""

    def __init__(self, n):
        self.n = n
        self.neighbours = [0] * n
        self.codes = [8] * n
        self.used = 0

    def any(self, draw):
        """Any graph and codes, not reduced."""
        density = draw.random()
        for a in range(self.n):
            for b in range(a):
                if draw.random() < density:
                    self.neighbours[a] |= 1 << b
                    self.neighbours[b] |= 1 << a
        self.codes = [draw.randrange(24) for _ in range(self.n)]
        return self

    def lent(self):
        return self.n, self.neighbours, self.codes

    def copy(self):
        copy = Record(self.n)
        copy.neighbours, copy.codes, copy.used = list(self.neighbours), list(self.codes), self.used
        return copy


class Store:
    def __init__(self):
        self.lent = [[0] * 24, [0] * 512, [0] * 512]


class Groups:
    """A record of two groups, with their store."""

    def __init__(self, draw):
        self.word = draw.getrandbits(64)
        self.record = Record(64)
        self.store = Store()


def size(draw):
    return draw.choice([1, 2, 3, 5, 8, 10, 13, 20, 21, 33, 63, 64, draw.randint(1, 64)])


class Sound:
    def __init__(self, recorder, header):
        self.recorder = recorder
        self.draw = recorder.random
        self.operations = 1 + max(map(int, re.findall(r"^#define SUKHLENT_OP_\w+ (\d+)$", header, re.M)))
        self.records = [self.fresh() for _ in range(16)]
        self.store = Store()
        self.groups = Groups(self.draw)

    def entry(self, name):
        """The method that makes a call, or None."""
        return getattr(self, name + "_" if name == "return" else name, None)

    def call(self, name, *values):
        """Of three times one the damaged call first; then the sound one."""
        if self.draw.random() < 0.33:
            self.recorder.damaged(name, *values)
        return self.recorder.call(name, *values)

    # what the calls are made of

    def fresh(self):
        record = Record(size(self.draw))
        return record.any(self.draw) if self.draw.random() < 0.5 else record

    def record(self):
        """One of the records, now and then a new one in its place."""
        k = self.draw.randrange(len(self.records))
        record = self.records[k]
        if self.draw.random() < 0.03 or record.used == (1 << record.n) - 1:
            self.records[k] = self.fresh()
        return self.records[k]

    def word(self, n):
        return self.draw.getrandbits(n)

    def qubit(self, record):
        return self.draw.randrange(record.n)

    def used_qubit(self, record, own=range(64)):
        """Mostly a used one of these qubits."""
        used = [q for q in own if record.used >> q & 1]
        return self.draw.choice(used if used and self.draw.random() < 0.8 else [q for q in own if q < record.n] or [0])

    def in_place(self, record, answer, after, used=False):
        """Takes over what an accepted call has left."""
        if answer == 0:
            record.neighbours, record.codes = after[:2]
            if used:
                record.used = after[2][0]

    # lists

    def version(self):
        self.recorder.call("version")

    def expand(self, record=None):
        """A list, with rows multiplied into each other by the library's own product."""
        record = record or self.record()
        places = [Lent(record.n)] * 3
        _, after = self.call("expand", *record.lent(), record.used, *places)
        signs, z, x = after[-3:]
        for _ in range(self.draw.randrange(3) if record.n > 1 else 0):
            a, b = self.draw.sample(range(record.n), 2)
            _, after = self.call("product", record.n, signs, z, x, 1 << a | 1 << b, Lent(1), Lent(1), Lent(1))
            z[a], x[a], signs[a] = after[3][0], after[4][0], after[5][0] // 2
        return record.n, signs, z, x

    def product(self):
        n, signs, z, x = self.expand()
        self.call("product", n, signs, z, x, self.word(n), Lent(1), Lent(1), Lent(1))

    def check(self):
        self.call("check", *self.expand())

    def reduce(self):
        n, signs, z, x = self.expand()
        self.call("reduce", n, signs, z, x, Lent(n), Lent(n), Lent(1))

    def write_strings(self):
        n, signs, z, x = self.expand()
        _, after = self.call("write_strings", n, signs, z, x, Lent(n * (n + 2)))
        return after[3]

    def read_strings(self):
        text = self.write_strings()
        n = text.count(10)
        self.call("read_strings", text, Lent(n), Lent(n), Lent(n))

    def write_record(self):
        record = self.record()
        _, after = self.call("write_record", *record.lent(), record.used, Lent(1627), Lent(1))
        return after[-2][: after[-1][0]]

    def read_record(self):
        self.call("read_record", self.write_record(), Lent(1), Lent(64), Lent(64), Lent(1))

    # a record in place

    def gate(self, record=None):
        record = record or self.record()
        self.in_place(record, *self.call("gate", *record.lent(), record.used, self.qubit(record), self.draw.randrange(24)))

    def cz(self, record=None):
        record = record or self.record()
        self.in_place(record, *self.call("cz", *record.lent(), record.used, self.qubit(record), self.qubit(record)))

    def complement(self, record=None):
        record = record or self.record()
        self.in_place(record, *self.call("complement", *record.lent(), record.used, self.qubit(record)))

    def measure(self, name="measure"):
        record = self.record()
        asked = self.draw.randint(1, 3), self.qubit(record), self.draw.randrange(2)
        self.in_place(record, *self.call(name, *record.lent(), [record.used], *asked, Lent(1), Lent(1)), used=True)

    def observe(self):
        self.measure("observe")

    def renew(self):
        record = self.record()
        photon = self.used_qubit(record), 2 * self.draw.randrange(6)
        self.in_place(record, *self.call("renew", *record.lent(), [record.used], *photon), used=True)

    def measure_row(self):
        """A row that acts on no used qubit, now and then one of the group."""
        record = self.record()
        kept = ~record.used
        z, x = self.word(record.n) & kept, self.word(record.n) & kept
        if self.draw.random() < 0.3:
            _, _, rows_z, rows_x = self.expand(record)
            k = self.qubit(record)
            z, x = rows_z[k] & kept, rows_x[k] & kept
        row = z, x, self.draw.randrange(2)
        self.in_place(record, *self.call("measure_row", *record.lent(), record.used, *row, Lent(1), Lent(1)))

    def run(self):
        record = self.record()
        count = self.draw.choice([0, 1, 5, 40, 40, self.draw.randint(0, 300)])
        if self.draw.random() < 0.01:
            count = self.draw.choice([4096, 4097])
        steps = [self.step(record.n) for _ in range(count)]
        columns = [list(column) for column in zip(*steps)] or [[]] * 4
        answer, after = self.call("run", *record.lent(), [record.used], *columns, *[Lent(count)] * 3)
        self.in_place(record, answer, after, used=True)

    def step(self, n):
        """An operation, its qubits and its value; now and then a qubit that is n."""
        draw = self.draw
        op = draw.choice([0, 0, 1, 1, 1, *range(2, self.operations)])
        a, b = (draw.randrange(n + (draw.random() < 0.02)) for _ in range(2))
        values = {0: draw.randrange(24), 2: draw.randrange(6), 5: draw.randrange(6), 6: 2 * draw.randrange(6)}
        return op, a, b if op in (1, 4) else 0, values.get(op, 0)

    # a record that is read

    def image(self):
        """A graph that complementations have led elsewhere."""
        record = self.fresh().any(self.draw)
        record.codes = [0] * record.n
        for _ in range(self.draw.randrange(12)):
            _, (record.neighbours, record.codes) = self.recorder.call("complement", *record.lent(), 0, self.qubit(record))
        self.call("image", *record.lent(), Lent(record.n), Lent(record.n), Lent(LIST), Lent(1))

    def cut(self):
        record = self.record()
        self.call("cut", *record.lent(), record.used, self.word(record.n), Lent(1))

    def amplitude(self):
        record = self.record()
        self.call("amplitude", *record.lent(), record.used, self.word(record.n), Lent(1), Lent(1), Lent(1))

    def expectation(self):
        """Of a row of the group, or of any."""
        record = self.record()
        row = self.word(record.n), self.word(record.n)
        if self.draw.random() < 0.5:
            _, _, z, x = self.expand(record)
            k = self.qubit(record)
            row = z[k], x[k]
        self.call("expectation", *record.lent(), record.used, *row, Lent(1))

    # comparisons

    def pair(self):
        """Two records that are equivalent, or nearly."""
        draw = self.draw
        first = Record(draw.choice([1, 2, 3, 4, 5, 8, 10, 12, 20, 21, 40, 64])).any(draw)
        if first.n > 10:
            part = draw.choice([1, 2, 4, 10, 20, 64])
            for a in range(first.n):
                first.neighbours[a] &= (1 << part) - 1 << a // part * part & (1 << first.n) - 1
        second = first.copy()
        for change in [self.complement] * draw.randrange(6) + [self.gate] * draw.randrange(6):
            change(second)
        if draw.random() < 0.2:
            self.cz(second)
        return first, second

    def compare(self, name="compare"):
        first, second = self.pair()
        self.call(name, *self.expand(first), *self.expand(second), Lent(first.n), Lent(LIST), Lent(1))

    def compare_records(self, name="compare_records"):
        first, second = self.pair()
        self.call(name, *first.lent(), *second.lent(), Lent(first.n), Lent(LIST), Lent(1))

    def equivalent(self):
        self.compare("equivalent")

    def equivalent_records(self):
        self.compare_records("equivalent_records")

    # long answers

    def generate(self):
        count = self.draw.randrange(40)
        if self.draw.random() < 0.05:
            count = self.draw.choice([4095, 4096, 4097, self.draw.randrange(4096)])
        self.call("generate", size(self.draw), count, self.draw.getrandbits(64), Lent(TEXT), Lent(1))

    def orbit(self):
        record = Record(self.draw.randint(1, 6)).any(self.draw)
        self.call("orbit", record.n, record.neighbours, Lent(32768), Lent(1))

    # a store

    def name(self):
        return self.draw.randrange(10) << 56

    def save(self):
        record = self.record()
        answer, after = self.call("save", *record.lent(), record.used, self.name(), *self.store.lent)
        if answer == 0:
            self.store.lent = after[2:]

    def return_(self):
        self.call("return", self.name(), *self.store.lent, Lent(1), Lent(64), Lent(64), Lent(1))

    def forget(self):
        answer, after = self.call("forget", self.name(), *self.store.lent)
        if answer == 0:
            self.store.lent = after

    # groups

    def group(self, name, *more, used=None):
        """A call of one of the two groups, mostly on qubits of its own: "qubit" stands for one, "used" for a used one. The
        call writes the word of used qubits where `used` is given."""
        draw = self.draw
        if draw.random() < 0.01:
            self.groups = Groups(draw)
        groups, group = self.groups, draw.randrange(2)
        own = [q for q in range(64) if groups.word >> q & 1 == group and draw.random() > 0.05] or [0]
        record = groups.record
        drawn = {"qubit": lambda: draw.choice(own), "used": lambda: self.used_qubit(record, own)}
        words = [drawn[word]() if isinstance(word, str) else word for word in more]
        head = 64, groups.word, group, record.neighbours, record.codes
        answer, after = self.call("group_" + name, *head, [record.used] if used else record.used, *words)
        self.in_place(record, answer, after, used)
        return answer, after

    def group_gate(self):
        self.group("gate", "qubit", self.draw.randrange(24))

    def group_cz(self):
        self.group("cz", "qubit", "qubit")

    def group_complement(self):
        self.group("complement", "qubit")

    def group_measure(self):
        self.group("measure", self.draw.randint(1, 3), "qubit", self.draw.randrange(2), Lent(1), Lent(1), used=True)

    def group_observe(self):
        self.group("observe", self.draw.randint(1, 3), "qubit", self.draw.randrange(2), Lent(1), Lent(1), used=True)

    def group_renew(self):
        self.group("renew", "used", 2 * self.draw.randrange(6), used=True)

    def group_return(self):
        self.group("return", self.name(), *self.groups.store.lent, used=True)

    def group_save(self):
        self.stored("save")

    def group_forget(self):
        self.stored("forget")

    def stored(self, name):
        answer, after = self.group(name, self.name(), *self.groups.store.lent)
        if answer == 0:
            self.groups.store.lent = after[-3:]
