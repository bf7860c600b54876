"""Two groups on one record: what one sees does not depend on the other, and each call does what the whole-record call
does."""

import random
import unittest

from sukhlent import Refusal, Shared, State

WORD = [q for q in range(64) if q % 3 == 0]


def drawn(source, qubits, names):
    """A call of a group: the name of a method and its arguments."""
    a, b = source.sample(qubits, 2)
    return source.choice(
        [
            ("gate", a, source.randrange(24)),
            ("cz", a, b),
            ("measure", source.choice("XYZ"), a, source.randrange(2)),
            ("complement", a),
            ("save", source.choice(names)),
            ("return_to", source.choice(names)),
            ("forget", source.choice(names)),
        ]
    )


def made(target, call):
    """What a call answers, or the number of its refusal."""
    try:
        return getattr(target, call[0])(*call[1:])
    except Refusal as refusal:
        return refusal.number


def seen(group):
    """What a group sees after a call."""
    state = group.state()
    return state.neighbours, state.codes, state.used, group.names()


class Groups(unittest.TestCase):
    def test_what_a_group_sees_does_not_depend_on_the_other(self):
        for seed in range(40):
            source = random.Random(seed)
            number = seed % 2
            own = Shared(WORD).group(number).qubits()
            calls = [drawn(source, own, "ABCDE") for _ in range(30)]
            runs = []
            for run in range(2):
                shared = Shared(WORD)
                watched, other = shared.group(number), shared.group(1 - number)
                observed = []
                for call in calls:
                    for _ in range(source.randrange(3)):
                        made(other, drawn(source, other.qubits(), "ABCDE"))
                    observed.append((made(watched, call), seen(watched)))
                runs.append(observed)
            self.assertEqual(runs[0], runs[1], seed)

    def test_each_call_does_what_the_whole_record_call_does(self):
        accepted = 0
        for seed in range(20):
            source, shared = random.Random(100 + seed), Shared(WORD)
            for _ in range(40):
                group = shared.group(source.randrange(2))
                call = drawn(source, group.qubits(), "A")
                if call[0] in ("save", "return_to", "forget"):
                    made(group, call)
                    continue
                whole = shared.state()
                due, given = made(whole, call), made(group, call)
                self.assertEqual(given, due, call)
                self.assertEqual(shared.state(), whole, call)
                self.assertEqual(shared.state().used, whole.used)
                accepted += due is None
        self.assertGreater(accepted, 300)

    def test_the_refusals_of_a_group(self):
        lower, upper = Shared(range(32, 64)).groups()
        for call, number in (
            (("gate", 40, "H"), 19),
            (("gate", 64, "H"), 8),
            (("gate", -1, "H"), 8),
            (("gate", 40, 24), 6),
            (("cz", 40, 40), 19),
            (("cz", 64, 64), 8),
            (("cz", 0, 40), 19),
            (("measure", "Z", 0, 1), 14),
            (("measure", "I", 40, 1), 6),
            (("complement", 33), 19),
            (("return_to", "none"), 17),
        ):
            self.assertEqual(made(lower, call), number, call)
        with self.assertRaises(Refusal) as refused:
            Shared([]).group(2)
        self.assertEqual(refused.exception.number, 6)

    def test_an_edge_between_the_groups_stops_every_call_until_it_is_gone(self):
        shared = Shared(range(32, 64))
        lower, upper = shared.groups()
        lower.save("A")
        shared.replace(State.graph(64, [(3, 50)]))
        for group, q in ((lower, 5), (upper, 55)):
            for call in (
                ("gate", q, "H"),
                ("cz", q, q + 1),
                ("measure", "X", q, 0),
                ("complement", q),
                ("save", "B"),
                ("return_to", "A"),
                ("forget", "A"),
                ("state",),
            ):
                self.assertEqual(made(group, call), 19, call)
        joined = shared.state()
        joined.cz(3, 50)
        shared.replace(joined)
        lower.return_to("A")
        self.assertEqual(lower.state(), State.zeros(64))
        self.assertEqual(upper.state().codes[50], 0)
