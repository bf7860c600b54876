"""Jobs by the calls against the proved program."""

import random
import unittest

from sukhlent import Refusal, State, Step, generate, job_text, parse_job, run_job, run_step, run_steps
from sukhlent.reading import plain_text
from tests.places import program


def printed(text):
    """The same, by the calls."""
    try:
        state, results = run_job(text)
    except Refusal as refusal:
        return f"refused {refusal.number}\n"
    lines = (f"{k} {r.refusal} {r.outcome} {r.determined}\n" for k, r in enumerate(results))
    return "".join(["step refusal outcome determined\n", *lines, str(state), "\n"])


class Jobs(unittest.TestCase):
    def test_drawn_jobs_and_random_steps_answer_as_the_program_does(self):
        source = random.Random(3)
        for seed in range(1, 40):
            n = source.randrange(1, 9)
            text = generate(n, 60, seed)
            for _ in range(40):
                op = source.choice(("gate", "cz", "measure", "complement", "pivot"))
                fields = [source.choice((0, 0, source.randrange(n), source.randrange(30))) for _ in range(3)]
                text += f"{op} {fields[0]} {fields[1]} {fields[2]}\n"
            self.assertEqual(printed(text), program("job", text))

    def test_texts_without_the_form_are_refused_alike(self):
        good = generate(2, 3, 1)
        texts = ["", "qubits\n", good[:-1], good.replace("\n", "\r\n"), good + "\n", good.replace("2", "02", 1)]
        texts += [good.replace("2", "0", 1), good.replace("2", "65", 1), "qubits\n2\nop a b value\n"]
        texts += [good + "gate 0 0 0\n" * 4094]
        for text in texts:
            self.assertEqual(printed(text), program("job", plain_text(text)))

    def test_many_steps_in_one_call_are_the_steps_one_by_one(self):
        source = random.Random(5)
        for n in (1, 2, 3, 8, 64):
            steps = []
            for _ in range(300):
                op = source.choice(("gate", "cz", "measure", "complement", "pivot"))
                a, b, value = (source.choice((0, 0, source.randrange(n), source.randrange(30))) for _ in range(3))
                steps.append(Step(op, a, b, value))
            steps += [Step("gate", 70000, 0, 1), Step("gate", 0, 0, 70000), Step("cz", 0, 65536, 0)]
            one, other = State.zeros(n), State.zeros(n)
            self.assertEqual(run_steps(one, steps), [run_step(other, step) for step in steps])
            self.assertEqual((one.neighbours, one.codes, one.used), (other.neighbours, other.codes, other.used))

    def test_negative_fields_are_refused_one_by_one_and_in_one_call(self):
        ops = {"gate": (8, 6, 6), "cz": (8, 8, 6), "measure": (8, 6, 6), "complement": (8, 6, 6), "pivot": (8, 8, 6)}
        for op, due in ops.items():
            for place in range(3):
                fields = [0, 1 if op in ("cz", "pivot") else 0, 0]
                fields[place] = -1
                step, one, other = Step(op, *fields), State.graph(2, [(0, 1)]), State.graph(2, [(0, 1)])
                self.assertEqual([run_step(one, step)], run_steps(other, [step]), step)
                self.assertEqual(run_step(one, step).refusal, due[place], step)
                self.assertEqual(str(one), str(State.graph(2, [(0, 1)])))

    def test_more_than_4096_steps_are_refused(self):
        state = State.zeros(1)
        with self.assertRaises(Refusal) as caught:
            run_steps(state, [Step("gate", 0, 0, 1)] * 4097)
        self.assertEqual((caught.exception.number, state.codes), (15, (8,)))

    def test_an_unknown_operation_is_refused_as_in_a_text(self):
        for run in (run_step, lambda state, step: run_steps(state, [Step("gate", 0, 0, 1), step])):
            state = State.zeros(1)
            with self.assertRaises(Refusal) as caught:
                run(state, Step("h", 0, 0, 0))
            self.assertEqual((caught.exception.number, state.codes), (1, (8,)))
            self.assertIn("'h'", str(caught.exception))

    def test_steps_may_come_one_after_the_other(self):
        state = State.zeros(1)
        self.assertEqual(state.run(iter([(0, 0, 0, 8), [2, 0, 0, 0]])), [(0, 0, 0), (0, 0, 1)])
        with self.assertRaises(ValueError):
            state.run([(0, 0, 0)])

    def test_a_parsed_job_has_its_steps(self):
        text = generate(5, 17, 9)
        n, steps = parse_job(text)
        self.assertEqual((n, len(steps), job_text(n, steps)), (5, 17, text))
