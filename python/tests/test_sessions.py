"""Sessions: their steps are those of a state, and after a crash at any moment what comes back is a state whose answers were
all given, or the one after it.

    SUKHLENT_KILLS=300 PYTHONPATH=python python3 -m unittest -v tests.test_sessions.Killed     # 300 moments in place of 40
"""

import os
import random
import signal
import tempfile
import time
import unittest
import warnings
from contextlib import closing
from pathlib import Path
from unittest import mock

from sukhlent import Refusal, Session, State, Step, read_state
from sukhlent.stepping import NAMES
from tests.places import sukhlent
from tests.test_shared import made

KILLS = int(os.environ.get("SUKHLENT_KILLS", "40"))
N = 5

#: a file system in memory, which flushes at once, where there is one; a process that is killed leaves the same there
MEMORY = "/dev/shm" if os.access("/dev/shm", os.W_OK) else None


def a_step(chance, n=N):
    """A step of any kind, now and then one that is refused."""
    op = chance.choice((0, 0, 1, 1, 2, 3, 4, 5, 5, 6, 6))
    a, b = chance.randrange(n + chance.randrange(2)), chance.randrange(n)
    value = {0: chance.randrange(25), 2: chance.randrange(6), 5: chance.randrange(7), 6: 2 * chance.randrange(7)}.get(op, 0)
    return op, a, b if op in (1, 4) else 0, value


def a_plan(seed, count):
    """Steps in the portions in which they are made: most alone, some together."""
    chance = random.Random(seed)
    return [[a_step(chance) for _ in range(chance.choice((1, 1, 1, 2, 5)))] for _ in range(count)]


def start():
    return State.graph(N, [(0, 1), (1, 2), (2, 3), (3, 4), (4, 0)])


def by_calls(state, step):
    """A step by the calls of a state, and not through a log: refusal, outcome and determined."""
    op, a, b, value = step
    if op in (2, 5) and value > 5:
        return 6, 0, 0
    if op < 5:
        return state.run([step])[0]
    if op == 5:
        source = mock.Mock(spec=["getrandbits"], **{"getrandbits.return_value": value % 2})
        found = made(state, ("measure", "XYZ"[value // 2], a, None, source))
        return (found, 0, 0) if isinstance(found, int) else (0, found.outcome, int(found.determined))
    if value > 10:
        return 6, 0, 0
    return made(state, ("renew", a, ("+X", "-X", "+Y", "-Y", "+Z", "-Z")[value // 2])) or 0, 0, 0


def expected(plan):
    """The records before and after each portion, and what each answers; by the calls of a state."""
    state = start()
    records, answers = [repr(state)], []
    for portion in plan:
        answers.append([by_calls(state, step) for step in portion])
        records.append(repr(state))
    return records, answers


class InAFolder(unittest.TestCase):
    def setUp(self):
        self.into(MEMORY)

    def into(self, place):
        """Takes a new folder below a place, None for where temporary files are."""
        folder = tempfile.TemporaryDirectory(dir=place)
        self.addCleanup(folder.cleanup)
        self.path = os.path.join(folder.name, "run")

    def refused(self, where):
        """Opening is refused by 1 with these words, and nothing changes."""
        before = Path(self.path).read_bytes()
        with self.assertRaises(Refusal) as refused:
            Session(self.path)
        self.assertEqual((refused.exception.number, Path(self.path).read_bytes()), (1, before))
        self.assertRegex(refused.exception.where, "^" + self.path + r": line [0-9]+")
        if where:
            self.assertEqual(refused.exception.where, f"{self.path}: {where}")


class Steps(InAFolder):
    def test_a_session_does_what_a_state_does(self):
        plan = a_plan(3, 300)
        records, answers = expected(plan)
        self.assertEqual({0, 6, 8, 14, 16, 20} - {answer[0] for portion in answers for answer in portion}, set())
        done = 0
        while done < len(plan):
            with Session(self.path, start(), every=40) as session:
                for _ in range(37):
                    if done < len(plan):
                        self.assertEqual(session.run(plan[done]), answers[done])
                        done += 1
                        self.assertEqual(repr(session.state), records[done])
                        self.assertEqual(session.steps, sum(map(len, plan[:done])))
                step, result = session.last
                self.assertEqual((NAMES.index(step.op), step.a, step.b, step.value), plan[done - 1][-1])
                self.assertEqual((result.refusal, result.outcome, result.determined), answers[done - 1][-1])
        self.assertEqual(repr(read_state(Path(self.path).read_text())), records[-1])

    def test_its_methods_are_those_of_a_state(self):
        chance, state = random.Random(5), start()
        with Session(self.path, start(), every=50) as session:
            for k in range(600):
                a, b = chance.randrange(N + 1), chance.randrange(N)
                call = chance.choice((
                    ("gate", a, chance.randrange(25)), ("gate", a, "SQRT_X"), ("cz", a, b), ("cx", a, b), ("complement", b),
                    ("measure", chance.choice("XYZT"), a, chance.randrange(3)), ("measure", "Y", b, None, k),
                    ("renew", a, chance.choice(("+X", "-Y"))), ("h", b), ("s", b), ("x", -1), ("gate", 0, 1 << 70),
                ))  # fmt: skip
                self.assertEqual(self.told(session, call), self.told(state, call))
                self.assertEqual(repr(session.state), repr(state))
        with Session(self.path) as session:
            self.assertEqual(repr(session.state), repr(state))

    def told(self, target, call):
        """What a call answers, or the words of its refusal."""
        try:
            return getattr(target, call[0])(*call[1:])
        except Refusal as refusal:
            return repr(refusal)

    def test_arguments_of_another_type_are_no_steps(self):
        with Session(self.path, start()) as session:
            for call in (("gate", "H", 0), ("gate", 0, "FOO"), ("cz", 0, None), ("measure", "Z", 0, "1"), ("renew", 0, "Q"),
                         ("run", [(0, 0, 0)]), ("run", [("gate", 0, 0, 0)]), ("complement", 0.5)):  # fmt: skip
                with self.assertRaises((TypeError, ValueError)):
                    getattr(session, call[0])(*call[1:])
            runs = ([(7, 0, 0, 0)], [(0, 0, 0, 0)] * 4097, [Step("h", 0, 0, 0)])
            self.assertEqual([made(session, ("run", given)) for given in runs], [6, 15, 1])
            self.assertEqual((session.run([]), session.steps), ([], 0))

    def test_a_session_starts_and_goes_on(self):
        with self.assertRaises(FileNotFoundError):
            Session(self.path)
        self.assertFalse(os.path.exists(self.path + ".lock"))
        with Session(self.path, start()) as session:
            session.h(0)
        with Session(self.path, start()) as session:
            self.assertEqual(session.steps, 1)
        with self.assertRaisesRegex(ValueError, "a session on 5 qubits, but the state to start with has 2"):
            Session(self.path, State.zeros(2))
        with self.assertRaises(TypeError):
            Session(self.path, 5)
        with self.assertRaises(ValueError):
            Session(self.path, start(), every=0)

    def test_what_a_crash_left_of_a_checkpoint_is_removed(self):
        with Session(self.path, start()) as session:
            session.h(0)
        Path(self.path + ".new").write_text("checkpoint steps qubits\n1 1")
        with Session(self.path) as session:
            self.assertEqual(session.steps, 1)
        self.assertEqual(sorted(os.listdir(os.path.dirname(self.path))), ["run", "run.lock"])

    def test_one_session_at_a_time(self):
        with Session(self.path, start()):
            with self.assertRaisesRegex(BlockingIOError, "the session is open elsewhere"):
                Session(self.path)
            child = os.fork()
            if child == 0:
                os._exit(7 if isinstance(made(self, ("opened",)), BlockingIOError) else 1)
            self.assertEqual(os.waitstatus_to_exitcode(os.waitpid(child, 0)[1]), 7)
        with Session(self.path) as session:
            child = os.fork()
            if child == 0:
                try:
                    session.h(0)
                except ValueError:
                    os._exit(7)
                os._exit(1)
            self.assertEqual(os.waitstatus_to_exitcode(os.waitpid(child, 0)[1]), 7)
            self.assertEqual(session.steps, 0)

    def opened(self):
        try:
            return Session(self.path)
        except OSError as error:
            return error

    def test_the_command_reads_the_file_of_a_session(self):
        with Session(self.path, State.zeros(2)) as session:
            session.h(0)
            session.cx(0, 1)
            self.assertEqual(sukhlent("expectation", self.path, "XX", "ZI")[:2], (0, "row value\nXX 1\nZI 0\n"))

    def test_a_failed_write_ends_the_session_and_not_the_file(self):
        for name in ("write", "fsync"):
            with Session(self.path, start()) as session:
                before = session.steps, repr(session.state)
                with mock.patch.object(os, name, side_effect=OSError(28, "No space left on device")):
                    with self.assertRaises(OSError):
                        session.h(0)
                self.assertEqual((session.steps, repr(session.state)), before)
                with self.assertRaisesRegex(ValueError, "the session is closed"):
                    session.h(0)
            with Session(self.path) as session:
                self.assertEqual(session.steps, before[0] + (name == "fsync"))


class Order(InAFolder):
    """Each step is flushed before it is answered; a new file before it takes its place, and the folder after."""

    def test_the_calls_of_the_system_in_their_order(self):
        seen, named = [], {}
        real = {name: getattr(os, name) for name in ("open", "write", "fsync", "rename")}

        def opened(path, *given):
            file = real["open"](path, *given)
            named[file] = os.path.relpath(path, os.path.dirname(self.path))
            return file

        def told(name):
            def call(first, *given):
                seen.append((name, named.get(first) or os.path.basename(first)))
                return real[name](first, *given)

            return call

        with mock.patch.multiple(os, open=opened, **{name: told(name) for name in ("write", "fsync", "rename")}):
            replaced = [("write", "run.new"), ("fsync", "run.new"), ("rename", "run.new"), ("fsync", ".")]
            with Session(self.path, start(), every=2) as session:
                self.assertEqual(seen, replaced + [("fsync", "run"), ("fsync", ".")])
                for due in ([("write", "run"), ("fsync", "run")],) * 2 + (replaced,) + ([("write", "run"), ("fsync", "run")],):
                    seen.clear()
                    session.h(0)
                    self.assertEqual(seen, due)
            with Session(self.path, every=9, flush=False) as session:
                seen.clear()
                session.h(0)
                self.assertEqual(seen, [("write", "run")])


class Torn(InAFolder):
    """The file cut, filled with zeros and damaged."""

    def prepared(self, plan, every=1000):
        with Session(self.path, start(), every=every, flush=False) as session:
            for portion in plan:
                session.run(portion)
        return Path(self.path).read_bytes()

    def opened(self, raw):
        """The session of these bytes, with how many warnings there were."""
        Path(self.path).write_bytes(raw)
        with warnings.catch_warnings(record=True) as said:
            warnings.simplefilter("always")
            session = Session(self.path, flush=False)
        self.assertEqual(len(said), int(session.torn is not None))
        return session

    def test_cut_at_every_byte_of_the_last_lines(self):
        for seed, every in ((1, 1000), (2, 3), (3, 1), (4, 1000)):
            plan = a_plan(seed, 12)
            records, _ = expected(plan)
            raws = []
            with Session(self.path, start(), every=every, flush=False) as session:
                for portion in plan:
                    session.run(portion)
                    raws.append(Path(self.path).read_bytes())
            for k, raw in enumerate(raws):
                last = len(b"\n".join(raw.split(b"\n")[-1 - len(plan[k]) :]))
                for cut in range(len(raw) - last, len(raw)):
                    with closing(self.opened(raw[:cut])) as session:
                        self.assertEqual(session.torn, raw[len(raw) - last : cut] or None)
                        self.assertEqual(repr(session.state), records[k])
                        self.assertEqual(session.steps, sum(map(len, plan[:k])))
                        self.assertEqual(len(Path(self.path).read_bytes()), len(raw) - last)
                        if cut % 9 == 0:
                            self.goes_on(session, plan[k:], records[-1])
            os.unlink(self.path)

    def goes_on(self, session, plan, record):
        for portion in plan:
            session.run(portion)
        self.assertEqual(repr(session.state), record)

    def test_zeros_where_a_sector_was_not_written(self):
        plan = [[(0, q % N, 0, q % 24) for q in range(3)] for _ in range(40)]
        plan += [[(0, q % N, 0, q % 24) for q in range(120)]]
        raw = self.prepared(plan)
        records, _ = expected(plan)
        last = len(b"\n".join(raw.split(b"\n")[-121:]))
        begin = len(raw) - last
        edges = [begin, *range(begin + -begin % 512, len(raw), 512), len(raw)]
        self.assertGreater(len(edges), 4)
        for low, high in zip(edges, edges[1:]):
            if low == high:
                continue
            zeros = raw[:low] + bytes(high - low) + raw[high:]
            for text in (zeros, zeros[:high]):
                with closing(self.opened(text)) as session:
                    self.assertEqual((len(session.torn), repr(session.state)), (len(text) - begin, records[-2]))
        for cut in range(begin, len(raw), 7):
            with closing(self.opened(raw[:cut] + bytes(len(raw) - cut))) as session:
                self.assertEqual(repr(session.state), records[-2])
        middle = begin // 2 // 512 * 512
        Path(self.path).write_bytes(raw[:middle] + bytes(512) + raw[middle + 512 :])
        self.refused(None)

    def test_every_flipped_bit_is_found_and_named(self):
        raw = self.prepared(a_plan(6, 5))
        for at in range(len(raw)):
            for bit in range(8):
                Path(self.path).write_bytes(raw[:at] + bytes([raw[at] ^ 1 << bit]) + raw[at + 1 :])
                self.refused(None)

    def test_damaged_lines_are_named_and_nothing_changes(self):
        raw = self.prepared([[(0, q % N, 0, 8)] for q in range(20)])
        rows = raw.split(b"\n")
        first = rows.index(b"step op a b value refusal outcome determined check") + 1
        for k in range(first, len(rows) - 2):
            number = k - first
            for damaged, where in (
                (rows[:k] + rows[k + 1 :], f"line {k + 1}: step {number + 1}, where step {number} was expected"),
                (rows[:k] + [rows[k]] + rows[k:], f"line {k + 2}: step {number}, where step {number + 1} was expected"),
                (rows[:k] + [b""] + rows[k:],
                 f"line {k + 1}: not the line of a step; expected step op a b value refusal outcome determined check"),
                (rows[:k] + [rows[k].replace(b" 8 0 ", b" 9 0 ")] + rows[k + 1 :], None),
            ):  # fmt: skip
                Path(self.path).write_bytes(b"\n".join(damaged))
                self.refused(where)
        Path(self.path).write_bytes(raw[:40])
        self.refused(None)
        Path(self.path).write_bytes(b"")
        self.refused("line 1: expected 'checkpoint steps qubits'")

    def test_a_sound_line_that_the_engine_would_not_answer_is_refused(self):
        from sukhlent import blocks, logs
        from sukhlent.stepping import Answer, Fields

        head = logs.head(0, 0, blocks.made([0], [8], 0))
        step = Fields("measure", 0, 0, 4), Answer(0, 0, 0)
        Path(self.path).write_bytes(head + logs.lines(0, [step], logs.zlib.crc32(head)))
        self.refused("line 7: the step's answer is '0 0 0', but the engine gives '0 0 1'")


class Killed(InAFolder):
    """A process that runs a plan is killed; the next one goes on."""

    PLAN = a_plan(8, 400)
    RECORDS, ANSWERS = expected(PLAN)
    ENDS = [0]
    for portion in PLAN:
        ENDS.append(ENDS[-1] + len(portion))

    def ahead(self, told, limit=None):
        """What the process does: goes on where the file says, and tells each answer when it has it."""
        session = Session(self.path, start(), every=11)
        done = self.ENDS.index(session.steps)
        for k in range(done, len(self.PLAN) if limit is None else min(done + limit, len(self.PLAN))):
            os.write(told, b"." if session.run(self.PLAN[k]) == self.ANSWERS[k] else b"!")
        os.write(told, b"E")

    def forked(self, *given):
        """Runs it in a process of its own; the process and where it tells."""
        reader, writer = os.pipe()
        child = os.fork()
        if child:
            os.close(writer)
            return child, reader
        status = 1
        try:
            os.close(reader)
            warnings.simplefilter("ignore")
            self.ahead(writer, *given)
            status = 0
        finally:
            os._exit(status)

    def told(self, reader):
        said = b"".join(iter(lambda: os.read(reader, 65536), b""))
        os.close(reader)
        self.assertNotIn(b"!", said)
        return said.count(b".")

    def comes_back(self, answered):
        """What is in the file is the state after the answered portions, or after one more; how many there are."""
        raw = Path(self.path).read_bytes()
        with warnings.catch_warnings():
            warnings.simplefilter("ignore")
            with Session(self.path) as session:
                done = self.ENDS.index(session.steps)
                self.assertIn(done, (answered, answered + 1))
                self.assertEqual(repr(session.state), self.RECORDS[done])
                if session.torn:
                    self.assertEqual(done, answered)
                    self.assertTrue(raw.endswith(session.torn))
        return done

    def test_killed_at_random_moments(self):
        self.killed_at_random_moments()

    def test_killed_at_random_moments_while_a_disk_writes(self):
        self.into(None)
        self.killed_at_random_moments()

    def killed_at_random_moments(self):
        chance, done, kills, unanswered, rounds = random.Random(), 0, 0, 0, 0
        seed = chance.randrange(1 << 32)
        chance.seed(seed)
        with self.subTest(seed=seed):
            while kills < KILLS:
                child, reader = self.forked()
                time.sleep(chance.random() * 0.02)
                os.kill(child, signal.SIGKILL)
                os.waitpid(child, 0)
                answered = done + self.told(reader)
                kills += 1
                if not os.path.exists(self.path):
                    self.assertEqual(answered, 0)
                    continue
                done = self.comes_back(answered)
                unanswered += done > answered
                if done == len(self.PLAN):
                    os.unlink(self.path)
                    done, rounds = 0, rounds + 1
            child, reader = self.forked()
            self.assertEqual(os.waitstatus_to_exitcode(os.waitpid(child, 0)[1]), 0)
            self.told(reader)
            self.assertEqual(self.comes_back(len(self.PLAN)), len(self.PLAN))
        if KILLS > 40:
            print(f"{kills} kills in {self.path}: {unanswered} left a step that was not answered, {rounds} plans ended")

    def test_killed_before_and_in_every_call_of_the_system(self):
        """Two checkpoints and the steps between them: the process ends before each call that changes a file, or writes a
        part of a line and ends."""
        for part in (None, 0, 1, 17):
            at = 0
            while True:
                if os.path.exists(self.path):
                    os.unlink(self.path)
                child, reader = self.ending(at, part)
                status = os.waitstatus_to_exitcode(os.waitpid(child, 0)[1])
                answered = self.told(reader)
                if os.path.exists(self.path):
                    self.comes_back(answered)
                else:
                    self.assertEqual(answered, 0)
                if status == 0:
                    break
                at += 1
            self.assertGreater(at, 50)

    def ending(self, at, part):
        """A process that ends at call number `at`, or at a write after some bytes of it."""
        count = [0]
        real = {name: getattr(os, name) for name in ("write", "fsync", "rename", "ftruncate")}

        def told(name):
            def call(file, *given):
                if file == told_to[0]:
                    return real[name](file, *given)
                if count[0] == at:
                    if name == "write" and part is not None:
                        real[name](file, bytes(given[0])[:part])
                    os._exit(9)
                count[0] += 1
                return real[name](file, *given)

            return call

        told_to = [None]
        plain = self.ahead

        def ahead(writer, *given):
            told_to[0] = writer
            with mock.patch.multiple(os, **{name: told(name) for name in real}):
                plain(writer, *given)

        with mock.patch.object(self, "ahead", ahead):
            return self.forked(24)


if __name__ == "__main__":
    unittest.main()
