"""A run of steps that survives a power cut: each step is in a file, flushed, before its answer is given."""

from __future__ import annotations

import errno
import fcntl
import os
import threading
import warnings
import zlib
from typing import Any, Iterable, Sequence

from . import blocks, explain, files, logs
from .arguments import called, of_type, pauli_number, place, whole
from .codes import code
from .gates import Gates
from .jobs import Result, Step
from .refusals import Refusal
from .state import State, photon_code
from .stepping import NAMES, Answer, Fields, done, field, reading


class Session(Gates):
    """A state whose steps are kept in a file. Where there is no file it starts with the state `start`; where there is one it
    goes on after the file's last step, and `start` plays no part. After `every` steps the next one begins a new file, with
    the record before it, which takes the place of the old one.

    A step is done, its line with its answer is written to the file and flushed to the disk, and then it is answered; so a
    crash leaves the steps that were answered, or one step more. With `flush=False` lines are handed to the system and not
    flushed: a process that is killed loses nothing, a power cut may.

    >>> import os, tempfile
    >>> folder = tempfile.TemporaryDirectory()
    >>> path = os.path.join(folder.name, "run")
    >>> session = Session(path, State.zeros(2))
    >>> session.h(0)
    >>> session.measure("Z", 0, 1)
    Measured(outcome=1, determined=False)
    >>> session.close()
    >>> session = Session(path)
    >>> session.steps, session.state.used, session.last
    (2, 1, (Step(op='measure', a=0, b=0, value=5), Result(refusal=0, outcome=1, determined=0)))
    >>> session.close()
    >>> folder.cleanup()

    Another session on the same file is refused while this one is open. A session belongs to the process that opened it.
    """

    def __init__(self, path: files.Place, start: "State | None" = None, every: int = 1000, flush: bool = True):
        if start is not None:
            of_type(start, State, "Session(path, start)")
        if whole(every, "a number of steps") < 1:
            raise ValueError(f"Session(path, start, every): a checkpoint after {every} steps, where 1 is the least")
        self._path, self._called, self._every, self._flush = os.path.realpath(path), os.fspath(path), every, flush
        self._process, self._turn, self._file = os.getpid(), threading.Lock(), -1
        if start is None and not os.path.exists(self._path):
            raise FileNotFoundError(errno.ENOENT, "no session is there, and no state to start one was given", self._called)
        self._lock = _locked(self._path, self._called)
        try:
            self._open(start)
        except BaseException:
            self.close()
            raise

    # ---- opening and closing

    def _open(self, start: "State | None") -> None:
        files.remove(self._path + ".new")  # what a crash left of a checkpoint
        if not os.path.exists(self._path):
            assert start is not None
            files.replace(self._path, logs.head(0, 0, start._block).decode(), self._path + ".new")
        with open(self._path, "rb") as file:
            raw = file.read()
        try:
            self._log = logs.read(raw)
        except Refusal as refusal:
            raise Refusal(refusal.number, f"{self._called}: {refusal.where}") from None
        n = blocks.size(self._log.block)
        if start is not None and start.n != n:
            raise ValueError(f"{self._called}: a session on {n} qubits, but the state to start with has {start.n}")
        self._file = os.open(self._path, os.O_WRONLY | os.O_APPEND | os.O_CLOEXEC)
        if self._log.torn:
            os.ftruncate(self._file, self._log.length)
            warnings.warn(f"{self._called}: the last line was torn, and is cut off: {self._log.torn!r}", RuntimeWarning, 4)
        files.flush(self._file)  # a process that was killed may have left lines that no disk has
        files.flush_folder(self._path)

    def close(self) -> None:
        """Ends the session; the file stays, and another session may go on with it. `with` does so too.

        >>> import tempfile
        >>> with tempfile.TemporaryDirectory() as folder, Session(folder + "/run", State.zeros(1)) as session:
        ...     session.x(0)
        >>> session.x(0)
        Traceback (most recent call last):
        ...
        ValueError: the session is closed
        """
        for held in ("_file", "_lock"):
            if self.__dict__.get(held, -1) >= 0:
                os.close(self.__dict__[held])
                setattr(self, held, -1)

    def __enter__(self) -> Session:
        return self

    def __exit__(self, *raised: object) -> None:
        self.close()

    def __del__(self) -> None:
        self.close()

    # ---- what it has

    @property
    def path(self) -> str:
        """The file of the session.

        >>> import os, tempfile
        >>> with tempfile.TemporaryDirectory() as folder, Session(folder + "/run", State.zeros(1)) as session:
        ...     os.path.basename(session.path)
        'run'
        """
        return self._path

    @property
    def state(self) -> State:
        """The state after the last step, apart.

        >>> import tempfile
        >>> with tempfile.TemporaryDirectory() as folder, Session(folder + "/run", State.zeros(1)) as session:
        ...     session.h(0)
        ...     session.state.generators().strings()
        ['+X']
        """
        return State._of(bytearray(self._log.block))

    @property
    def steps(self) -> int:
        """How many steps were made in all, refused ones too: the number of the next.

        >>> import tempfile
        >>> with tempfile.TemporaryDirectory() as folder, Session(folder + "/run", State.zeros(1)) as session:
        ...     session.run([(0, 0, 0, 8), (0, 1, 0, 8)])
        ...     session.steps
        [(0, 0, 0), (8, 0, 0)]
        2
        """
        return self._log.steps

    @property
    def last(self) -> "tuple[Step, Result] | None":
        """The last step and what it answered; None before the first. After a crash it may be one that was not answered.

        >>> import tempfile
        >>> with tempfile.TemporaryDirectory() as folder, Session(folder + "/run", State.zeros(1)) as session:
        ...     session.h(0)
        ...     session.last
        (Step(op='gate', a=0, b=0, value=8), Result(refusal=0, outcome=0, determined=0))
        """
        return _entry(*self._log.entries[-1]) if self._log.entries else None

    def log(self) -> "list[tuple[Step, Result]]":
        """The steps since the last checkpoint, and what each answered.

        >>> import tempfile
        >>> with tempfile.TemporaryDirectory() as folder, Session(folder + "/run", State.zeros(1)) as session:
        ...     session.x(0)
        ...     [str(step) for step, result in session.log()]
        ['gate 0 0 1']
        """
        return [_entry(*entry) for entry in self._log.entries]

    @property
    def torn(self) -> "bytes | None":
        """What a power cut left of a step at the end of the file, cut off when the session was opened; None where there was
        nothing. It was not answered.

        >>> import tempfile
        >>> with tempfile.TemporaryDirectory() as folder, Session(folder + "/run", State.zeros(1)) as session:
        ...     print(session.torn)
        None
        """
        return self._log.torn or None

    # ---- steps

    def _do(self, steps: "Sequence[Fields]") -> "list[Answer]":
        """Does steps that are written together: all of them are in the file, or none."""
        with self._turn:
            if self._file < 0:
                raise ValueError("the session is closed")
            if os.getpid() != self._process:
                raise ValueError("the session belongs to the process that opened it")
            block = bytearray(self._log.block)
            entries = [(step, done(block, step)) for step in steps]
            try:
                self._keep(entries, block)
            except BaseException:  # what is in the file now is read when it is opened again
                self.close()
                raise
        return [answer for _, answer in entries]

    def _keep(self, entries: "list[tuple[Fields, Answer]]", block: bytearray) -> None:
        """Writes steps to the file, or to a new one that begins with the record before them."""
        log = self._log
        if len(log.entries) >= self._every:
            self._begin(log.steps, log.block, entries, block)
            return
        raw = logs.lines(log.steps, entries, log.sum)
        files.write(self._file, raw)
        if self._flush:
            files.flush(self._file)
        log.sum, log.length, log.group = zlib.crc32(raw, log.sum), log.length + len(raw), len(entries)
        log.before, log.block = log.block, block
        log.entries += entries

    def _begin(self, steps: int, before: bytearray, entries: "list[tuple[Fields, Answer]]", block: bytearray) -> None:
        """Puts a new file in place: the record before some steps, and these."""
        head = logs.head(self._log.checkpoint + 1, steps, before)
        raw = head + logs.lines(steps, entries, zlib.crc32(head)) if entries else head
        files.replace(self._path, raw.decode(), self._path + ".new")
        os.close(self._file)
        self._file = os.open(self._path, os.O_WRONLY | os.O_APPEND | os.O_CLOEXEC)
        self._log = logs.Log(
            self._log.checkpoint + 1, steps, before, block, entries, len(entries), len(raw), zlib.crc32(raw), self._log.torn
        )

    def checkpoint(self) -> None:
        """Begins a new file now, with the record before the last step and that step, in place of the old one.

        >>> import tempfile
        >>> with tempfile.TemporaryDirectory() as folder, Session(folder + "/run", State.zeros(1)) as session:
        ...     session.run([(0, 0, 0, 8)] * 3)
        ...     session.x(0)
        ...     session.checkpoint()
        ...     session.steps, len(session.log())
        [(0, 0, 0), (0, 0, 0), (0, 0, 0)]
        (4, 1)
        """
        with self._turn:
            if self._file < 0:
                raise ValueError("the session is closed")
            last = self._log.entries[len(self._log.entries) - self._log.group :]
            try:
                self._begin(self._log.steps - len(last), self._log.before, last, self._log.block)
            except BaseException:
                self.close()
                raise

    def _one(self, op: str, a: int, b: int, value: int) -> "tuple[Answer, int, int]":
        """A step: its answer, and n and the used word before it."""
        block = self._log.block
        [answer] = self._do([Fields(op, field(a), field(b), field(value))])
        return answer, blocks.size(block), blocks.used(block)

    def gate(self, qubit: int, gate: "int | str") -> None:
        """Applies a local Clifford, by name or code.

        >>> import tempfile
        >>> with tempfile.TemporaryDirectory() as folder, Session(folder + "/run", State.zeros(1)) as session:
        ...     session.gate(0, "SQRT_X")
        ...     session.state.generators().strings()
        ['-Y']
        """
        a, number = _qubit(qubit, "gate(qubit, gate)"), _taken(lambda: code(gate), "gate(qubit, gate)")
        answer, n, used = self._one("gate", a, 0, number)
        if answer.refusal:
            raise explain.gate(answer.refusal, n, used, qubit, gate)

    def cz(self, a: int, b: int) -> None:
        """CZ on two qubits.

        >>> import tempfile
        >>> with tempfile.TemporaryDirectory() as folder, Session(folder + "/run", State.from_strings("XI", "IX")) as session:
        ...     session.cz(0, 1)
        ...     session.state.edges()
        [(0, 1)]
        """
        answer, n, used = self._one("cz", _qubit(a, "cz(a, b)"), _qubit(b, "cz(a, b)"), 0)
        if answer.refusal:
            raise explain.on_qubits(answer.refusal, n, used, (a, b), "cz")

    def cx(self, control: int, target: int) -> None:
        """CNOT: a Hadamard, CZ and a Hadamard at the target, three steps that are written together. Where it is refused, the
        CZ alone is, and stands in the file.

        >>> import tempfile
        >>> with tempfile.TemporaryDirectory() as folder, Session(folder + "/run", State.zeros(2)) as session:
        ...     session.h(0)
        ...     session.cx(0, 1)
        ...     session.state.generators().strings(), session.steps
        (['+XX', '+ZZ'], 4)
        """
        call = "cx(control, target)"
        joined = Fields("cz", field(_qubit(control, call)), field(_qubit(target, call)), 0)
        block = self._log.block
        refused = done(bytearray(block), joined).refusal
        turned = Fields("gate", joined.b, 0, 8)
        self._do([joined] if refused else [turned, joined, turned])
        if refused:
            raise explain.on_qubits(refused, blocks.size(block), blocks.used(block), (control, target), "cx")

    def _measured(self, pauli: "str | int", qubit: int, outcome: int) -> int:
        return self._read("measure", pauli, qubit, outcome)

    def _observed(self, pauli: "str | int", qubit: int, bit: int) -> int:
        return self._read("observe", pauli, qubit, bit)

    def _read(self, op: str, pauli: "str | int", qubit: int, bit: int) -> int:
        call = "measure(pauli, qubit, outcome)"
        value = _taken(lambda: reading(pauli_number(pauli), whole(bit, "an outcome, 0 or 1")), call)
        answer, n, used = self._one(op, _qubit(qubit, call), 0, value)
        if answer.refusal:
            raise explain.measure(answer.refusal, n, used, pauli, qubit, bit)
        return answer.outcome + 2 * answer.determined

    def renew(self, qubit: int, photon: str = "+Z") -> None:
        """Puts a new photon at a used place, as `State.renew` does.

        >>> import tempfile
        >>> with tempfile.TemporaryDirectory() as folder, Session(folder + "/run", State.zeros(1)) as session:
        ...     session.measure("X", 0, 1)
        ...     session.renew(0, "-Z")
        ...     session.state.generators().strings()
        Measured(outcome=1, determined=False)
        ['-Z']
        """
        value = photon_code(photon)
        answer, n, used = self._one("renew", _qubit(qubit, "renew(qubit, photon)"), 0, value)
        if answer.refusal:
            raise explain.renew(answer.refusal, n, used, qubit)

    def complement(self, vertex: int) -> None:
        """Complements the graph at a vertex: the same state, not reduced.

        >>> import tempfile
        >>> with tempfile.TemporaryDirectory() as folder, Session(folder + "/run", State.zeros(1)) as session:
        ...     session.complement(0)
        ...     session.state.codes
        (20,)
        """
        answer, n, used = self._one("complement", _qubit(vertex, "complement(vertex)"), 0, 0)
        if answer.refusal:
            raise explain.on_qubits(answer.refusal, n, used, (vertex,), "complement")

    def run(self, steps: "Iterable[Sequence[int] | Step]") -> "list[tuple[int, int, int]]":
        """Runs at most 4,096 steps that are written together and flushed once: after a crash all of them are there, or none.
        Each is given as to `State.run`, an operation (0 gate, 1 cz, 2 measure, 3 complement, 4 pivot; here 5 observe and 6
        renew too), two qubits and a value, or as a `Step`. Answers refusal, outcome and determined of each.

        >>> import tempfile
        >>> with tempfile.TemporaryDirectory() as folder, Session(folder + "/run", State.zeros(2)) as session:
        ...     session.run([(0, 0, 0, 8), (5, 0, 0, 1), (6, 0, 0, 8), Step("cz", 0, 0, 0)])
        [(0, 0, 0), (0, 0, 1), (0, 0, 0), (8, 0, 0)]
        """
        given = [_numbered(k, step) for k, step in enumerate(steps)]
        if len(given) > 4096:
            raise Refusal(15, f"{len(given)} steps, but a run has at most 4,096")
        return [tuple(answer) for answer in self._do(given)] if given else []  # type: ignore[misc]


def _locked(path: str, name: str) -> int:
    """The open lock file of a session; `BlockingIOError` where another has it, with the name that was given."""
    file = os.open(path + ".lock", os.O_RDWR | os.O_CREAT | os.O_CLOEXEC, 0o666)
    try:
        fcntl.flock(file, fcntl.LOCK_EX | fcntl.LOCK_NB)
    except BaseException as error:
        os.close(file)
        if isinstance(error, BlockingIOError):
            raise BlockingIOError(errno.EWOULDBLOCK, "the session is open elsewhere", name) from None
        raise
    return file


def _entry(step: Fields, answer: Answer) -> "tuple[Step, Result]":
    return Step(*step), Result(*answer)


def _taken(found: Any, call: str) -> int:
    """An argument as a number; a `TypeError` names the call."""
    try:
        return found()
    except TypeError as error:
        raise TypeError(f"{call}: {error}") from None


def _qubit(given: int, call: str) -> int:
    return _taken(lambda: place(given), call)


def _numbered(k: int, step: "Sequence[int] | Step") -> Fields:
    """A step of a run as a line has it."""
    if isinstance(step, Step):
        if step.op not in NAMES:
            raise Refusal(1, f"no operation is called {step.op!r}: expected {', '.join(NAMES[:-1])} or {NAMES[-1]}")
        return Fields(step.op, field(step.a), field(step.b), field(step.value))
    try:
        op, a, b, value = (whole(number) for number in step)
    except (TypeError, ValueError):
        raise TypeError(
            f"run(steps): step {k} is {called(step)}, where an operation, two qubits and a value are taken"
        ) from None
    if not 0 <= op < len(NAMES):
        raise Refusal(6, f"step {k} has the operation {op}, but operations are 0 to {len(NAMES) - 1}")
    return Fields(NAMES[op], field(a), field(b), field(value))
