"""Jobs: sessions written as text, one step a line, drawn from a seed or typed by hand."""

from __future__ import annotations

from dataclasses import dataclass
from typing import Iterable

from . import library
from .arguments import of_type, whole
from .forms import job_fault
from .reading import plain_text
from .refusals import Refusal
from .running import OPS
from .shared import Group
from .state import State


@dataclass(frozen=True)
class Step:
    """A step: op, two qubits and a value; an unused field is 0. As text it is a line of a job.

    >>> print(Step("measure", 3, 0, 5))
    measure 3 0 5
    """

    op: str
    a: int
    b: int
    value: int

    def __str__(self) -> str:
        return f"{self.op} {self.a} {self.b} {self.value}"


@dataclass(frozen=True)
class Result:
    """What a step answered: its refusal (0 where it ran), the outcome and whether it was determined.

    >>> run_step(State.zeros(1), Step("measure", 0, 0, 4))
    Result(refusal=0, outcome=0, determined=1)
    """

    refusal: int
    outcome: int
    determined: int


def generate(n: int, count: int, seed: int) -> str:
    """The text of a job that anyone can repeat: `count` steps on n qubits, drawn from a seed that is not 0.

    >>> print(generate(3, 2, 1), end="")
    qubits
    3
    op a b value
    gate 1 0 4
    measure 2 0 5
    """
    text, length = library.blank_octets(61463), library.word()
    number = library.call("generate", library.place(n), library.place(count), whole(seed, "a seed"), text, length)
    if number:
        said = {15: f"{count} steps, but a job has at most 4,096", 2: f"{n} qubits, but a state has 1 to 64", 6: "the seed 0"}
        raise Refusal(number, said.get(number, ""))
    return bytes(text[: length.value]).decode()


def job_text(n: int, steps: Iterable[Step]) -> str:
    """The text of these steps on n qubits.

    >>> job_text(2, [Step("gate", 0, 0, 8)])
    'qubits\\n2\\nop a b value\\ngate 0 0 8\\n'
    """
    return "".join([f"qubits\n{n}\nop a b value\n", *(f"{step}\n" for step in steps)])


def parse_job(text: str) -> tuple[int, list[Step]]:
    """n and the steps of a job text; refused by 1, 15 or 2.

    >>> parse_job("qubits\\n2\\nop a b value\\ncz 0 1 0\\n")
    (2, [Step(op='cz', a=0, b=1, value=0)])
    """
    fault = job_fault(text)
    if fault is not None:
        raise Refusal(1, fault)
    _, n, _, *lines = plain_text(text).splitlines()
    if len(lines) > 4096:
        raise Refusal(15, f"{len(lines)} steps, but a job has at most 4,096")
    if not 1 <= int(n) <= 64:
        raise Refusal(2, f"{n} qubits, but a state has 1 to 64")
    fields = (line.split(" ") for line in lines)
    return int(n), [Step(op, int(a), int(b), int(value)) for op, a, b, value in fields]


def run_job(text: str) -> tuple[State, list[Result]]:
    """Runs a job from +Z at every qubit: the state after it, and what each step answered. A refused step changes
    nothing, and the job goes on.

    >>> state, results = run_job("qubits\\n2\\nop a b value\\ngate 0 0 8\\nmeasure 0 0 4\\ngate 0 0 8\\n")
    >>> results
    [Result(refusal=0, outcome=0, determined=0), Result(refusal=0, outcome=0, determined=0), \
Result(refusal=16, outcome=0, determined=0)]
    """
    n, steps = parse_job(text)
    state = State.zeros(n)
    return state, run_steps(state, steps)


def run_steps(state: State, steps: Iterable[Step]) -> list[Result]:
    """At most 4,096 steps of a job, in place, in one call. Refused as a whole by 1 where an op is unknown, as a text is.

    >>> state = State.zeros(2)
    >>> run_steps(state, [Step("gate", 0, 0, 8), Step("cz", 0, 0, 0)])
    [Result(refusal=0, outcome=0, determined=0), Result(refusal=8, outcome=0, determined=0)]
    """
    given = list(steps)
    for step in given:
        of_type(step, Step, "run_steps(state, steps)")
    numbers = [(_op_number(step.op), step.a, step.b, step.value) for step in given]
    return [Result(*answer) for answer in state.run(numbers)]


def _op_number(op: str) -> int:
    """The number of an operation; refused by 1 where it has none."""
    if op not in OPS:
        raise Refusal(1, f"no operation is called {op!r}: expected {', '.join(OPS[:-1])} or {OPS[-1]}")
    return OPS.index(op)


def run_step(state: "State | Group", step: Step) -> Result:
    """One step of a job, in place. Raises `Refusal` 1 where its op is unknown.

    >>> state = State.zeros(2)
    >>> run_step(state, Step("cz", 0, 0, 0))
    Result(refusal=8, outcome=0, determined=0)
    """
    of_type(step, Step, "run_step(state, step)")
    _op_number(step.op)
    unused = {"gate": step.b, "cz": step.value, "measure": step.b, "complement": step.b | step.value, "pivot": step.value}
    if unused[step.op] != 0:
        return Result(6, 0, 0)
    try:
        if step.op == "gate":
            state.gate(step.a, step.value)
        elif step.op == "cz":
            state.cz(step.a, step.b)
        elif step.op == "complement":
            state.complement(step.a)
        elif step.op == "pivot":
            _pivot(state, step.a, step.b)
        else:
            if not 0 <= step.value <= 5:
                raise Refusal(6)
            measured = state.measure("XYZ"[step.value // 2], step.a, step.value % 2)
            return Result(0, measured.outcome, int(measured.determined))
    except Refusal as refusal:
        return Result(refusal.number, 0, 0)
    return Result(0, 0, 0)


def _pivot(state: "State | Group", a: int, b: int) -> None:
    """Complements at a, b, a where the two have an edge; refused by 8 where they have none."""
    held = state.state() if isinstance(state, Group) else state
    if not {a, b} <= set(range(held.n)) or a == b:
        raise Refusal(8)
    if isinstance(state, Group):
        state._all_own((a, b))
    if not held.neighbours[a] >> b & 1:
        raise Refusal(8)
    for vertex in (a, b, a):
        state.complement(vertex)
