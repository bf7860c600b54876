"""Many steps in one call, on one record or on many, from tuples or from buffers as they are."""

from __future__ import annotations

from array import array
from typing import Any, Callable, Iterable, NamedTuple, Sequence

from . import calls, library
from .arguments import called, listed, whole
from .lots import Source, bits_from
from .refusals import Refusal

#: the names of the operations of a job, in the order of their numbers
OPS = ("gate", "cz", "measure", "complement", "pivot")

#: those of a run, which has two more
RUN_OPS = (*OPS, "observe", "renew")

#: the number of an observation, whose bit is by lot
OBSERVE = RUN_OPS.index("observe")


class Ran(NamedTuple):
    """What each step of a run answered: its refusal (0 where it ran), the outcome and whether it was determined.

    >>> from array import array
    >>> from sukhlent import State
    >>> ran = State.zeros(1).run(array("B", [2]), array("H", [0]), array("H", [0]), array("H", [4]))
    >>> ran
    Ran(refusals=array('B', [0]), outcomes=array('B', [0]), determined=array('B', [1]))
    """

    refusals: Any
    outcomes: Any
    determined: Any


def run_tuples(block: bytearray, steps: Iterable[Sequence[int]], source: Source = None) -> list[tuple[int, int, int]]:
    """Steps given one by one, as four numbers each; with a source the bit of each observation is drawn from it."""
    given = _steps(steps)
    if source is not None:
        draw = bits_from(source)
        given = [(op, a, b, with_bit(value, draw) if op == OBSERVE else value) for op, a, b, value in given]
    columns = list(zip(*given)) if given else [()] * 4
    try:
        slices: list[Any] = [array("B", columns[0]), *(array("H", column) for column in columns[1:])]
    except (OverflowError, TypeError):
        slices = [library.octets(columns[0]), *(library.halves(column) for column in columns[1:])]
    answers = [bytearray(len(given)) for _ in range(3)]
    _accept(calls.run(block, *slices, *answers), slices[0])
    return list(zip(*answers))


def _steps(steps: Iterable[Sequence[int]]) -> list[tuple[int, int, int, int]]:
    """Steps as four numbers each; an error names the first that is none."""
    given = listed(steps, "steps, four numbers each", "run(steps)")
    try:
        return [(op, a, b, value) for op, a, b, value in given]
    except (TypeError, ValueError):
        for k, step in enumerate(given):
            if not hasattr(step, "__len__") or len(step) != 4:
                why = f"run(steps): step {k} is {called(step)}, where an operation, two qubits and a value are taken"
                raise (ValueError if hasattr(step, "__len__") else TypeError)(why) from None
        raise


def with_bit(value: Any, draw: Callable[[], int]) -> Any:
    """An observation's value with a drawn bit in place of its own."""
    return whole(value, "a value") & ~1 | draw()


def run_buffers(block: bytearray, ops: Any, a: Any, b: Any, value: Any, source: Source = None) -> Ran:
    """Steps in four buffers, which are not copied; the answers in arrays of their kind. With a source the bits of the
    observations are drawn from it into a copy of the values."""
    slices = _buffers(ops, a, b, value)
    if source is not None:
        slices[3] = _drawn(slices[0], slices[3], bits_from(source))
    answers = [_like(ops, (len(memoryview(ops)),)) for _ in range(3)]
    _accept(calls.run(block, *slices, *answers), ops)
    return Ran(*answers)


def run_many(states: Iterable[Any], ops: Any, a: Any, b: Any, value: Any, threads: int = 1) -> Ran:
    """Runs steps on many states in one call: the same steps on each where the buffers have one dimension; where they have
    two, the steps of row k on state k. The answers have a row for each state (one after the other in an array of one
    dimension where the buffers are not numpy's). The interpreter's lock is free meanwhile, and `threads` parts of the
    states run at once. Where the run of one state is refused as a whole, that is raised; states in other parts have run.

    >>> from array import array
    >>> from sukhlent import State
    >>> pair = [State.zeros(1), State.from_strings("-Z")]
    >>> ran = run_many(pair, array("B", [2]), array("H", [0]), array("H", [0]), array("H", [5]))
    >>> ran.refusals, ran.outcomes
    (array('B', [14, 0]), array('B', [0, 1]))
    """
    given_states = listed(states, "states", "run_many(states, ..)")
    strange = next((state for state in given_states if not hasattr(state, "_block") or not hasattr(state, "run")), None)
    if strange is not None:
        raise TypeError(f"run_many(states, ..): expected a State, not {called(strange)}")
    records = [state._block for state in given_states]
    if len({id(block) for block in records}) != len(records):
        raise ValueError("run_many(states, ..): a state is given twice, where each runs by itself")
    slices = _buffers(ops, a, b, value)
    view = memoryview(ops)
    shared, count = view.ndim == 1, len(records)
    if not shared and view.shape[0] != count:  # type: ignore[index]
        raise ValueError(f"run_many(states, ops, ..): {view.shape[0]} rows of steps for {count} states")  # type: ignore[index]
    steps = view.nbytes if shared else view.nbytes // max(count, 1)
    answers = [_like(ops, (count, steps)) for _ in range(3)]
    if count == 0:
        return Ran(*answers)
    flat = [_flat(given) for given in (*slices, *answers)]
    _accept(calls.run_many(records, *flat, max(1, whole(threads, "a number of threads"))), ops)
    return Ran(*answers)


def _drawn(ops: Any, value: Any, draw: Callable[[], int]) -> Any:
    """A copy of the values, with a drawn bit in each observation's."""
    values = array("H", memoryview(value).cast("B").tobytes())
    for k, op in enumerate(memoryview(ops).tobytes()[: len(values)]):
        if op == OBSERVE:
            values[k] = values[k] & ~1 | draw()
    return values


def _flat(given: Any) -> memoryview:
    """A buffer in one dimension."""
    view = memoryview(given)
    if view.ndim == 1:
        return view
    return view.cast("B").cast(view.format.lstrip("@=<"))


def _buffers(*given: Any) -> list[Any]:
    """The buffers of a run; `TypeError` where one is none."""
    for name, slice_ in zip(library.RUN_NAMES, given):
        try:
            memoryview(slice_)
        except TypeError:
            taken = ", ".join(library.RUN_NAMES[:4])
            raise TypeError(f"run({taken}): {name} is {called(slice_)}, and no buffer of numbers") from None
    return list(given)


def _numpy(given: Any) -> bool:
    return type(given).__module__ == "numpy"


def _like(given: Any, shape: tuple[int, ...]) -> Any:
    """An array for answers: numpy's where the steps are, else one of the standard library."""
    if _numpy(given):
        import numpy  # type: ignore[import-not-found]

        return numpy.zeros(shape, numpy.uint8)
    count = 1
    for extent in shape:
        count *= extent
    return array("B", b"\0") * count


def _accept(number: int, ops: Any) -> None:
    """Raises the refusal of a whole run, with the step that it comes from."""
    if number == 0:
        return
    found = memoryview(ops).nbytes
    if number == 15:
        raise Refusal(15, f"{found} steps, but a run has at most 4,096")
    if number == 6:
        strange = [(k, op) for k, op in enumerate(memoryview(ops).tobytes()) if op >= len(RUN_OPS)]
        if strange:
            raise Refusal(6, f"step {strange[0][0]} has the operation {strange[0][1]}, but operations are 0 to {len(RUN_OPS) - 1}")
    raise Refusal(number)
