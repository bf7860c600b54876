"""Circuits as Stim writes them: an instruction a line with its targets, comments, and REPEAT blocks."""

from __future__ import annotations

import re
from typing import Callable, NamedTuple

from .building import Building, circuit, fault, small
from .model import Circuit, Measure, Part, Reset, Where
from .steps import PAIRS, SINGLES, gate, phased

_LINE = re.compile(r"(?P<name>[A-Za-z_][A-Za-z0-9_]*)(?P<tag>\[[^\]]*\])?\s*(?P<noise>\([^)]*\))?")
_NOISE = frozenset(
    "DEPOLARIZE1 DEPOLARIZE2 X_ERROR Y_ERROR Z_ERROR I_ERROR II_ERROR PAULI_CHANNEL_1 PAULI_CHANNEL_2 E CORRELATED_ERROR"
    " ELSE_CORRELATED_ERROR HERALDED_ERASE HERALDED_PAULI_CHANNEL_1".split()
)
_DETECTORS = frozenset("DETECTOR OBSERVABLE_INCLUDE MPAD".split())
_MARKS = frozenset("TICK QUBIT_COORDS SHIFT_COORDS".split())

#: measurements and resets of one qubit: letter, whether it measures, whether it resets
_LOOKS = {
    f"{verb}{letter}": (letter or "Z", "M" in verb, "R" in verb)
    for verb in ("M", "R", "MR") for letter in ("", "X", "Y", "Z")
}  # fmt: skip
_PRODUCTS = frozenset(("MPP", "SPP", "SPP_DAG"))
_JOINT = {f"M{letter * 2}": letter for letter in "XYZ"}
_FEEDBACK = {"CX": 1, "CNOT": 1, "ZCX": 1, "CY": 3, "ZCY": 3, "CZ": 2, "ZCZ": 2}
_BACKWARDS = {"XCZ": 1, "YCZ": 3, "CZ": 2, "ZCZ": 2}
_PLUS = {"X": 0, "Y": 4, "Z": 8}


_KNOWN = frozenset((*SINGLES, *PAIRS, *_LOOKS, *_PRODUCTS, *_JOINT, *_MARKS))
_EVERY = _KNOWN | _NOISE | _DETECTORS


class Target(NamedTuple):
    """A target with its column, its text, and whether a `!` stands before it."""

    column: int
    text: str
    inverted: int = 0


class _Reader:
    """What is read so far: the open blocks, and how many qubits there are."""

    def __init__(self) -> None:
        self.n = 0
        self.open: list[tuple[Building, int, int, int]] = [(Building(), 1, 0, 0)]

    @property
    def now(self) -> Building:
        return self.open[-1][0]

    def qubit(self, number: int, target: Target) -> int:
        """A target that is a qubit."""
        qubit = small(target.text)
        if qubit is None:
            raise fault(number, target.column, f"expected a qubit number, not {target.text[:20]}")
        if qubit > 63:
            raise fault(number, target.column, f"qubit {qubit}, but a state has qubits 0 to 63")
        self.n = max(self.n, qubit + 1)
        return qubit

    def product(self, number: int, target: Target) -> tuple[int, int, int]:
        """A target such as X1*!Z2: z and x words, and whether it is turned round."""
        z = x = 0
        inverted = 0
        column = target.column
        for piece in target.text.split("*"):
            found = re.fullmatch(r"(!?)([XYZxyz])([0-9]+)", piece)
            if found is None:
                raise fault(number, column, f"expected a product such as X1*Z2, not {target.text}")
            qubit = self.qubit(number, Target(column + found.start(3), found[3]))
            if (z | x) >> qubit & 1:
                raise fault(number, column, f"the product {target.text} names qubit {qubit} twice")
            z |= (found[2].upper() in "YZ") << qubit
            x |= (found[2].upper() in "XY") << qubit
            inverted ^= bool(found[1])
            column += len(piece) + 1
        return z, x, inverted


def read_stim(text: str) -> Circuit:
    """The circuit of a text.

    >>> read_stim("R 0 1\\nREPEAT 3 {\\n  H 0  # again\\n  CX 0 1\\n  MR 1\\n}").n
    2
    """
    reader = _Reader()
    for number, line in enumerate(text.splitlines(), 1):
        content = line.partition("#")[0]
        if content.strip():
            _instruction(reader, number, content)
    if len(reader.open) > 1:
        raise fault(reader.open[-1][2], reader.open[-1][3], "this REPEAT is not closed by }")
    return circuit(reader.now, max(reader.n, 1))


def is_stim(text: str) -> bool:
    """Whether a text begins, behind comments and blank lines, with the name of an instruction in capitals.

    >>> is_stim("# a pair\\nH 0"), is_stim("qubits\\n2\\n"), is_stim("DEPOLARIZE1(0.1) 0")
    (True, False, True)
    """
    for line in text.removeprefix("\ufeff").splitlines():
        content = line.partition("#")[0].strip()
        if content:
            found = _LINE.match(content)
            return found is not None and (found["name"] in _EVERY or found["name"] == "REPEAT")
    return False


def _instruction(reader: _Reader, number: int, line: str) -> None:
    start = len(line) - len(line.lstrip())
    if line.strip() == "}":
        _closed(reader, number, start + 1)
        return
    found = _LINE.match(line, start)
    if found is None:
        raise fault(number, start + 1, f"expected an instruction, not {line.strip()[:20]!r}")
    name = found["name"].upper()
    if name == "REPEAT":
        _opened(reader, number, start + 1, line[found.end() :])
        return
    _judge(name, number, start + 1)
    if name in _MARKS:
        return
    if found["noise"]:
        raise fault(number, found.start("noise") + 1, f"{name}{found['noise']} is noise, and the engine keeps pure states")
    targets = [
        Target(found.end() + at.start() + 1 + bool(at[1]), at[2], int(bool(at[1])))
        for at in re.finditer(r"(!?)(\S+)", line[found.end() :])
    ]
    if name in _PRODUCTS:  # a mark stands inside a product there
        targets = [Target(t.column - t.inverted, "!" * t.inverted + t.text) for t in targets]
    _done(reader, name, number, targets)


def _judge(name: str, number: int, column: int) -> None:
    """Refuses what is no Clifford gate, measurement, reset or mark, by its name."""
    if name in _NOISE:
        raise fault(number, column, f"{name} is noise, and the engine keeps pure states")
    if name in _DETECTORS:
        raise fault(number, column, f"{name} is of detectors, which this reader does not keep")
    if name not in _KNOWN:
        raise fault(number, column, f"{name} is no instruction that this reader knows")


def _opened(reader: _Reader, number: int, column: int, rest: str) -> None:
    found = re.fullmatch(r"\s*([0-9]{1,18})\s*\{\s*", rest)
    if found is None:
        raise fault(number, column, "expected REPEAT, a count and {")
    reader.open.append((Building(), int(found[1]), number, column))


def _closed(reader: _Reader, number: int, column: int) -> None:
    if len(reader.open) == 1:
        raise fault(number, column, "this } closes no REPEAT")
    body, count, _, _ = reader.open.pop()
    reader.now.repeat(count, body)


def _done(reader: _Reader, name: str, number: int, targets: list[Target]) -> None:
    """Adds an instruction with its targets."""
    marked = next((t for t in targets if t.inverted), None)
    if marked and name not in _LOOKS and name not in _JOINT or marked and name in _LOOKS and not _LOOKS[name][1]:
        raise fault(number, marked.column - 1, f"{name} takes no target with !")
    if name in SINGLES:
        reader.now.steps(gate(reader.qubit(number, target), SINGLES[name]) for target in targets)
    elif name in _LOOKS:
        for target in targets:
            _looked(reader, name, reader.qubit(number, target), target.inverted)
    elif name in _PRODUCTS:
        for target in targets:
            _product(reader, name, *reader.product(number, target))
    else:
        _paired(reader, name, number, targets)


def _looked(reader: _Reader, name: str, qubit: int, inverted: int) -> None:
    """A measurement of one qubit, a reset, or both."""
    letter, measures, resets = _LOOKS[name]
    if measures:
        reader.now.part(Measure((letter in "YZ") << qubit, (letter in "XY") << qubit, inverted))
    if resets:
        reader.now.part(Reset(qubit, _PLUS[letter]))


def _product(reader: _Reader, name: str, z: int, x: int, inverted: int) -> None:
    """A joint measurement, or a phase by a row."""
    if name == "MPP":
        reader.now.part(Measure(z, x, inverted))
    else:
        back = (name == "SPP_DAG") ^ inverted
        reader.now.steps(phased(z, x, SINGLES["S_DAG" if back else "S"]))


def _paired(reader: _Reader, name: str, number: int, targets: list[Target]) -> None:
    """Gates on pairs of targets; a target rec[-k] is an outcome, on which a Pauli depends."""
    if len(targets) % 2:
        raise fault(number, targets[-1].column, f"{name} takes targets in pairs, and the last one is alone")
    for first, second in zip(targets[::2], targets[1::2]):
        if "rec" in first.text + second.text or "sweep" in first.text + second.text:
            reader.now.part(_fed_back(reader, name, number, first, second))
            continue
        a, b = reader.qubit(number, first), reader.qubit(number, second)
        if a == b:
            raise fault(number, second.column, f"{name} names qubit {a} twice")
        if name in _JOINT:
            letter = _JOINT[name]
            word = 1 << a | 1 << b
            inverted = first.inverted ^ second.inverted
            reader.now.part(Measure(word * (letter in "YZ"), word * (letter in "XY"), inverted))
        else:
            reader.now.steps(PAIRS[name](a, b))


def _fed_back(reader: _Reader, name: str, number: int, first: Target, second: Target) -> Part:
    """A Pauli that is done where an earlier outcome is 1."""
    for outcome, target, codes in ((first, second, _FEEDBACK), (second, first, _BACKWARDS)):
        found = re.fullmatch(r"rec\[-([0-9]{1,9})\]", outcome.text)
        if found and name in codes and small(target.text) is not None:
            if int(found[1]) == 0:
                raise fault(number, outcome.column, f"{outcome.text} is no outcome: the last is rec[-1]")
            body = Building()
            body.steps([gate(reader.qubit(number, target), codes[name])])
            return Where(_was_one(int(found[1]), outcome.text, number, outcome.column), body.close())
    raise fault(number, first.column, f"{name} of {first.text} and {second.text} is no Pauli that depends on an outcome")


def _was_one(back: int, text: str, number: int, column: int) -> Callable:
    def holds(going) -> bool:
        if back > len(going.result.measurements):
            raise fault(number, column, f"{text}, but so far there are {len(going.result.measurements)} measurements")
        return going.outcome(back) == 1

    return holds
