"""What the command does, subcommand by subcommand, each on texts of any kind that the package reads."""

from __future__ import annotations

import sys
from pathlib import Path
from typing import Callable

from . import forms
from .answers import Equivalence, Renumbered
from .circuits import read_circuit
from .circuits.reader import is_qasm
from .circuits.stim import is_stim
from .pictures import draw
from .plots import plot_svg, read_table
from .programs import fed, path_of
from .reading import plain_text
from .refusals import Refusal
from .state import State
from .texts import list_of, read_state


class Trouble(Exception):
    """Something other than a refusal: a file or a program that is not there."""


def text_of(file: str) -> str:
    """A file, or standard input for '-'."""
    try:
        raw = sys.stdin.buffer.read() if file == "-" else Path(file).read_bytes()
    except OSError as error:
        raise Trouble(f"{file}: {error.strerror}") from None
    if raw.startswith((b"\xff\xfe", b"\xfe\xff")):
        raw = raw.decode("utf-16", "replace").encode()
    return raw.decode("utf-8", "surrogateescape")


def shown_or_written(text: str, out: str) -> int:
    """Prints a picture, or writes it to a file of its kind."""
    if out == "-":
        sys.stdout.write(text + "\n")
    else:
        draw(text, out)
    return 0


def _program(name: str, text: str, fault: "str | None") -> str:
    """What a proved program prints of a text."""
    program = path_of(name)
    if program is None:
        raise Trouble(f"the program {name} was not found; build it with: tools/build {name}")
    answer = fed(program, text.encode("utf-8", "surrogateescape")).decode()
    if answer.startswith("refused "):
        number = int(answer.split()[1])
        raise Refusal(number, fault or "" if number == 1 else "")
    return answer


def _list_text(text: str) -> str:
    """The generator list of a text of any kind, as the programs read it; a list as it is given, which they judge."""
    plain = plain_text(text)
    return plain if plain.startswith("sign z x") else list_of(text).text()


def reduce(file: str) -> int:
    """The reduced record of a state."""
    text = text_of(file)
    sys.stdout.write(_program("reduce", _list_text(text), forms.list_fault(text)))
    return 0


def amplitudes(file: str, svg: bool, out: str) -> int:
    """The amplitudes of a state, as a table or as bars."""
    text = text_of(file)
    table = _program("amplitudes", _list_text(text), forms.list_fault(text))
    if svg or out != "-":
        return shown_or_written(plot_svg(read_table(table)), out)
    sys.stdout.write(table)
    return 0


def job(file: str, seed: "int | None") -> int:
    """A job, or a circuit from +Z at every qubit."""
    text = text_of(file)
    if file.endswith((".stim", ".qasm")) or is_qasm(text.removeprefix("\ufeff")) or is_stim(text):
        return _circuit(text, seed)
    if seed is not None:
        raise Trouble("a job has its outcomes in its text; --seed is for circuits")
    sys.stdout.write(_program("job", plain_text(text), forms.job_fault(text)))
    return 0


def _circuit(text: str, seed: "int | None") -> int:
    """Runs a circuit, and prints its measurements and the record after it."""
    circuit = read_circuit(text)
    state = State.zeros(circuit.n)
    result = circuit.run(state, seed)
    print("measurement row outcome determined")
    for k, (row, measured) in enumerate(zip(result.rows, result.measurements)):
        print(k, row, measured.outcome, int(measured.determined))
    print(state)
    return 0


def drawn(file: str, layout: "str | None", out: str) -> int:
    """The record of a state as a picture."""
    state = read_state(text_of(file))
    return shown_or_written(state.svg(layout), out)


def compare(first: str, second: str) -> int:
    """How the first state becomes the second, for connected parts of at most 20 vertices."""
    one, two = _pair(first, second)
    return _carried(one.compare(two))


def equivalent(first: str, second: str, renumbered: bool) -> int:
    """The same for parts of any size, and in any order of the qubits."""
    one, two = _pair(first, second)
    return _carried(one.equivalent(two, renumbered))


def _pair(first: str, second: str) -> tuple[State, State]:
    """The states of two files."""
    if first == second == "-":
        raise Trouble("only one of the two files can be standard input")
    return read_state(text_of(first)), read_state(text_of(second))


def _carried(found: "Equivalence | Renumbered | None") -> int:
    """Prints what a comparison found."""
    if found is None:
        raise Refusal(13)
    order = getattr(found, "order", None)
    print("qubit code gate" if order is None else "qubit from code gate")
    for q, (number, name) in enumerate(zip(found.choice, found.gates)):
        print(*([q] if order is None else [q, order[q]]), number, name)
    print("complementations", *found.complementations)
    return 0


def expectation(file: str, rows: list[str]) -> int:
    """The values of Pauli rows."""
    state = read_state(text_of(file))
    values = [f"{row} {state.expectation(row)}" for row in rows]
    print("\n".join(["row value", *values]))
    return 0


#: what a subcommand is given to: its arguments by name
Action = Callable[..., int]
