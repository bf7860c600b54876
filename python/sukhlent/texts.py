"""The texts of docs/TEXTS.md, read into objects, also where others have written them (reading.py)."""

from __future__ import annotations

from . import beyond, forms, logs
from .lists import GeneratorList
from .reading import plain_text
from .refusals import Refusal
from .state import State

_LIST, _RECORD, _RESULTS = "sign z x", "qubit code neighbours", ("step refusal outcome", "measurement row outcome")
_SESSION = "checkpoint steps qubits"


def read_list(text: str) -> GeneratorList:
    """The generator list of a text that the program `reduce` reads.

    >>> read_list("sign z x\\n1 0000000000000001 0000000000000000\\n")
    GeneratorList.from_strings('-Z')
    """
    rows = _rows(text, forms.list_fault(text))
    signs = tuple(int(sign) for sign, _, _ in rows)
    return GeneratorList(signs, tuple(int(z, 16) for _, z, _ in rows), tuple(int(x, 16) for _, _, x in rows))


def read_record(text: str) -> State:
    """The state of a record that a program printed, or `str` of a state.

    >>> read_record("qubit code neighbours used\\n0 8 0000000000000000 1\\n")
    State([0], [8], 1)
    """
    rows = _rows(text, forms.record_fault(text))
    found = beyond.read_text("".join(["qubit code neighbours used\n", *(" ".join(row) + "\n" for row in rows)]))
    if not isinstance(found, int):
        return State._of(found)
    if len(rows) > 64:
        raise Refusal(2, f"{len(rows)} qubits, but a state has 1 to 64")
    used = sum(1 << q for q, row in enumerate(rows) if row[3] == "1")
    return State([int(row[2], 16) for row in rows], [int(row[1]) for row in rows], used)


def list_of(text: str) -> GeneratorList:
    """The generators of any text of a state: Pauli strings and generator lists as they are, records expanded.

    >>> list_of("XX\\n-ZZ").strings()
    ['+XX', '-ZZ']
    """
    plain = plain_text(text)
    if plain.startswith(_LIST):
        return read_list(text)
    if plain.startswith((_RECORD, _SESSION, *_RESULTS)):
        return read_state(text).generators()
    return GeneratorList.from_text(text)


def read_state(text: str) -> State:
    """The state of any of these: Pauli strings, a generator list, a record, what `sukhlent job` prints, or the file of a
    session, after its last step.

    >>> read_state("+XX\\n-ZZ\\n")
    State([2, 1], [0, 10], 0)
    >>> read_state("sign z x\\n1 0000000000000001 0000000000000000\\n")
    State([0], [10], 0)
    """
    plain = plain_text(text)
    if plain.startswith(_SESSION):
        return State._of(logs.read(text.encode("utf-8", "surrogateescape")).block)
    if plain.startswith(_RESULTS) and "\n" + _RECORD in plain:
        text = plain = plain[plain.index("\n" + _RECORD) + 1 :]
    if plain.startswith(_RECORD):
        return read_record(text)
    return State.from_generators(list_of(text))


def _rows(text: str, fault: "str | None") -> list[list[str]]:
    """The fields of each line after the first; refused by 1 where the text has a fault."""
    if fault is not None:
        raise Refusal(1, fault)
    return [line.split(" ") for line in plain_text(text).splitlines()[1:]]
