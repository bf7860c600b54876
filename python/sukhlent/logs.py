"""The file of a session as bytes (docs/TEXTS.md): a record, and below it a line for each step since. Written, read and judged
here; session.py keeps it in a file."""

from __future__ import annotations

import re
import zlib
from dataclasses import dataclass
from typing import Sequence

from . import beyond, blocks
from .refusals import Refusal
from .stepping import NAMES, Answer, Fields, done

_HEAD = b"checkpoint steps qubits"
_STEPS = b"step op a b value refusal outcome determined check"
_NUMBER = rb"(0|[1-9][0-9]*)"
_COUNTS = re.compile(rb"%b %b (0|[1-9][0-9]?)" % (_NUMBER, _NUMBER))
_CHECK = re.compile(rb"check ([0-9a-f]{8})")
_FIELD = rb"(0|[1-9][0-9]{0,2})"
_LINE = re.compile(
    rb"%b (%b) %b %b %b (0|[1-9][0-9]?) ([01]) ([01]) (-|[0-9a-f]{8})"
    % (_NUMBER, "|".join(NAMES).encode(), _FIELD, _FIELD, _FIELD)
)

#: what a power cut leaves as it was: a disk writes no less than this
_SECTOR = 512


@dataclass
class Log:
    """What the file of a session says, up to the last steps that are whole."""

    checkpoint: int  #: how many checkpoints were made before this one
    start: int  #: the steps before the first line
    before: bytearray  #: the record before the last steps that were written together
    block: bytearray  #: the record after them
    entries: "list[tuple[Fields, Answer]]"  #: the steps of the file, and what each answered
    group: int  #: how many of them were written together last
    length: int  #: how many bytes are whole
    sum: int  #: the CRC-32 of these
    torn: bytes  #: what stands after them

    @property
    def steps(self) -> int:
        """The steps in all."""
        return self.start + len(self.entries)


def head(checkpoint: int, steps: int, block: bytearray) -> bytes:
    """The lines above the steps.

    >>> print(head(0, 0, blocks.made([0], [8], 0)).decode(), end="")
    checkpoint steps qubits
    0 0 1
    qubit code neighbours used
    0 8 0000000000000000 0
    check 9dba233a
    step op a b value refusal outcome determined check
    """
    counts = f"{checkpoint} {steps} {blocks.size(block)}"
    raw = b"%b\n%b\n%bcheck " % (_HEAD, counts.encode(), beyond.record_text(block).encode())
    return b"%b%08x\n%b\n" % (raw, zlib.crc32(raw), _STEPS)


def lines(first: int, given: "Sequence[tuple[Fields, Answer]]", before: int) -> bytes:
    """The lines of steps that are written together, the first with the number `first`, after bytes of the CRC-32 `before`:
    the last has the check of all bytes up to it.

    >>> step, answer = Fields("gate", 0, 0, 8), Answer(0, 0, 0)
    >>> print(lines(0, [(step, answer), (step, answer)], 0).decode(), end="")
    0 gate 0 0 8 0 0 0 -
    1 gate 0 0 8 0 0 0 5153e315
    """
    parts = [f"{k} {' '.join(map(str, (*step, *answer)))} " for k, (step, answer) in enumerate(given, first)]
    raw = "-\n".join(parts).encode()
    return b"%b%08x\n" % (raw, zlib.crc32(raw, before))


def read(raw: bytes) -> Log:
    """Judges the bytes of a file, and does its steps. Refused by 1 with the line where one is damaged; what a power cut
    left of steps at the end is not.

    >>> text = head(0, 0, blocks.made([0], [8], 0))
    >>> log = read(text + b"0 gate 0 0")
    >>> log.steps, log.torn, log.length == len(text)
    (0, b'0 gate 0 0', True)
    """
    log = _headed(raw)
    number = raw.count(b"\n", 0, log.length) + 1
    while log.length < len(raw):
        end = _whole(raw, log, number)
        if end is None:
            log.torn = raw[log.length :]
            return log
        _run(raw[log.length : end], log, number)
        number += log.group
        log.sum = zlib.crc32(raw[log.length : end], log.sum)
        log.length = end
    return log


def _damaged(number: int, why: str) -> Refusal:
    return Refusal(1, f"line {number}: {why}")


def _headed(raw: bytes) -> Log:
    """The part above the steps."""
    from .texts import read_record

    rows = raw.split(b"\n", 3 + 65 + 2)
    if rows[0] != _HEAD:
        raise _damaged(1, f"expected '{_HEAD.decode()}'")
    counts = _COUNTS.fullmatch(rows[1]) if len(rows) > 2 else None
    if counts is None or not 1 <= int(counts[3]) <= 64:
        raise _damaged(2, "expected a number of checkpoints, of steps and of qubits, 1 to 64")
    n = int(counts[3])
    if len(rows) < n + 6:
        raise _damaged(len(rows), "the file ends above its steps")
    check = _CHECK.fullmatch(rows[n + 3])
    if check is None:
        raise _damaged(n + 4, "expected 'check' and 8 lower-case hexadecimal digits")
    length = sum(len(row) + 1 for row in rows[: n + 4])
    _checked(check[1], zlib.crc32(raw[: length - 9]), f"line {n + 4}", f"lines 1 to {n + 4}")
    if rows[n + 4] != _STEPS:
        raise _damaged(n + 5, f"expected '{_STEPS.decode()}'")
    try:
        state = read_record("\n\n" + b"\n".join(rows[2 : n + 3]).decode("utf-8", "replace"))
    except Refusal as refusal:
        where = refusal.where or refusal.text
        raise Refusal(refusal.number, where if where.startswith("line ") else f"line 3: {where}") from None
    block = state._block
    length += len(_STEPS) + 1
    return Log(int(counts[1]), int(counts[2]), block, block, [], 0, length, zlib.crc32(raw[:length]), b"")


def _checked(found: bytes, due: int, where: str, what: str) -> None:
    if found != b"%08x" % due:
        raise Refusal(1, f"{where}: the check is {found.decode()}, but {what} give {due:08x}")


def _whole(raw: bytes, log: Log, number: int) -> "int | None":
    """Where the next steps that were written together end; None where a power cut left a part of them. `number` is that
    of their first line."""
    start, first = log.length, number
    while True:
        end = raw.find(b"\n", start)
        found = _LINE.fullmatch(raw, start, end) if end >= 0 else None
        if found is None or int(found[1]) != log.steps + number - first:
            break
        if found[9] != b"-":
            due = zlib.crc32(raw[log.length : found.start(9)], log.sum)
            if found[9] == b"%08x" % due:
                return end + 1
            break
        start, number = end + 1, number + 1
    rest = raw[log.length :]
    if _beginning(rest.rstrip(b"\0"), log) or _unwritten(rest, log.length):
        return None
    if found is None:
        raise _damaged(number, "not the line of a step; expected " + _STEPS.decode())
    if found[9] != b"-" and int(found[1]) == log.steps + number - first:
        _checked(found[9], due, f"line {number}", f"lines 1 to {number}")
    raise _damaged(number, f"step {int(found[1])}, where step {log.steps + number - first} was expected")


def _beginning(rest: bytes, log: Log) -> bool:
    """Whether bytes are the beginning of lines that were to be written together, and not all of them."""
    *whole, last = rest.split(b"\n")
    for k, line in enumerate(whole):
        found = _LINE.fullmatch(line)
        if found is None or found[9] != b"-" or int(found[1]) != log.steps + k:
            return False
    fields = last.split(b" ")
    due = [rb"%d" % (log.steps + len(whole)), b"|".join(name.encode() for name in NAMES)]
    due += [rb"0|[1-9][0-9]{0,2}"] * 3 + [rb"0|[1-9][0-9]?", rb"[01]", rb"[01]"]
    if not all(re.fullmatch(pattern, field) for pattern, field in zip(due, fields[:-1])) or len(fields) > len(due) + 1:
        return False
    if len(fields) == len(due) + 1:
        sealed = b"%08x" % zlib.crc32(rest[: len(rest) - len(fields[-1])], log.sum)
        return fields[-1] == b"-" or sealed.startswith(fields[-1])
    return _begun(fields[-1], len(fields) - 1, due)


def _begun(field: bytes, place: int, due: "list[bytes]") -> bool:
    """Whether bytes are the beginning of a field."""
    if place <= 1:
        return any(name.startswith(field) for name in due[place].split(b"|"))
    return field == b"" or re.fullmatch(due[place], field) is not None


def _unwritten(rest: bytes, at: int) -> bool:
    """Whether a sector of the last steps was never written: a file system gives zeros there. `at` is where the rest stands
    in the file."""
    if re.search(rb" [0-9a-f]{8}\n(?!\0*\Z)", rest):
        return False  # other steps come after them
    edges = [0, *range(-at % _SECTOR or _SECTOR, len(rest), _SECTOR), len(rest)]
    return any(low < high and not rest[low:high].strip(b"\0") for low, high in zip(edges, edges[1:]))


def _run(raw: bytes, log: Log, number: int) -> None:
    """Does steps that were written together; refused where one answers otherwise than its line says."""
    block = bytearray(log.block)
    given = []
    for k, line in enumerate(raw.splitlines()):
        _, op, a, b, value, *answer, _ = line.split(b" ")
        step, said = Fields(op.decode(), int(a), int(b), int(value)), Answer(*map(int, answer))
        found = done(block, step)
        if found != said:
            told, due = (" ".join(map(str, answer)) for answer in (said, found))
            raise _damaged(number + k, f"the step's answer is '{told}', but the engine gives '{due}'")
        given.append((step, said))
    log.entries += given
    log.before, log.block, log.group = log.block, block, len(given)
