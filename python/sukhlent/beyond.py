"""Resets, and records as texts: by the calls that the library has. A reset works on a block and answers as the functions of
calls.py do: 0 or a refusal."""

from __future__ import annotations

from . import blocks, calls, library
from .refusals import accept


def reset(block: bytearray, qubit: int, code: int, bit: int) -> int:
    """Puts a qubit that is not used into the state of a code, whatever it was; the bit is by lot.

    >>> block = blocks.made([2, 1], [0, 8], 0)
    >>> reset(block, 0, 8, 1), blocks.parts(block)
    (0, ((0, 0), (8, 10), 0))
    """
    found = calls.observe(block, code // 4 + 1, qubit, bit)
    return -found if found < 0 else calls.renew(block, qubit, code)


def record_text(block: bytearray) -> str:
    """A record as the program `reduce` prints it, the last newline too.

    >>> record_text(blocks.made([0], [8], 1))
    'qubit code neighbours used\\n0 8 0000000000000000 1\\n'
    """
    neighbours, codes, used = blocks.parts(block)
    text, length = library.blank_octets(1627), library.word()
    accept(library.call("write_record", len(codes), library.words(neighbours), library.octets(codes), used, text, length))
    return bytes(text[: length.value]).decode()


def read_text(text: str) -> "bytearray | int":
    """The record of a text that is byte for byte as `record_text` writes it, or the refusal.

    >>> blocks.parts(read_text("qubit code neighbours used\\n0 8 0000000000000000 1\\n")), read_text("qubit")
    (((0,), (8,), 1), 1)
    """
    n, words, codes, used = library.word(), library.blank_words(64), library.blank_octets(64), library.word()
    given = library.octets(text.encode("utf-8", "surrogateescape"))
    number = library.call("read_record", given, n, words, codes, used)
    return number or blocks.made(words[: n.value], codes[: n.value], used.value)
