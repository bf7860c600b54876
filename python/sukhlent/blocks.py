"""A record as one block of bytes: n neighbour words, the word of used qubits, n codes. What changes a record changes its
block in place; a copy of the block is a copy of the record."""

from __future__ import annotations

import struct
from functools import lru_cache
from typing import Sequence

#: the most qubits
MOST = 64


@lru_cache(maxsize=None)
def layout(n: int) -> struct.Struct:
    """The places of a block for n qubits.

    >>> layout(2).size
    26
    """
    return struct.Struct(f"={n}QQ{n}B")


def size(block: "bytearray | bytes") -> int:
    """The number of qubits of a block.

    >>> size(made([0], [8], 0))
    1
    """
    return (len(block) - 8) // 9


def made(neighbours: Sequence[int], codes: Sequence[int], used: int) -> bytearray:
    """The block of these numbers; `struct.error` where one does not fit.

    >>> made([2, 1], [0, 8], 0).hex()
    '0200000000000000010000000000000000000000000000000008'
    """
    return bytearray(layout(len(codes)).pack(*neighbours, used, *codes))


def parts(block: "bytearray | bytes") -> tuple[tuple[int, ...], tuple[int, ...], int]:
    """Neighbour words, codes and the word of used qubits.

    >>> parts(made([2, 1], [0, 8], 0))
    ((2, 1), (0, 8), 0)
    """
    n = size(block)
    held = layout(n).unpack(block)
    return held[:n], held[n + 1 :], held[n]


def used(block: "bytearray | bytes") -> int:
    """The word of used qubits.

    >>> used(made([0], [8], 1))
    1
    """
    n = size(block)
    return int.from_bytes(block[8 * n : 8 * n + 8], "little")


def set_used(block: bytearray, word: int) -> None:
    """Writes the word of used qubits.

    >>> block = made([0], [8], 1)
    >>> set_used(block, 0)
    >>> used(block)
    0
    """
    n = size(block)
    block[8 * n : 8 * n + 8] = word.to_bytes(8, "little")
