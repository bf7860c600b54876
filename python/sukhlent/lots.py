"""Fair bits for outcomes that a state leaves open: from `random.Random`, from numpy's Generator, from a seed, or from an
iterator of bits."""

from __future__ import annotations

import random
from typing import Any, Callable, Iterator, Union

from .arguments import called, whole

#: where fair bits come from: nothing (the module random), a seed, `random.Random`, numpy's Generator, or an iterator of bits
Source = Union[None, int, random.Random, Any]


def bits_from(source: Source = None) -> Callable[[], int]:
    """A function that draws a fair bit. A seed is a new `random.Random`.

    >>> draw = bits_from(5)
    >>> [draw() for _ in range(8)]
    [1, 0, 1, 0, 1, 1, 1, 1]
    >>> draw = bits_from(iter([0, 1]))
    >>> draw(), draw()
    (0, 1)
    """
    if source is None:
        return _drawn
    if isinstance(source, int):
        source = random.Random(source)
    if hasattr(source, "getrandbits"):
        return lambda: source.getrandbits(1)
    if hasattr(source, "integers"):
        return lambda: int(source.integers(2))
    if hasattr(source, "randint") and hasattr(source, "get_state"):  # numpy.random.RandomState
        return lambda: int(source.randint(2))
    if hasattr(source, "__next__"):
        return lambda: _next_bit(source)
    raise TypeError(f"source: expected a seed, random.Random, numpy's Generator or an iterator of bits, not {called(source)}")


def _next_bit(source: Iterator[int]) -> int:
    """The next bit of an iterator, which does not end and gives 0 and 1."""
    bit = next(source, None)
    if bit is None:
        raise ValueError("source: the iterator ended before the last bit was drawn")
    if whole(bit, "a bit") not in (0, 1):
        raise ValueError(f"source: expected bits, 0 and 1, not {called(bit)}")
    return int(bit)


def _drawn() -> int:
    return random.getrandbits(1)
