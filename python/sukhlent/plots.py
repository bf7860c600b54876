"""Tables of amplitudes, as the program `amplitudes` prints them, and their picture: real part, imaginary part and
probability of each word as bars, in SVG."""

from __future__ import annotations

import struct
from fractions import Fraction
from typing import Iterator, Sequence

from .answers import PlotLine
from .drawing import opening
from .state import State

NAMES = "y re im p"

_COLOURS = {"re": "#1e3a8a", "im": "#8a3b12", "p": "#4b5563"}
_LEFT, _ROW, _GAP = 64, 72, 22


def read_table(text: str) -> list[PlotLine]:
    """The lines of a table that the program printed.

    >>> read_table("y re im p\\n0 3ff0000000000000 0000000000000000 3fe0000000000000\\n"
    ...     "1 0000000000000000 bff0000000000000 3fe0000000000000\\n")
    [PlotLine(re=1.0, im=0.0, p=0.5), PlotLine(re=0.0, im=-1.0, p=0.5)]
    """
    lines = text.splitlines()
    if not lines or lines.pop(0) != NAMES:
        raise ValueError(f"the first line is not '{NAMES}'")
    found = []
    for y, line in enumerate(lines):
        word, *floats = line.split(" ")
        if word != str(y) or len(floats) != 3:
            raise ValueError(f"line {y + 2} is not that of the word {y}")
        found.append(PlotLine(*(struct.unpack(">d", bytes.fromhex(digits))[0] for digits in floats)))
    return found


def table_of(state: State) -> list[PlotLine]:
    """The amplitudes of a state on up to 10 qubits by the library: a line for each word.

    >>> table_of(State.from_strings("-Y"))
    [PlotLine(re=1.0, im=0.0, p=0.5), PlotLine(re=0.0, im=-1.0, p=0.5)]
    """
    if state.n > 10:
        raise ValueError(f"a table of 2^{state.n} words: 10 qubits at most")
    return [state.amplitude(y) for y in range(1 << state.n)]


def _bars(kind: str, values: Sequence[float], base: float, unit: float, step: float) -> Iterator[str]:
    """A bar for each value that is not 0, up from the base or down, in places that are a step wide."""
    for y, value in enumerate(values):
        if value:
            top = base - max(value, 0.0) * unit
            yield (
                f'<rect fill="{_COLOURS[kind]}" x="{_LEFT + (y + 0.15) * step:.2f}" y="{top:.2f}" width="{0.7 * step:.2f}"'
                f' height="{abs(value) * unit:.2f}"/>'
            )


def _ticks(values: Sequence[tuple[str, float]], right: float) -> Iterator[str]:
    """Lines across, with what they stand for."""
    for name, y in values:
        yield f'<line stroke="#6b7280" x1="{_LEFT}" y1="{y:.1f}" x2="{right:.1f}" y2="{y:.1f}" opacity=".4"/>'
        yield f'<text font-size="11" text-anchor="end" x="{_LEFT - 6}" y="{y:.1f}" dy=".35em">{name}</text>'


def plot_svg(lines: Sequence[PlotLine]) -> str:
    """The picture of a table: three rows of bars over the words, which are written as bits, qubit 0 last.

    >>> plot_svg([PlotLine(1.0, 0.0, 0.5), PlotLine(0.0, -1.0, 0.5)]).count("<rect")
    4
    """
    n = (len(lines) - 1).bit_length()
    if len(lines) != 1 << n or n == 0:
        raise ValueError(f"a table of {len(lines)} words")
    step = max(24.0, 9.0 * n + 4) if n <= 5 else 1440 / len(lines)
    right = _LEFT + step * len(lines)
    parts = ['<g font-family="sans-serif" font-size="12" fill="#111827">']
    top = 14.0
    for kind, name in (("re", "real"), ("im", "imag.")):
        base = top + _ROW / 2
        parts.append(f'<text x="0" y="{base:.1f}" dy=".35em">{name}</text>')
        parts.extend(_ticks([("1", top), ("0", base), ("−1", top + _ROW)], right))
        parts.extend(_bars(kind, [getattr(line, kind) for line in lines], base, _ROW / 2, step))
        top += _ROW + _GAP
    most = max(line.p for line in lines)
    parts.append(f'<text x="0" y="{top + _ROW / 2:.1f}" dy=".35em">prob.</text>')
    parts.extend(_ticks([(str(Fraction(most)), top), ("0", top + _ROW)], right))
    parts.extend(_bars("p", [line.p for line in lines], top + _ROW, _ROW / most, step))
    bottom = top + _ROW + 16
    for y in range(0, len(lines), 1 if n <= 5 else len(lines) // 32):
        word = f"{y:0{n}b}" if n <= 5 else str(y)
        parts.append(
            f'<text font-size="11" text-anchor="middle" x="{_LEFT + (y + 0.5) * step:.1f}" y="{bottom:.1f}">{word}</text>'
        )
    axis = _axis(n)
    parts.append(f'<text font-size="11" x="0" y="{bottom + 18:.1f}">{axis}</text></g>')
    width, height = max(right + 12, 6.2 * len(axis)), bottom + 26
    ground = f'<path d="M-8 0H{width:.1f}V{height:.1f}H-8Z" fill="#ffffff"/>'
    return "\n".join([opening(-8, 0, width + 8, height), ground, *parts, "</svg>"])


def _axis(n: int) -> str:
    """Which bit of a word is which qubit.

    >>> _axis(1), _axis(3), _axis(7)
    ('word: the bit of qubit 0', 'word: bits of qubits 2 to 0, qubit 0 last', 'word as a number: bit q is qubit q')
    """
    if n > 5:
        return "word as a number: bit q is qubit q"
    return f"word: bits of qubits {n - 1} to 0, qubit 0 last" if n > 1 else "word: the bit of qubit 0"
