"""The shared library, found and declared. Nothing here decides anything: numbers in, numbers out."""

from __future__ import annotations

import ctypes
import os
from ctypes import POINTER, c_double, c_uint8, c_uint16, c_uint32, c_uint64
from pathlib import Path
from typing import Any, Iterable, Union

from .arguments import ABOVE, whole
from .refusals import TEXTS

_NAME = "libsukhlent.so"
_BYTES, _WORDS = POINTER(c_uint8), POINTER(c_uint64)
_IN_BYTES, _IN_WORDS = (_BYTES, c_uint64), (_WORDS, c_uint64)
_IN_HALVES = (POINTER(c_uint16), c_uint64)
_LIST = (*_IN_BYTES, *_IN_WORDS, *_IN_WORDS)
_RECORD = (*_IN_WORDS, *_IN_BYTES)
_STORE = (*_IN_WORDS, *_RECORD)
_GROUP = (c_uint64, c_uint64, c_uint8, *_RECORD)

#: name: argument types; every call answers a refusal number
_CALLS: dict[str, tuple] = {
    "check": (c_uint64, *_LIST),
    "reduce": (c_uint64, *_LIST, *_RECORD, _WORDS),
    "expand": (c_uint64, *_RECORD, c_uint64, *_LIST),
    "gate": (c_uint64, *_RECORD, c_uint64, c_uint64, c_uint8),
    "cz": (c_uint64, *_RECORD, c_uint64, c_uint64, c_uint64),
    "measure": (c_uint64, *_RECORD, _WORDS, c_uint8, c_uint64, c_uint8, _BYTES, _BYTES),
    "observe": (c_uint64, *_RECORD, _WORDS, c_uint8, c_uint64, c_uint8, _BYTES, _BYTES),
    "measure_row": (c_uint64, *_RECORD, c_uint64, c_uint64, c_uint64, c_uint8, _BYTES, _BYTES),
    "renew": (c_uint64, *_RECORD, _WORDS, c_uint64, c_uint8),
    "complement": (c_uint64, *_RECORD, c_uint64, c_uint64),
    "run": (c_uint64, *_RECORD, _WORDS, *_IN_BYTES, *_IN_HALVES * 3, *_IN_BYTES * 3),
    "image": (c_uint64, *_RECORD, *_IN_WORDS, *_IN_BYTES, *_IN_BYTES, _WORDS),
    "cut": (c_uint64, *_RECORD, c_uint64, c_uint64, _WORDS),
    "amplitude": (c_uint64, *_RECORD, c_uint64, c_uint64, *[POINTER(c_double)] * 3),
    "expectation": (c_uint64, *_RECORD, c_uint64, c_uint64, c_uint64, _BYTES),
    "save": (c_uint64, *_RECORD, c_uint64, c_uint64, *_STORE),
    "return": (c_uint64, *_STORE, _WORDS, *_RECORD, _WORDS),
    "forget": (c_uint64, *_STORE),
    "group_gate": (*_GROUP, c_uint64, c_uint64, c_uint8),
    "group_cz": (*_GROUP, c_uint64, c_uint64, c_uint64),
    "group_measure": (*_GROUP, _WORDS, c_uint8, c_uint64, c_uint8, _BYTES, _BYTES),
    "group_complement": (*_GROUP, c_uint64, c_uint64),
    "group_save": (*_GROUP, c_uint64, c_uint64, *_STORE),
    "group_return": (*_GROUP, _WORDS, c_uint64, *_STORE),
    "group_forget": (*_GROUP, c_uint64, c_uint64, *_STORE),
    "product": (c_uint64, *_LIST, c_uint64, _WORDS, _WORDS, _BYTES),
    "compare": (c_uint64, *_LIST, c_uint64, *_LIST, *_IN_BYTES, *_IN_BYTES, _WORDS),
    "compare_records": (c_uint64, *_RECORD, c_uint64, *_RECORD, *_IN_BYTES, *_IN_BYTES, _WORDS),
    "equivalent": (c_uint64, *_LIST, c_uint64, *_LIST, *_IN_BYTES, *_IN_BYTES, _WORDS),
    "equivalent_records": (c_uint64, *_RECORD, c_uint64, *_RECORD, *_IN_BYTES, *_IN_BYTES, _WORDS),
    "generate": (c_uint64, c_uint64, c_uint64, *_IN_BYTES, _WORDS),
    "write_record": (c_uint64, *_RECORD, c_uint64, *_IN_BYTES, _WORDS),
    "read_record": (*_IN_BYTES, _WORDS, *_RECORD, _WORDS),
    "read_strings": (*_IN_BYTES, *_LIST),
    "write_strings": (c_uint64, *_LIST, *_IN_BYTES),
    "orbit": (c_uint64, *_IN_WORDS, *_IN_HALVES, _WORDS),
}


#: the slices of a run, in order
RUN_NAMES = ("ops", "a", "b", "value", "refusals", "outcomes", "determined")

#: where this package stands
HERE = Path(__file__).resolve().parent


def tree() -> Path:
    """The root of what is installed, or of the clone, that this package stands in."""
    installed = HERE.parts[-4:-1] == ("share", "sukhlent", "python")
    return HERE.parents[3] if installed else HERE.parents[1]


def _candidates() -> list[Path]:
    """Where the library may stand: where the environment names one, there alone; else in the package, as pip installs
    it, in an install tree, or in a clone."""
    named = os.environ.get("SUKHLENT_LIBRARY")
    places = [HERE / _NAME, tree() / "lib" / _NAME, tree() / "target" / "shared" / _NAME]
    return [Path(named)] if named else places


def _found() -> Path:
    for path in _candidates():
        if path.is_file():
            return path
    tried = "\n  ".join(str(path) for path in _candidates())
    raise ImportError(
        f"{_NAME} was not found. Build it with tools/shared in a clone, install with pip or tools/install PREFIX, or name"
        f" it in SUKHLENT_LIBRARY. Tried:\n  {tried}"
    )


def _load() -> ctypes.CDLL:
    path = _found()
    try:
        return _declared(ctypes.CDLL(str(path)), path)
    except OSError as error:
        raise ImportError(f"{path} is no library that this Python can load: {error}") from None


def _declared(library: ctypes.CDLL, path: Path) -> ctypes.CDLL:
    """The library with the types of its calls."""
    for name, arguments in {**_CALLS, "version": ()}.items():
        function = getattr(library, f"sukhlent_{name}", None)
        if function is None:
            raise ImportError(
                f"{path} has no sukhlent_{name}: it is of another version than this package. In a clone, build it anew"
                " with: tools/build sukhlent && tools/shared"
            )
        function.argtypes = arguments
        function.restype = c_uint32 if name == "version" else c_uint8
    return library


_library = _load()

#: the file of the library that was loaded
PATH = _found()


def number() -> int:
    """The version of the library as one number, as SUKHLENT_VERSION has it."""
    return _library.sukhlent_version()


def version() -> str:
    """The version of the library that was loaded.

    >>> version().count(".")
    2
    """
    whole_number = number()
    return f"{whole_number // 10000}.{whole_number // 100 % 100}.{whole_number % 100}"


class Cell:
    """One number that a call writes: passes as its pointer alone."""

    def __init__(self, kind: type, value: int = 0):
        self._held = kind(_fitting(value, kind))

    @classmethod
    def at(cls, held: Any) -> Cell:
        """The cell of a number that stands elsewhere."""
        cell = cls.__new__(cls)
        cell._held = held
        return cell

    @property
    def value(self) -> int:
        """What it holds."""
        return self._held.value

    def pointer(self) -> object:
        """What passes to C."""
        return ctypes.byref(self._held)


def word(value: int = 0) -> Cell:
    """A cell of 64 bits."""
    return Cell(c_uint64, value)


def octet(value: int = 0) -> Cell:
    """A cell of eight bits."""
    return Cell(c_uint8, value)


class FloatCell(Cell):
    """One 64-bit float that a call writes."""

    def __init__(self) -> None:
        self._held = c_double()


class Wide:
    """Marks a word with a bit that no 64-bit word has, and a buffer that was to hold one."""


class _WideWord(int, Wide):
    """Passes in place of a word with such a bit."""


#: what passes to a call: a number, a buffer or a cell
Argument = Union[int, ctypes.Array, Cell]

#: the numbers that are checked before stray bits: none of them is about the bits of a word
_BEFORE_STRAY = frozenset(list(TEXTS)[: list(TEXTS).index(5)])


def call(name: str, *arguments: Argument) -> int:
    """Calls `sukhlent_NAME`: a buffer passes as its pointer and its length, a cell as its pointer. Where a word has a bit
    that no word has, it has one at or above n: the answer is 5, or a number that is checked before it."""
    function = getattr(_library, f"sukhlent_{name}")
    spread: list = []
    for argument in arguments:
        if isinstance(argument, ctypes.Array):
            spread += [argument, len(argument)]
        elif isinstance(argument, Cell):
            spread.append(argument.pointer())
        else:
            spread.append(_fitting(argument, function.argtypes[len(spread)]))
    number = function(*spread)
    wide = any(isinstance(argument, Wide) for argument in arguments)
    return 5 if wide and number not in _BEFORE_STRAY else number


def _fitting(value: int, kind: type) -> int:
    """A number as C gets it, of any type that stands for an integer. One that no byte holds becomes 255, or of 16 bits
    65,535, which every call refuses as it would the number."""
    value = whole(value)
    if kind is c_uint8:
        return value if 0 <= value <= 255 else 255
    if kind is c_uint16:
        return value if 0 <= value <= 65535 else 65535
    if not 0 <= value < 1 << 64:
        raise OverflowError(f"{value} does not fit into 64 bits")
    return value


def place(number: int) -> int:
    """A qubit number or a count as C gets it: one that no word holds becomes one that every call refuses likewise."""
    number = whole(number)
    return number if 0 <= number < 1 << 64 else ABOVE


def bits(value: int) -> int:
    """A word of bits as C gets it. A negative one counts as one with all bits above 63."""
    value = whole(value)
    return value if 0 <= value < 1 << 64 else _WideWord()


def word_of(places: Iterable[int]) -> int:
    """The word with these bits."""
    result = 0
    for number in places:
        result |= 1 << (number if 0 <= number < 64 else 64)
    return bits(result)


def words(values: Iterable[int]) -> ctypes.Array:
    """A buffer of 64-bit words."""
    given = [bits(value) for value in values]
    kind = c_uint64 * len(given)
    if any(isinstance(value, Wide) for value in given):
        return type("WideWords", (kind, Wide), {})()
    return kind(*given)


def octets(values: Iterable[int]) -> ctypes.Array:
    """A buffer of bytes."""
    fitting = [_fitting(value, c_uint8) for value in values]
    return (c_uint8 * len(fitting))(*fitting)


def halves(values: Iterable[int]) -> ctypes.Array:
    """A buffer of numbers of 16 bits."""
    fitting = [_fitting(value, c_uint16) for value in values]
    return (c_uint16 * len(fitting))(*fitting)


def lent(name: str, given: Any) -> ctypes.Array:
    """A slice of a run as it is: any buffer of numbers of 16 bits for a, b and value, of eight bits for the others."""
    view = memoryview(given)
    kind, letter, width = (c_uint16, "H", 16) if name in RUN_NAMES[1:4] else (c_uint8, "B", 8)
    if view.format.lstrip("@=<") != letter:
        raise TypeError(
            f"{name} holds items of the format '{view.format.lstrip('@=<')}', where numbers of {width} bits without a"
            f" sign are taken: '{letter}' (array('{letter}'), numpy.uint{width})"
        )
    flat = view.cast("B")
    if view.readonly and name in RUN_NAMES[4:]:
        raise BufferError("Object is not writable.")
    if view.readonly:
        flat = memoryview(bytearray(flat))
    found = (kind * (view.nbytes // view.itemsize)).from_buffer(flat)
    if ctypes.addressof(found) % view.itemsize:
        raise BufferError(f"{name} does not begin at an address for numbers of 16 bits")
    return found


def blank_words(count: int) -> ctypes.Array:
    """A buffer of so many words, for an answer."""
    return (c_uint64 * count)()


def blank_octets(count: int) -> ctypes.Array:
    """A buffer of so many bytes, for an answer."""
    return (c_uint8 * count)()
