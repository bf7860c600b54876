"""Named states: up to eight records, each held under a name of eight bytes."""

from __future__ import annotations

from typing import Any, Iterable, Sequence

from . import files, library
from .arguments import called
from .kept import Lines, fill, free_name, held_text
from .refusals import Refusal
from .state import State


def name_number(name: bytes | str) -> int:
    """A name as one number: at most eight bytes, filled up with spaces.

    >>> hex(name_number("A"))
    '0x2020202020202041'
    """
    if not isinstance(name, (str, bytes, bytearray)):
        raise TypeError(f"expected a name as text or bytes, not {called(name)}")
    given = name.encode("utf-8", "surrogateescape") if isinstance(name, str) else bytes(name)
    if len(given) > 8:
        raise ValueError(f"a name has at most eight bytes: {name!r} has {len(given)}")
    return int.from_bytes(given.ljust(8), "little")


def held_names(heads: Sequence[int], places: Iterable[int]) -> list[str]:
    """The names held at some places, without the spaces at their end. Each finds its state again, also one that is no
    UTF-8.

    >>> held_names([0, 0, 0, 1, name_number("A"), 0, 1, name_number("A\\n"), 0], range(3))
    ['A', 'A\\n']
    """
    held = [heads[3 * place + 1] for place in places if heads[3 * place]]
    return [name.to_bytes(8, "little").decode("utf-8", "surrogateescape").rstrip(" ") for name in held]


class Buffers:
    """Held states as the engine keeps them: three buffers, which copies and pickles hold as bytes."""

    KINDS = (library.blank_words, library.blank_words, library.blank_octets)
    SIZES = (24, 512, 512)

    def __init__(self) -> None:
        self.all: tuple[Any, ...] = tuple(kind(size) for kind, size in zip(self.KINDS, self.SIZES))

    def __reduce__(self) -> tuple:
        return _restored, (tuple(bytes(held) for held in self.all),)

    def __copy__(self) -> Buffers:
        return _restored(tuple(bytes(held) for held in self.all))

    def __deepcopy__(self, memo: dict) -> Buffers:
        return self.__copy__()


def _restored(held: tuple[bytes, ...]) -> Buffers:
    """The buffers with these bytes."""
    buffers = Buffers()
    buffers.all = tuple(type(room).from_buffer_copy(given) for room, given in zip(buffers.all, held))
    return buffers


def not_held(number: int, name: "bytes | str", names: "list[str]") -> Refusal:
    """The refusal of a call on a name, with the names that are held.

    >>> not_held(17, "start", ["end"])
    Refusal(17, "nothing is held under 'start'; held: 'end'")
    """
    held = ", ".join(repr(other) for other in names) or "nothing"
    if number == 17:
        return Refusal(17, f"nothing is held under {name!r}; held: {held}")
    if number == 18:
        return Refusal(18, f"no place is free for {name!r}; held: {held}")
    return Refusal(number)


def _unless(sound: int, number: int) -> int:
    """A refusal, or 0 where it is the one that sound buffers give."""
    return 0 if number == sound else number


class Store:
    """Up to eight states under names; a store starts empty. A name is text or bytes, at most eight bytes, and shorter ones
    are filled up with spaces.

    >>> store, state = Store(), State.zeros(2)
    >>> state.h(0)
    >>> store.save("plus", state)
    >>> state.h(1)
    >>> state.cz(0, 1)
    >>> state = store.return_to("plus")
    >>> state.codes
    (0, 8)
    >>> store.names()
    ['plus']
    >>> store.forget("plus")
    >>> store.forget("plus")
    Traceback (most recent call last):
    ...
    sukhlent.refusals.Refusal: refused 17: nothing is held under 'plus'; held: nothing
    """

    def __init__(self) -> None:
        self._buffers = Buffers()

    def copy(self) -> Store:
        """The same names with the same states, apart.

        >>> first = Store()
        >>> second = first.copy()
        >>> second.save("start", State.zeros(1))
        >>> first.names(), second.names()
        ([], ['start'])
        """
        store = Store()
        store._buffers = self._buffers.__copy__()
        return store

    __copy__ = copy

    def __deepcopy__(self, memo: dict) -> Store:
        return self.copy()

    @classmethod
    def read(cls, text: str) -> Store:
        """The store of a text, as `str` writes it.

        >>> store = Store()
        >>> store.save("start", State.zeros(1))
        >>> print(store)
        held 1
        place qubits name
        0 1 "start"
        qubit code neighbours used
        0 8 0000000000000000 0
        >>> Store.read(str(store)).names()
        ['start']
        """
        store, lines = cls(), Lines(text)
        held = store._buffers.all
        fill(lines, held, lambda place: _unless(17, library.call("forget", free_name(held[0]), *held)))
        lines.end()
        return store

    def __str__(self) -> str:
        return held_text(*self._buffers.all)[:-1]

    def save_all(self, path: files.Place) -> None:
        """Writes all names and states to a file, flushed: after a power cut the file is the old one or the new one, whole.

        >>> import tempfile
        >>> with tempfile.TemporaryDirectory() as folder:
        ...     Store().save_all(folder + "/store.txt")
        ...     Store.load(folder + "/store.txt").names()
        []
        """
        files.replace(path, held_text(*self._buffers.all))

    @classmethod
    def load(cls, path: files.Place) -> Store:
        """The store of a file that `save_all` wrote.

        >>> import tempfile
        >>> store = Store()
        >>> store.save("start", State.zeros(2))
        >>> with tempfile.TemporaryDirectory() as folder:
        ...     store.save_all(folder + "/store.txt")
        ...     Store.load(folder + "/store.txt").return_to("start") == State.zeros(2)
        True
        """
        return files.loaded(path, cls.read)

    def save(self, name: bytes | str, state: State) -> None:
        """Holds the state under the name: in place of what is held under it, else at a free place; 18 where eight other
        names are held.

        >>> store = Store()
        >>> for letter in "ABCDEFGH":
        ...     store.save(letter, State.zeros(1))
        >>> store.save("A", State.zeros(3))
        >>> store.return_to("A").n
        3
        >>> store.save("Z", State.zeros(1))
        Traceback (most recent call last):
        ...
        sukhlent.refusals.Refusal: refused 18: no place is free for 'Z'; held: 'A', 'B', 'C', 'D', 'E', 'F', 'G', 'H'
        """
        if not isinstance(state, State):
            raise TypeError(f"save(name, state): expected a State, not {called(state)}")
        record = (state.n, library.words(state.neighbours), library.octets(state.codes), state.used)
        number = library.call("save", *record, name_number(name), *self._buffers.all)
        if number:
            raise not_held(number, name, self.names())

    def return_to(self, name: bytes | str) -> State:
        """The state held under the name, which stays held; 17 where there is none.

        >>> store = Store()
        >>> store.save(b"start", State.zeros(2))
        >>> store.return_to("start") == State.zeros(2)
        True
        """
        n, used = library.word(), library.word()
        neighbours, codes = library.blank_words(64), library.blank_octets(64)
        number = library.call("return", name_number(name), *self._buffers.all, n, neighbours, codes, used)
        if number:
            raise not_held(number, name, self.names())
        return State(neighbours[: n.value], codes[: n.value], used.value)

    def forget(self, name: bytes | str) -> None:
        """Makes the place of the name free; 17 where nothing is held under it.

        >>> store = Store()
        >>> store.save("start", State.zeros(2))
        >>> store.forget("start")
        >>> store.names()
        []
        """
        number = library.call("forget", name_number(name), *self._buffers.all)
        if number:
            raise not_held(number, name, self.names())

    def names(self) -> list[str]:
        """The names that are held, in the order of their places, without the spaces at their end.

        >>> Store().names()
        []
        """
        return held_names(self._buffers.all[0], range(8))
