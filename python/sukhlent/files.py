"""Texts in files that a power cut leaves whole: the old text or the new one, never a part."""

from __future__ import annotations

import fcntl
import os
import secrets
from contextlib import suppress
from pathlib import Path
from typing import Callable, TypeVar, Union

from .refusals import Refusal

_Kind = TypeVar("_Kind")

#: where a file stands
Place = Union[str, "os.PathLike[str]"]


def flush(file: int) -> None:
    """What was written to an open file is on the disk afterwards, also where the system only hands it on (macOS)."""
    if hasattr(fcntl, "F_FULLFSYNC"):
        fcntl.fcntl(file, fcntl.F_FULLFSYNC)
    else:
        os.fsync(file)


def write(file: int, raw: bytes) -> None:
    """Writes all bytes to an open file."""
    rest = memoryview(raw)
    while rest:
        rest = rest[os.write(file, rest) :]


def replace(path: Place, text: str, new: "str | None" = None) -> None:
    """Puts a text in the place of a file: written to a new file in the same folder, flushed, renamed over the old one, and
    the folder flushed. `new` is the name of the new file, which may be left over from a crash.

    >>> import tempfile
    >>> with tempfile.TemporaryDirectory() as folder:
    ...     replace(folder + "/a.txt", "first\\n")
    ...     replace(folder + "/a.txt", "second\\n")
    ...     read(folder + "/a.txt"), os.listdir(folder)
    ('second\\n', ['a.txt'])
    """
    place = os.path.realpath(path)
    made = new or f"{place}.{secrets.token_hex(4)}.new"
    file = os.open(made, os.O_WRONLY | os.O_CREAT | os.O_CLOEXEC | (os.O_TRUNC if new else os.O_EXCL), 0o666)
    try:
        if os.path.exists(place):
            os.fchmod(file, os.stat(place).st_mode & 0o7777)
        write(file, text.encode("utf-8", "surrogateescape"))
        flush(file)
        os.rename(made, place)
    except BaseException:
        remove(made)
        raise
    finally:
        os.close(file)
    flush_folder(place)


def remove(path: Place) -> None:
    """Removes a file, where there is one."""
    with suppress(FileNotFoundError):
        os.unlink(path)


def flush_folder(path: Place) -> None:
    """The names in the folder of a file are on the disk afterwards."""
    folder = os.open(os.path.dirname(os.path.abspath(path)), os.O_RDONLY | os.O_CLOEXEC)
    try:
        flush(folder)
    finally:
        os.close(folder)


def read(path: Place) -> str:
    """The text of a file."""
    return Path(path).read_bytes().decode("utf-8", "surrogateescape")


def loaded(path: Place, reader: "Callable[[str], _Kind]") -> _Kind:
    """What a reader makes of the text of a file; its refusal names the file."""
    try:
        return reader(read(path))
    except Refusal as refusal:
        raise Refusal(refusal.number, f"{os.fspath(path)}: {refusal.where or refusal.text}") from None
