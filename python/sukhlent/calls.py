"""The calls on a record's block: by the extension (python/extension/calls.c) where it is built, else through ctypes. Both
answer alike; the extension is ten times as fast. SUKHLENT_CALLS=ctypes takes ctypes."""

from __future__ import annotations

import importlib.util
import os
import sys
from importlib.machinery import EXTENSION_SUFFIXES
from pathlib import Path
from types import ModuleType

from . import by_ctypes, library
from .arguments import PAULIS, bit, pauli_number, place
from .codes import CODES, code

#: the module's name in the package, and the stem of its file
_NAME = "_calls"

#: how its file may end: what is on the limited interface is for Python 3.11 and later (tools/packaged.py)
_SUFFIXES = [suffix for suffix in EXTENSION_SUFFIXES if suffix != ".abi3.so" or sys.version_info >= (3, 11)]


def _extension() -> "ModuleType | None":
    """The extension, opened on the library that was loaded; None where there is none for this Python and version."""
    for folder in (Path(__file__).resolve().parent, library.tree() / "target" / "shared"):
        for suffix in _SUFFIXES:
            path = folder / (_NAME + suffix)
            if path.is_file():
                return _opened(path)
    return None


def _opened(path: Path) -> "ModuleType | None":
    spec = importlib.util.spec_from_file_location(f"sukhlent.{_NAME}", path)
    if spec is None or spec.loader is None:
        return None
    module = importlib.util.module_from_spec(spec)
    spec.loader.exec_module(module)
    if module.VERSION != library.number():
        return None
    module.open(os.fspath(library.PATH), CODES, PAULIS, code, pauli_number, place, bit)
    return module


def _chosen() -> ModuleType:
    if os.environ.get("SUKHLENT_CALLS") == "ctypes":
        return by_ctypes
    try:
        return _extension() or by_ctypes
    except ImportError as error:  # a library without one of the calls
        print(f"sukhlent: the extension is not taken: {error}", file=sys.stderr)
        return by_ctypes


_taken = _chosen()

#: "extension" or "ctypes"
TAKEN = "ctypes" if _taken is by_ctypes else "extension"

gate, cz, cx, complement = _taken.gate, _taken.cz, _taken.cx, _taken.complement
measure, observe, renew = _taken.measure, _taken.observe, _taken.renew
measure_row = _taken.measure_row
cut, expectation, reduce, same = _taken.cut, _taken.expectation, _taken.reduce, _taken.same
run, run_many = _taken.run, _taken.run_many
group_gate, group_cz = _taken.group_gate, _taken.group_cz
group_measure, group_complement = _taken.group_measure, _taken.group_complement
