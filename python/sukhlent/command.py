"""The command `sukhlent`: its arguments, and how it ends."""

from __future__ import annotations

import argparse
import errno
import os
import signal
import sys
import threading

from . import actions
from .actions import Trouble
from .library import version
from .pictures import Unwritten
from .refusals import TEXTS, Refusal

_ABOUT = """Stabilizer states on up to 64 qubits by a proved engine. A FILE is '-', or left out, for standard input; a state is
Pauli strings, a generator list, a record, or what job prints. docs/TEXTS.md has the texts. The exit status is 1 on a refusal,
whose number and words go to standard error, and 2 where the command was called wrongly or could not write."""


def parser() -> argparse.ArgumentParser:
    """The command's arguments."""
    top = argparse.ArgumentParser(prog="sukhlent", description=_ABOUT)
    top.add_argument("--version", action="version", version=f"sukhlent {version()}")
    commands = top.add_subparsers(dest="command", required=True, metavar="COMMAND")

    def command(name: str, about: str, action: actions.Action, file: bool = True) -> argparse.ArgumentParser:
        made = commands.add_parser(name, help=about, description=about)
        made.set_defaults(action=action)
        if file:
            made.add_argument("file", nargs="?", default="-", metavar="FILE")
        return made

    command("reduce", "the reduced record of a state", actions.reduce)
    amplitudes = command("amplitudes", "the amplitudes of a state on up to 10 qubits, as a table", actions.amplitudes)
    amplitudes.add_argument("--svg", action="store_true", help="draws the table as bars, as SVG")
    _with_out(amplitudes)
    job = command("job", "a session as text, or a circuit (Stim, OpenQASM 2 and 3): what it answers, and the record", actions.job)
    job.add_argument("--seed", type=int, help="where a circuit's outcomes come from, else by lot")
    draw = command("draw", "the record of a state as a picture", actions.drawn)
    draw.add_argument("--layout", help="circle, line, or rows and columns as 2x3")
    _with_out(draw)
    about = "the least choice of local Cliffords that carries the first state onto the second"
    compare = command("compare", about, actions.compare, file=False)
    about = "the same, for states whose graphs have connected parts of more than 20 vertices too"
    equivalent = command("equivalent", about, actions.equivalent, file=False)
    for pair in compare, equivalent:
        pair.add_argument("first", metavar="FIRST")
        pair.add_argument("second", metavar="SECOND")
    equivalent.add_argument("--renumbered", action="store_true", help="in any order of the qubits, on up to 8")
    about = "expectation values, 1, -1 or 0, of Pauli rows such as +XZI or X0*Z1 (with a minus: after --)"
    expectation = command("expectation", about, actions.expectation, file=False)
    expectation.add_argument("file", metavar="FILE")
    expectation.add_argument("rows", nargs="+", metavar="ROW")
    return top


def _with_out(made: argparse.ArgumentParser) -> None:
    made.add_argument("-o", "--out", default="-", metavar="FILE", help="the picture to write: .svg, .png or .pdf")


def main(arguments: "list[str] | None" = None) -> int:
    """Runs the command, and answers its exit status."""
    given = vars(parser().parse_args(arguments))
    given.pop("command")
    action = given.pop("action")
    _interruptible()
    try:
        status = action(**given)
        sys.stdout.flush()
        return status
    except Refusal as refusal:
        return _said(f"refused {refusal.number}: {refusal.where or TEXTS.get(refusal.number, refusal.text)}", 1)
    except KeyboardInterrupt:
        return _said("interrupted", 130)
    except BrokenPipeError:  # nobody reads on, as in `sukhlent job FILE | head`
        _let_go()
        return 0
    except Unwritten as error:
        return _said(str(error), 2)
    except OSError as error:  # standard output or a file cannot be written
        if error.errno in (errno.ENOSPC, errno.EIO, errno.EBADF) and error.filename is None:
            _let_go()
        return _said(f"{error.filename or 'standard output'}: {error.strerror}", 2)
    except (Trouble, ValueError) as trouble:
        return _said(str(trouble), 2)


def _interruptible() -> None:
    """From here on an interrupt is a KeyboardInterrupt (starting.py has had it so far)."""
    if threading.current_thread() is threading.main_thread():
        signal.signal(signal.SIGINT, signal.default_int_handler)


def _said(what: str, status: int) -> int:
    print(f"sukhlent: {what}", file=sys.stderr)
    return status


def _let_go() -> None:
    """Nothing more goes to standard output, also not what is left in its buffer."""
    os.dup2(os.open(os.devnull, os.O_WRONLY), sys.stdout.fileno())


if __name__ == "__main__":
    sys.exit(main())
