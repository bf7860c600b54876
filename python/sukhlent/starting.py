"""What must be there before the package can start: Python 3.9 and the engine's library. Where one is missing, `import
sukhlent` raises ImportError; the command ends with one line and status 2. Any Python 3 reads this file."""

import os
import signal
import sys


def _as_command():
    """Whether this Python was started for the command: as `python -m sukhlent`, or by an installed `sukhlent`."""
    started = getattr(sys, "orig_argv", None)  # from Python 3.10 on
    if sys.argv[:1] == ["-m"]:
        return started is None or "sukhlent" in started
    return bool(sys.argv) and os.path.basename(sys.argv[0]) == "sukhlent"


def stop(why):
    """Raises ImportError, or ends the command."""
    if _as_command():
        sys.stderr.write("sukhlent: %s\n" % why)
        sys.exit(2)
    raise ImportError(why)


def _interrupted(number, frame):
    """Ends the command while it still starts; from then on command.py does."""
    os.write(2, b"sukhlent: interrupted\n")
    os._exit(130)


if _as_command():
    signal.signal(signal.SIGINT, _interrupted)

if sys.version_info < (3, 9):
    stop("this needs Python 3.9 or later, and is run by Python %d.%d" % sys.version_info[:2])

try:
    from . import library as _library  # noqa: F401
except ImportError as _error:
    stop(str(_error))
