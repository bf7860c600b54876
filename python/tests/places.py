"""Where things are in the clone, and programs run there."""

import os
import subprocess
import sys
from pathlib import Path

ROOT = Path(__file__).resolve().parents[2]


def program(name, text):
    """What a proved program prints of a text."""
    command = [str(ROOT / "target" / "bin" / name)]
    raw = text.encode("utf-8", "surrogateescape")
    return subprocess.run(command, input=raw, capture_output=True, check=True, timeout=60).stdout.decode()


def sukhlent(*arguments, text=""):
    """What the command of the clone answers: its status, what it prints, and its messages."""
    environment = {**os.environ, "PYTHONPATH": str(ROOT / "python")}
    command = [sys.executable, "-m", "sukhlent", *arguments]
    run = subprocess.run(command, input=text.encode(), capture_output=True, env=environment, timeout=60)
    return run.returncode, run.stdout.decode(), run.stderr.decode()
