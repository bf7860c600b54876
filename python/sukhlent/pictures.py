"""Pictures in files: SVG as it is, PNG and PDF through a converter that is there."""

from __future__ import annotations

import importlib.util
import shutil
import subprocess
from pathlib import Path

_KINDS = ("png", "pdf")


class Unwritten(OSError):
    """A picture that could not be written: no converter is there, or it failed.

    >>> Unwritten("no converter")
    Unwritten('no converter')
    """


def draw(svg: str, file: "str | Path") -> None:
    """Writes a drawing to a file, of the kind that its name ends with: .svg, .png or .pdf.

    >>> draw("<svg/>", "picture.gif")
    Traceback (most recent call last):
    ...
    ValueError: picture.gif: a picture is written as .svg, .png or .pdf
    """
    path = Path(file)
    kind = path.suffix[1:].lower()
    if kind in ("", "svg"):
        path.write_text(svg + "\n", encoding="utf-8")
    elif kind in _KINDS:
        path.write_bytes(_converted(svg, kind))
    else:
        raise ValueError(f"{file}: a picture is written as .svg, .png or .pdf")


def _converted(svg: str, kind: str) -> bytes:
    """The drawing as PNG or PDF, by the first converter that is there."""
    if importlib.util.find_spec("cairosvg"):
        import cairosvg  # type: ignore[import-not-found]

        return getattr(cairosvg, f"svg2{kind}")(bytestring=svg.encode())
    if shutil.which("rsvg-convert"):
        return _piped(["rsvg-convert", "-f", kind], svg)
    if shutil.which("inkscape"):
        return _piped(["inkscape", "--pipe", f"--export-type={kind}", "--export-filename=-"], svg)
    raise Unwritten(
        f"no converter from SVG to {kind.upper()} is there: install rsvg-convert (Debian's librsvg2-bin), inkscape or the"
        " Python package cairosvg, or write a .svg file"
    )


def _piped(command: list[str], svg: str) -> bytes:
    run = subprocess.run(command, input=svg.encode(), capture_output=True)
    if run.returncode != 0:
        raise Unwritten(f"{command[0]} failed: {run.stderr.decode(errors='replace').strip()}")
    return run.stdout
