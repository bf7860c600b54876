"""Stabilizer states on 1 to 64 qubits, held as graphs with one local Clifford per vertex by a proved engine.

>>> from sukhlent import State
>>> ring = State.graph(5, [(q, (q + 1) % 5) for q in range(5)])
>>> ring.measure("Z", 0, 0)
Measured(outcome=0, determined=False)
>>> ring.edges()
[(1, 2), (2, 3), (3, 4)]

docs/PYTHON.md is a tour with pictures, docs/RECIPES.md a page of short programs.
"""

from . import starting  # noqa: F401  first: says what is missing before anything needs it
from .answers import Equivalence, Image, Measured, PlotLine, Renumbered
from .circuits import Circuit, CircuitResult, read_circuit
from .codes import NAMES, code, images
from .jobs import Result, Step, generate, job_text, parse_job, run_job, run_step, run_steps
from .layouts import circle, grid, line
from .library import version
from .lists import GeneratorList
from .orbits import Orbit, edges_of, number_of, orbit
from .pictures import Unwritten
from .plots import plot_svg, read_table, table_of
from .refusals import TEXTS, Refusal
from .running import Ran, run_many
from .session import Session
from .shared import Group, Shared
from .state import State
from .stores import Store
from .texts import read_list, read_record, read_state

#: the version of the package and of the library in it
__version__ = version()

__all__ = [
    "Circuit", "CircuitResult", "Equivalence", "GeneratorList", "Group", "Image", "Measured", "NAMES", "Orbit", "PlotLine",
    "Ran", "Refusal", "Renumbered", "Result", "Session", "Shared", "State", "Step", "Store", "TEXTS", "Unwritten", "__version__",
    "circle", "code", "edges_of", "generate", "grid", "images", "job_text", "line", "number_of", "orbit", "parse_job",
    "plot_svg", "read_circuit", "read_list", "read_record", "read_state", "read_table", "run_job", "run_many", "run_step",
    "run_steps", "table_of", "version",
]  # fmt: skip
