"""Circuits of Clifford gates, measurements and resets, read from the texts of other tools."""

from .model import Circuit, CircuitResult
from .reader import read_circuit

__all__ = ["Circuit", "CircuitResult", "read_circuit"]
