"""Finds the program graphq."""

from __future__ import annotations

from graphq_tools.outcome import Refusal
from graphq_tools.program import found_program

from .errors import NotInstalled


def program_of(asked: str | None) -> str:
    """The program to run: the one asked for, that of the variable GRAPHQ, that of the package, or the one of these sources."""
    try:
        return found_program(asked)
    except Refusal as refusal:
        raise NotInstalled(str(refusal)) from refusal
