"""What the pipelines of a query took, as `:profile` tells it, and to which part of the plan each of them belongs.

`:profile` has a line for each plan that was gone through, and none for a step: it does not tell the rows of a step.
"""

from __future__ import annotations

import re
from collections.abc import Sequence
from dataclasses import dataclass, field

from .steps import Plan, Step, counted

_LINE = re.compile(r"pipeline [0-9]+ chunks (?P<chunks>[0-9]+) columns (?P<columns>[0-9]+)\Z")
_COLUMNS = re.compile(r"columns (?P<columns>[0-9]+)\Z")
_BLANK = r"(?:\s|//[^\n]*(?:\n|\Z)|/\*.*?\*/)*"
_PROFILE = re.compile(rf"{_BLANK}:{_BLANK}profile\b", re.IGNORECASE | re.DOTALL)
_LIMIT = re.compile(r"\blimit\b", re.IGNORECASE)


@dataclass(frozen=True)
class Pipeline:
    """In how many chunks the matches of a plan came, and how many columns were held for it."""

    chunks: int
    columns: int

    def __str__(self) -> str:
        return f"{counted(self.chunks, 'chunk')}, {counted(self.columns, 'column')}"


@dataclass(frozen=True)
class Spent:
    """The pipelines of the alternatives that were gone through, each with its joined parts first, and of what came before them.

    `others` are those of the tests of paths and of the optional clauses, and all of them where it cannot be told which are whose.
    """

    rows: int
    others: list[Pipeline] = field(default_factory=list)
    alternatives: list[list[Pipeline]] = field(default_factory=list)


def profiled(statement: str) -> str | None:
    """The query that `:profile` stands before, or None where it does not."""
    match = _PROFILE.match(statement)
    return statement[match.end() :] if match else None


def _parts(steps: Sequence[Step]) -> int:
    """How many parts are joined in these steps, and in the steps of these parts."""
    return sum(1 + _parts(step.part) for step in steps if step.part)


def _columns(steps: Sequence[Step]) -> int | None:
    """How many columns the plan of an alternative says that it holds."""
    found = [match for step in steps if (match := _COLUMNS.match(step.text))]
    return int(found[-1]["columns"]) if found else None


def _shares(plan: Plan, pipelines: Sequence[Pipeline]) -> list[list[Pipeline]]:
    """The pipelines of each alternative that was gone through, from the first alternative and the first pipeline on."""
    shares, at = [], 0
    for steps in plan.alternatives:
        share = list(pipelines[at : at + 1 + _parts(steps)])
        if len(share) < 1 + _parts(steps) or share[-1].columns != _columns(steps):
            break
        shares.append(share)
        at += len(share)
    return shares


def read_spent(plan: Plan, lines: Sequence[str], rows: int, query: str) -> Spent:
    """Which pipeline belongs to which part of a plan.

    The alternatives come last. Without a LIMIT each of them is gone through, so they are counted from the end; and where
    there are neither tests of paths nor optional clauses nothing comes before them, so they are counted from the front.
    """
    found = [match for line in lines if (match := _LINE.match(line))]
    pipelines = [Pipeline(int(one["chunks"]), int(one["columns"])) for one in found]
    wanted = sum(1 + _parts(steps) for steps in plan.alternatives)
    if plan.beside and (_LIMIT.search(query) or len(pipelines) < wanted):
        return Spent(rows, pipelines)
    before = len(pipelines) - wanted if plan.beside else 0
    shares = _shares(plan, pipelines[before:])
    if sum(map(len, shares)) < len(pipelines) - before:
        return Spent(rows, pipelines)
    return Spent(rows, pipelines[:before], shares)
