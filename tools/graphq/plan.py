"""Plans, and what was spent on a query."""

from __future__ import annotations

import html
import re
from dataclasses import dataclass

from .result import Result

_PIPELINE = re.compile(rb"pipeline (?P<number>[0-9]+) chunks (?P<chunks>[0-9]+) columns (?P<columns>[0-9]+)\Z")


@dataclass(frozen=True)
class Plan:
    """How a query is gone through, by the lines that docs/language.md tells."""

    lines: list[str]

    @property
    def alternatives(self) -> list[list[str]]:
        """The steps of each alternative."""
        found: list[list[str]] = []
        for line in self.lines:
            if re.match(r"alternatives [0-9]+\Z", line):
                break
            if re.match(r"alternative [0-9]+\Z", line):
                found.append([])
            else:
                found[-1].append(line)
        return found

    def __str__(self) -> str:
        return "\n".join(self.lines)

    def _repr_html_(self) -> str:
        return f"<pre>{html.escape(str(self))}</pre>"


@dataclass(frozen=True)
class Pipeline:
    """What was spent on one plan: in how many chunks its matches came, and how many columns were held for it."""

    number: int
    chunks: int
    columns: int


@dataclass(frozen=True)
class Profile:
    """A result, and what was spent on it."""

    pipelines: list[Pipeline]
    result: Result

    def __str__(self) -> str:
        return "\n".join(f"pipeline {one.number} chunks {one.chunks} columns {one.columns}" for one in self.pipelines)

    def _repr_html_(self) -> str:
        return f"<pre>{html.escape(str(self))}</pre>{self.result._repr_html_()}"


def pipeline_of(lines: list[bytes], number: int) -> Pipeline | None:
    """The pipeline with this number that the first of some lines is, where more follow."""
    match = _PIPELINE.match(lines[0]) if len(lines) > 1 else None
    if match is None or int(match["number"]) != number:
        return None
    return Pipeline(number, int(match["chunks"]), int(match["columns"]))
