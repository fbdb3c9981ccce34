"""The last lines of a plan, which follow from the query alone: how many alternatives there are."""

from __future__ import annotations

import re
from collections.abc import Iterator

from .binder import Bound
from .patterns import Pattern

LAST_LINE = re.compile(r"alternatives [0-9]+")
BEHIND = re.compile(
    r"exists [0-9]+ alternatives [0-9]+|optional [0-9]+ alternatives [0-9]+"
    r"|trail #[0-9]+ (?:left|right|both)|cost [0-9]+( [0-9]+| -)+"
)


def plan_end(bound: Bound) -> list[str]:
    """The last lines of the reply to `:plan`, but for costs."""
    return [
        f"alternatives {len(bound.alternatives)}",
        *(
            f"exists {number} alternatives {len(test.alternatives)}"
            for number, test in enumerate(bound.tests, 1)
        ),
        *trail_lines(bound.pattern, bound.core),
        *(
            f"optional {number} alternatives {len(clause.alternatives)}"
            for number, clause in enumerate(bound.optionals, 1)
        ),
    ]


def trail_lines(pattern: Pattern, core: Pattern) -> Iterator[str]:
    """A line for each trail: which of its ends are known when its turn comes."""
    known = {*core.nodes}
    for trail in pattern.trails:
        assert isinstance(trail.variable, int)
        side = "right" if trail.left not in known else "left"
        if known.issuperset({trail.left, trail.right}):
            side = "both"
        yield f"trail #{trail.variable + 1} {side}"
        known |= {trail.left, trail.right}


def end_of_plan(lines: list[str]) -> list[str]:
    """The last lines of a reply to `:plan`, but for costs."""
    starts = [at for at, line in enumerate(lines) if LAST_LINE.fullmatch(line)]
    end = lines[starts[-1] :] if starts else lines
    return [line for line in end if not line.startswith("cost ")]
