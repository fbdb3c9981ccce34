"""The steps of a plan, as the reply to `:plan` has them."""

from __future__ import annotations

import re
from dataclasses import dataclass, field


@dataclass
class Step:
    """A step of a plan, and the steps of the part that it joins."""

    text: str
    part: list[Step] = field(default_factory=list)


def read_steps(lines: list[str]) -> list[Step]:
    """The steps of an alternative: the lines of a joined part follow two spaces further in."""
    top: list[Step] = []
    open_parts = [top]
    for line in lines:
        depth = (len(line) - len(line.lstrip(" "))) // 2
        step = Step(line.strip())
        del open_parts[depth + 1 :]
        open_parts[-1].append(step)
        open_parts.append(step.part)
    return top


@dataclass
class Plan:
    """A plan: the steps of each alternative with its costs, and the lines that are about trails, tests and clauses."""

    alternatives: list[list[Step]] = field(default_factory=list)
    costs: list[str] = field(default_factory=list)
    trails: list[str] = field(default_factory=list)
    beside: list[str] = field(default_factory=list)


def read_plan(lines: list[str]) -> Plan:
    """Reads the reply to `:plan`."""
    plan, own = Plan(), list[list[str]]()
    ended = False
    for line in lines:
        word = line.split(" ", 1)[0]
        if re.match(r"alternatives [0-9]+\Z", line):
            ended = True
        elif not ended and re.match(r"alternative [0-9]+\Z", line):
            own.append([])
        elif not ended and own:
            own[-1].append(line)
        elif word == "cost":
            plan.costs.append(" ".join(line.split(" ")[2:]))
        elif word == "trail":
            plan.trails.append(line)
        elif word in ("exists", "optional"):
            plan.beside.append(line)
    plan.alternatives = [read_steps(one) for one in own]
    return plan


def counted(count: int, what: str) -> str:
    """A number of things: `1 chunk`, `2 chunks`."""
    return f"{count:,} {what}" if count == 1 else f"{count:,} {what}s"
