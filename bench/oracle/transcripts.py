"""What a program wrote for a session, cut into the replies to its statements."""

from __future__ import annotations

import re

from .plans import BEHIND, LAST_LINE
from .replies import PIPELINE, Permitted

LAST_ROW = re.compile(r"rows [0-9]+")


def replies_of(text: str, statements: list[Permitted]) -> list[list[str]]:
    """The reply to each statement, by what is permitted to it; the last one has what is left."""
    *lines, rest = text.split("\n")
    lines += [rest] if rest else []
    found = []
    for permitted in statements:
        size = size_of_reply(lines, permitted)
        found.append(lines[:size])
        lines = lines[size:]
    if lines and found:
        found[-1] += lines
    return found


def size_of_reply(lines: list[str], permitted: Permitted) -> int:
    """How many of the next lines are the reply to a statement."""
    if not lines:
        return 0
    for whole in permitted.whole:
        if lines[: len(whole)] == whole:
            return len(whole)
    if lines[0].startswith("error: "):
        return 1
    if permitted.plan_end is not None:
        return size_of_plan(lines)
    header = 0
    while permitted.is_profile and header < len(lines) and PIPELINE.fullmatch(lines[header]):
        header += 1
    for at in range(header + 1, len(lines)):
        if LAST_ROW.fullmatch(lines[at]):
            return at + 1
    return len(lines)


def size_of_plan(lines: list[str]) -> int:
    """How many of the next lines are the reply to `:plan`."""
    last = next((at for at, line in enumerate(lines) if LAST_LINE.fullmatch(line)), len(lines) - 1)
    size = last + 1
    while size < len(lines) and BEHIND.fullmatch(lines[size]):
        size += 1
    return size
