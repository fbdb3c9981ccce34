"""Which replies to a query are permitted, and why another one is not."""

from __future__ import annotations

import re
from collections import Counter
from collections.abc import Iterable
from dataclasses import dataclass, field
from functools import cached_property

from .binder import Bound
from .errors import Effort
from .graph import Graph, Value
from .limits import Limits
from .outcomes import Answerer, Outcome
from .plans import end_of_plan
from .syntax import Query
from .values import Rank, escaped, rank, spelled

PIPELINE = re.compile(r"pipeline ([0-9]+) chunks [0-9]+ columns [0-9]+")
SHOWN = 20


@dataclass(frozen=True)
class Settings:
    """How a query is gone through, and how many rows it may keep."""

    order: str = "greedy"
    rows: int = 4_194_304


@dataclass(frozen=True)
class Row:
    """A row that may be listed: its text, and what ORDER BY goes by."""

    text: str
    keys: tuple[Rank, ...]


@dataclass(frozen=True)
class Listing:
    """The rows that are permitted: a window of all rows, arranged as ORDER BY allows."""

    header: str
    rows: list[Row]
    descending: tuple[bool, ...]
    skip: int
    size: int

    @cached_property
    def ties(self) -> list[list[str]]:
        """The rows in order; those with the same keys stand together, in any order."""
        arranged = self.rows
        for place, descending in reversed([*enumerate(self.descending)]):
            arranged = sorted(arranged, key=lambda row: row.keys[place], reverse=descending)
        found: list[list[str]] = []
        last = None
        for row in arranged:
            if row.keys != last:
                found.append([])
            found[-1].append(row.text)
            last = row.keys
        return found

    def objection(self, reply: list[str]) -> str | None:
        """Why a reply is not permitted, or nothing."""
        if reply[0] != self.header:
            return f"the header is {self.header!r}"
        if len(reply) < 2 or reply[-1] != f"rows {len(reply) - 2}":
            return "the last line does not count the rows"
        rows = reply[1:-1]
        if len(rows) != self.size:
            return f"there are {self.size} rows"
        start = 0
        for tie in self.ties:
            first, behind = (max(at - self.skip, 0) for at in (start, start + len(tie)))
            wrong = Counter(rows[first:behind]) - Counter(tie)
            if wrong:
                return f"the row {next(iter(wrong))!r} stands where it may not, or too often"
            start += len(tie)
        return None

    def arranged(self, rows: list[str]) -> list[str]:
        """Rows in an order that is permitted, where there is one."""
        places = {text: at for at, tie in enumerate(self.ties) for text in tie}
        return sorted(rows, key=lambda row: places.get(row, 0))

    def lines(self) -> list[str]:
        """What is permitted, for a reader."""
        window = f"{self.size} of these rows" + (f" behind {self.skip}" if self.skip else "")
        ordered = "in the order of these groups" if self.descending else "in any order"
        groups = [f"  {tie[:SHOWN]}{' ..' if len(tie) > SHOWN else ''}" for tie in self.ties]
        return [f"header {self.header!r}", f"{window}, {ordered}:", *groups[:SHOWN]]


@dataclass(frozen=True)
class Permitted:
    """The replies that are permitted: whole ones, those with rows, and those that end as a plan."""

    whole: list[list[str]] = field(default_factory=list)
    listing: Listing | None = None
    is_profile: bool = False
    plan_end: list[str] | None = None

    def objection(self, reply: list[str]) -> str | None:
        """Why a reply is not permitted, or nothing."""
        if reply in self.whole:
            return None
        if not reply:
            return "there is no reply"
        if self.plan_end is not None:
            end = end_of_plan(reply)
            return None if end == self.plan_end else "the plan ends otherwise"
        if reply[0].startswith("error: ") or self.listing is None:
            return "it is none of these"
        return self.listing.objection(self.without_pipelines(reply))

    def without_pipelines(self, reply: list[str]) -> list[str]:
        """A reply without the numbered lines that `:profile` puts before it."""
        number = 0
        while self.is_profile and number < len(reply) - 1:
            found = PIPELINE.fullmatch(reply[number])
            if found is None or int(found[1]) != number + 1:
                break
            number += 1
        return reply[number:]

    def lines(self) -> list[str]:
        """What is permitted, for a reader."""
        listed = self.listing.lines() if self.listing else []
        planned = ["a plan with the last lines", *self.plan_end] if self.plan_end else []
        return [*(line for whole in self.whole for line in whole), *listed, *planned]


def refusal(line: str) -> list[str]:
    """The reply of a refusal, in which a name may have to be escaped."""
    return [f"error: {escaped(line)}"]


def permitted_to(graph: Graph, bound: Bound, settings: Settings, effort: Effort) -> Permitted:
    """The replies to a bound query that are permitted."""
    answerer = Answerer(graph, bound, effort)
    outcomes = answerer.outcomes()
    too_many = Limits(graph, bound, answerer, settings.rows, settings.order).are_passed(outcomes)
    faults = sorted({outcome.fault for outcome in outcomes if outcome.fault is not None})
    rows = [outcome for outcome in outcomes if outcome.fault is None]
    looks_at = bound.query.looks_at
    if looks_at == 0:
        faults = []
    whole = [refusal(f"Fault {fault}") for fault in faults]
    if too_many:
        whole.append(refusal(f"TooManyRows {settings.rows}"))
    are_rows_enough = not faults or (looks_at is not None and len(rows) >= looks_at)
    listing = listing_of(graph, bound, rows) if are_rows_enough and not too_many else None
    return Permitted(whole, listing)


def listing_of(graph: Graph, bound: Bound, outcomes: Iterable[Outcome]) -> Listing:
    """The listing of outcomes that are rows."""
    query = bound.query
    if query.distinct:
        outcomes = {tuple(map(rank, each.columns)): each for each in outcomes}.values()
    rows = [
        Row(line_of(graph, each.columns), tuple(map(rank, each.keys))) for each in outcomes
    ]
    return Listing(
        "\t".join(escaped(column.name) for column in bound.columns),
        rows,
        tuple(item.descending for item in query.order),
        query.skip,
        window_size(query, len(rows)),
    )


def line_of(graph: Graph, values: list[Value]) -> str:
    """The line of a row."""
    return "\t".join(spelled(graph, value) for value in values)


def window_size(query: Query, rows: int) -> int:
    """How many of so many rows SKIP and LIMIT leave."""
    left = max(0, rows - query.skip)
    return left if query.limit is None else min(left, query.limit)
