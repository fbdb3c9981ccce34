"""What each match gives, a row, a fault or nothing, and what optional clauses make of it."""

from __future__ import annotations

from dataclasses import dataclass, field

from .alternatives import Alternative, alternative_of
from .binder import Bound, OptionalClause
from .errors import Effort, Fault
from .expressions import Evaluator
from .graph import Graph, Value
from .matches import Match, all_matches
from .patterns import Pattern, Variable
from .syntax import Expression

Key = tuple[Value, ...]


@dataclass(frozen=True)
class Outcome:
    """The outcome of one match: a fault, or the values of the columns and of the sort items."""

    alternative: Alternative
    fault: str | None
    columns: list[Value] = field(default_factory=list)
    keys: list[Value] = field(default_factory=list)


@dataclass(frozen=True)
class MarkedRow:
    """A value for each variable so far, and the fault that marks the row, if one does."""

    row: Match
    fault: str | None


def is_dropped_or_faults(
    graph: Graph, conditions: list[Expression], row: Match
) -> tuple[bool, str | None]:
    """Whether a conjunct is false or null; and the first fault in text order where none is."""
    evaluator, fault = Evaluator(graph, row), None
    for condition in conditions:
        try:
            value = evaluator.value(condition)
        except Fault as first:
            fault = fault or first.name
            continue
        if value is None or value is False:
            return True, None
        if value is not True:
            fault = fault or "Kind"
    return False, fault


def keys_of(matches: list[Match], shared: list[Variable]) -> set[Key]:
    """The different values that matches have at some variables."""
    return {tuple(match[variable] for variable in shared) for match in matches}


class Answerer:
    """Goes through all matches of a bound query."""

    def __init__(self, graph: Graph, bound: Bound, effort: Effort) -> None:
        self.graph = graph
        self.bound = bound
        self.effort = effort
        self.test_keys = [
            keys_of(self.matches(test.pattern), [*test.pattern.names]) for test in bound.tests
        ]
        self.optional_matches = [self.matches(clause.pattern) for clause in bound.optionals]

    def matches(self, pattern: Pattern) -> list[Match]:
        """All matches of a pattern by itself."""
        return all_matches(self.graph, pattern, self.effort)

    def outcomes(self) -> list[Outcome]:
        """The outcomes of all matches that are not dropped, in any order."""
        found = []
        for match in self.matches(self.bound.pattern):
            if not self.passes_tests(match):
                continue
            dropped, fault = is_dropped_or_faults(self.graph, self.bound.conditions, match)
            if not dropped:
                alternative = alternative_of(self.graph, self.bound.core, match)
                for row in self.behind_optionals(MarkedRow(match, fault)):
                    found.append(self.outcome(alternative, row))
        return found

    def passes_tests(self, match: Match) -> bool:
        """Whether all tests of paths are true of a match."""
        return all(
            (tuple(match[name] for name in test.pattern.names) in keys) == test.wanted
            for test, keys in zip(self.bound.tests, self.test_keys, strict=True)
        )

    def behind_optionals(self, row: MarkedRow) -> list[MarkedRow]:
        """What the optional clauses make of a row, one after another."""
        rows, known = [row], set(self.bound.pattern.variables)
        for clause, matches in zip(self.bound.optionals, self.optional_matches, strict=True):
            shared = [node for node in clause.pattern.nodes if node in known]
            rows = [new for old in rows for new in self.behind(clause, matches, shared, old)]
            known.update(clause.pattern.variables)
        return rows

    def behind(
        self, clause: OptionalClause, matches: list[Match], shared: list[Variable], old: MarkedRow
    ) -> list[MarkedRow]:
        """What one optional clause puts in the place of a row."""
        if old.fault is not None:
            return [old]
        found = []
        for match in matches:
            self.effort.spend()
            if all(match[variable] == old.row[variable] for variable in shared):
                row = old.row | match
                dropped, fault = is_dropped_or_faults(self.graph, clause.conditions, row)
                if not dropped:
                    found.append(MarkedRow(row, fault))
        nulls: Match = dict.fromkeys(clause.pattern.variables)
        return found or [MarkedRow(nulls | old.row, None)]

    def outcome(self, alternative: Alternative, row: MarkedRow) -> Outcome:
        """The outcome of a row behind all clauses."""
        if row.fault is not None:
            return Outcome(alternative, row.fault)
        evaluator = Evaluator(self.graph, row.row)
        try:
            columns = [evaluator.value(column.expression) for column in self.bound.columns]
            keys = [evaluator.value(key) for key in self.bound.keys]
        except Fault as fault:
            return Outcome(alternative, fault.name)
        return Outcome(alternative, None, columns, keys)
