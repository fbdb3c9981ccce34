"""Whether a query keeps, or goes through, more rows than it may: where the reply is TooManyRows."""

from __future__ import annotations

from collections import Counter, defaultdict
from dataclasses import dataclass

from .alternatives import Alternative, alternative_of
from .binder import Bound
from .errors import Effort
from .expressions import Evaluator
from .graph import Graph
from .matches import Match, all_matches
from .names import names_in
from .outcomes import Answerer, Outcome
from .patterns import Pattern, Variable
from .safety import Tables, may_fault
from .syntax import Expression
from .values import rank


@dataclass(frozen=True)
class Part:
    """A part of a pattern that is joined to what stands before it, with the variables of both."""

    pattern: Pattern
    earlier: set[Variable]

    @property
    def own(self) -> set[Variable]:
        """The variables of the part."""
        return {*self.pattern.variables}

    def counts(self, variables: set[Variable]) -> bool:
        """Whether a test of these variables counts for the part: all are in it, not all before."""
        return variables <= self.own and not variables <= self.earlier


def parts_of(pattern: Pattern, order: str) -> list[Part]:
    """The parts of a pattern in an order of going through it."""
    groups = paths_apart(pattern) if order == "given" else components(pattern)
    return [part_of(pattern, *group) for group in groups]


def part_of(pattern: Pattern, own: set[Variable], earlier: set[Variable]) -> Part:
    """The part of a pattern that has these variables."""
    part = Part(
        Pattern(
            labels={node: labels for node, labels in pattern.labels.items() if node in own},
            hops=[hop for hop in pattern.hops if hop.variable in own],
        ),
        earlier,
    )
    part.pattern.entries += [
        entry for entry in pattern.entries if part.counts({entry.variable})
    ]
    return part


def paths_apart(pattern: Pattern) -> list[tuple[set[Variable], set[Variable]]]:
    """The variables of each later path that begins apart from those before, and theirs."""
    found = []
    earlier: set[Variable] = set()
    for number, path in enumerate(pattern.paths):
        own = {*path, *(hop.variable for hop in pattern.hops if hop.path == number)}
        if number and path[0] not in earlier:
            found.append((own, set(earlier)))
        earlier |= own
    return found


def components(pattern: Pattern) -> list[tuple[set[Variable], set[Variable]]]:
    """The same of what relationships connect, but for what is connected with the first node."""
    groups: list[set[Variable]] = [{node} for node in pattern.nodes]
    for hop in pattern.hops:
        ends = [group for group in groups if hop.left in group or hop.right in group]
        ends[0].update({hop.variable}, *ends[1:])
        groups = [group for group in groups if not any(group is other for other in ends[1:])]
    return [(group, set().union(*groups[:at])) for at, group in enumerate(groups) if at]


def is_heavy_part(
    graph: Graph,
    pattern: Pattern,
    part: Part,
    conditions: list[Expression],
    turns: list[Alternative],
    most: int,
    effort: Effort,
) -> bool:
    """Whether in some alternative a part has more assignments than this."""
    matches: dict[Alternative, list[Match]] = defaultdict(list)
    for match in all_matches(graph, part.pattern, effort):
        matches[alternative_of(graph, part.pattern, match)].append(match)
    tests = [test for test in conditions if part.counts({*names_in(test)})]
    for turn in {restricted(turn, pattern, part.pattern) for turn in turns}:
        tables = tables_in(graph, part.pattern, turn)
        sure = [test for test in tests if not may_fault(test, tables)]
        if sum(passes(graph, sure, match) for match in matches[turn]) > most:
            return True
    return False


def restricted(alternative: Alternative, whole: Pattern, part: Pattern) -> Alternative:
    """What an alternative says of a part of its pattern."""
    readings = zip(whole.hops, alternative.readings, strict=True)
    tables = zip(whole.nodes, alternative.tables, strict=True)
    return Alternative(
        tuple(reading for hop, reading in readings if hop in part.hops),
        tuple(table for node, table in tables if node in part.labels),
    )


def tables_in(graph: Graph, pattern: Pattern, alternative: Alternative) -> Tables:
    """The table of each variable."""
    nodes = zip(pattern.nodes, alternative.tables, strict=True)
    hops = zip(pattern.hops, alternative.readings, strict=True)
    return {node: graph.nodes[table] for node, table in nodes} | {
        hop.variable: graph.relationships[table] for hop, (table, _) in hops
    }


def passes(graph: Graph, tests: list[Expression], match: Match) -> bool:
    """Whether all tests are true of a match; none of them can fault."""
    evaluator = Evaluator(graph, match)
    return all(evaluator.value(test) is True for test in tests)


class Limits:
    """Looks at a query that keeps at most so many rows, in one order of going through it."""

    def __init__(
        self, graph: Graph, bound: Bound, answerer: Answerer, most: int, order: str
    ) -> None:
        self.graph = graph
        self.bound = bound
        self.answerer = answerer
        self.most = most
        self.order = order

    def are_passed(self, outcomes: list[Outcome]) -> bool:
        """Whether the reply to a query with these outcomes may be TooManyRows, and never rows."""
        turns = self.turns(outcomes)
        return self.kept(outcomes) > self.most or (
            bool(turns)
            and (self.has_heavy_test() or self.has_heavy_clause() or self.has_heavy_part(turns))
        )

    def turns(self, outcomes: list[Outcome]) -> list[Alternative]:
        """The alternatives whose turn comes: those before have not the rows that are looked at."""
        looks_at = self.bound.query.looks_at
        if looks_at is None:
            return self.bound.alternatives
        rows = Counter(outcome.alternative for outcome in outcomes if outcome.fault is None)
        found, before = [], 0
        for alternative in self.bound.alternatives:
            if before < looks_at:
                found.append(alternative)
            before += rows[alternative]
        return found

    def kept(self, outcomes: list[Outcome]) -> int:
        """How many rows are kept."""
        query = self.bound.query
        rows = [outcome.columns for outcome in outcomes if outcome.fault is None]
        if query.distinct:
            return len({tuple(map(rank, row)) for row in rows})
        return len(rows) if query.limit is None else min(len(rows), query.skip + query.limit)

    def has_heavy_test(self) -> bool:
        """Whether the path of a test has too many different lists of shared nodes."""
        return any(len(keys) > self.most for keys in self.answerer.test_keys)

    def has_heavy_clause(self) -> bool:
        """Whether an optional clause by itself has too many matches, or a part of it."""
        for clause, matches in zip(
            self.bound.optionals, self.answerer.optional_matches, strict=True
        ):
            pattern = clause.pattern
            sizes = Counter(alternative_of(self.graph, pattern, match) for match in matches)
            if any(size > self.most for size in sizes.values()):
                return True
            if self.some_part_is_heavy(pattern, [], clause.alternatives):
                return True
        return False

    def has_heavy_part(self, turns: list[Alternative]) -> bool:
        """Whether a part of the MATCH clauses has too many assignments."""
        return self.some_part_is_heavy(self.bound.core, self.bound.conditions, turns)

    def some_part_is_heavy(
        self, pattern: Pattern, conditions: list[Expression], turns: list[Alternative]
    ) -> bool:
        """Whether a part of a pattern has too many assignments in one of these alternatives."""
        return any(
            is_heavy_part(
                self.graph, pattern, part, conditions, turns, self.most, self.answerer.effort
            )
            for part in parts_of(pattern, self.order)
        )
