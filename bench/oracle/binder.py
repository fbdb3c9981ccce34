"""What a query stands for over a graph, where nothing of it is refused."""

from __future__ import annotations

from collections.abc import Iterator
from dataclasses import dataclass

from . import syntax
from .alternatives import Alternative
from .errors import Effort
from .graph import Graph
from .outline import Column, Outline
from .patterns import Pattern, pattern_of_path
from .refusals import refuse
from .syntax import Expression, Query


@dataclass(frozen=True)
class PathTest:
    """A conjunct that asks for a match of a path, or that there be none."""

    wanted: bool
    pattern: Pattern
    alternatives: list[Alternative]


@dataclass(frozen=True)
class OptionalClause:
    """An optional clause: its pattern by itself, and the conjuncts of its condition."""

    pattern: Pattern
    conditions: list[Expression]
    alternatives: list[Alternative]


@dataclass(frozen=True)
class Bound:
    """A query that is not refused.

    The pattern is that of all MATCH clauses, and the alternatives are those of its core. Conditions
    are the conjuncts of these clauses, but for the tests of paths; in keys, the sort items, the
    names of columns are resolved.
    """

    query: Query
    pattern: Pattern
    core: Pattern
    alternatives: list[Alternative]
    conditions: list[Expression]
    tests: list[PathTest]
    optionals: list[OptionalClause]
    columns: list[Column]
    keys: list[Expression]


def bind(graph: Graph, query: Query, effort: Effort) -> Bound:
    """Binds a query, or refuses it."""
    outline = Outline(graph, query, effort)
    refuse(outline)
    conjuncts = [each for clause in query.clauses for each in syntax.conjuncts(clause.condition)]
    return Bound(
        query,
        outline.pattern,
        outline.core,
        outline.alternatives_of(outline.core),
        [each for each in conjuncts if syntax.path_test(each) is None],
        list(path_tests(outline, conjuncts)),
        list(optional_clauses(outline)),
        outline.columns,
        [outline.resolved(item.expression) for item in query.order],
    )


def path_tests(outline: Outline, conjuncts: list[Expression]) -> Iterator[PathTest]:
    """The conjuncts that ask for paths."""
    for conjunct in conjuncts:
        test = syntax.path_test(conjunct)
        if test is not None:
            pattern = pattern_of_path(test[1])
            yield PathTest(test[0], pattern, outline.alternatives_of(pattern))


def optional_clauses(outline: Outline) -> Iterator[OptionalClause]:
    """The optional clauses, each by itself."""
    for pattern, clause in zip(outline.optionals, outline.query.optionals, strict=True):
        conditions = syntax.conjuncts(clause.condition)
        yield OptionalClause(pattern, conditions, outline.alternatives_of(pattern))
