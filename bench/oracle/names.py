"""The names in a query, in the order of the text."""

from __future__ import annotations

from collections.abc import Iterable, Iterator

from . import syntax
from .syntax import Clause, Expression, Path


def names_of_clause(clause: Clause) -> Iterator[tuple[str, str]]:
    """The names in the patterns of a clause in text order, each with what it names."""
    for path in clause.paths:
        yield from names_of_path(path)


def variables_of(clauses: Iterable[Clause]) -> frozenset[str]:
    """The variables that clauses name."""
    return frozenset(name for clause in clauses for name, _ in names_of_clause(clause))


def names_of_path(path: Path) -> Iterator[tuple[str, str]]:
    """The names of a path in text order, each with what it names."""
    for pattern in path.patterns():
        if pattern.name is not None:
            is_node = isinstance(pattern, syntax.NodePattern)
            yield pattern.name, "node" if is_node else "relationship"


def names_in_exists(expression: Expression) -> Iterator[tuple[str, str]]:
    """The names in the paths of the EXISTS of an expression, each with what it names."""
    for path in syntax.paths_in(expression):
        yield from names_of_path(path)


def names_used(expression: Expression) -> list[str]:
    """The names that an expression has besides its parts, in text order."""
    match expression:
        case syntax.Name():
            return [expression.name]
        case syntax.Property():
            return [expression.variable]
        case syntax.Exists():
            return [name for name, _ in names_of_path(expression.path)]
    return []


def names_in(expression: Expression) -> set[str]:
    """The variables in an expression that has no EXISTS."""
    return {name for part in syntax.walk(expression) for name in names_used(part)}
