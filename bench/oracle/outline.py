"""What a query has before anything of it is refused: its patterns, columns and expressions."""

from __future__ import annotations

from collections.abc import Iterator
from dataclasses import dataclass, replace
from itertools import count

from . import syntax
from .alternatives import Alternative, alternatives_of
from .errors import Effort
from .graph import Graph
from .names import names_in_exists, names_of_clause, variables_of
from .patterns import Hop, Pattern, as_relationships, core_of, pattern_of, pattern_of_path
from .syntax import Expression, Query


@dataclass(frozen=True)
class Column:
    """A column of the reply."""

    name: str
    expression: Expression


@dataclass(frozen=True)
class Place:
    """An expression of the text, and the names that it sees: variables, and in ORDER BY columns."""

    expression: Expression
    variables: frozenset[str]
    columns: frozenset[str]
    may_test_paths: bool


class Outline:
    """The parts of a query over a graph."""

    def __init__(self, graph: Graph, query: Query, effort: Effort) -> None:
        self.graph = graph
        self.query = query
        self.effort = effort
        self.clauses = query.clauses + query.optionals
        numbers = count()
        self.pattern = pattern_of(query.clauses, numbers)
        self.optionals = [pattern_of([clause], numbers) for clause in query.optionals]
        self.core = core_of(self.pattern)
        self.columns = self.columns_of()
        self.places = [*self.clause_places(), *self.item_places()]
        self.paths = [path for each in self.places for path in syntax.paths_in(each.expression)]
        self.path_patterns = [pattern_of_path(path, numbers) for path in self.paths]
        self.patterns = [self.pattern, *self.optionals, *self.path_patterns]

    def columns_of(self) -> list[Column]:
        """The columns, with their expressions as they are written."""
        found = []
        if self.query.star:
            named = [name for clause in self.clauses for name, _ in names_of_clause(clause)]
            found = [Column(name, syntax.Name(name)) for name in dict.fromkeys(named)]
        return found + [Column(item.name, item.expression) for item in self.query.items]

    def clause_places(self) -> list[Place]:
        """The conditions of all clauses."""
        found = []
        for number, clause in enumerate(self.clauses):
            if clause.condition is not None:
                seen = variables_of(self.clauses[: number + 1])
                may_test = number < len(self.query.clauses)
                found.append(Place(clause.condition, seen, frozenset(), may_test))
        return found

    def item_places(self) -> list[Place]:
        """The items of RETURN and those of ORDER BY."""
        seen = variables_of(self.clauses)
        names = frozenset(column.name for column in self.columns)
        return [
            *(Place(item.expression, seen, frozenset(), False) for item in self.query.items),
            *(Place(item.expression, seen, names, False) for item in self.query.order),
        ]

    def resolved(self, expression: Expression) -> Expression:
        """An expression of ORDER BY with the expressions of columns in the place of their names."""
        match expression:
            case syntax.Name():
                found = [each for each in self.columns if each.name == expression.name]
                return found[0].expression if found else expression
            case syntax.Call():
                arguments = tuple(map(self.resolved, expression.arguments))
                return syntax.Call(expression.function, arguments)
            case syntax.Parentheses():
                return syntax.Parentheses(self.resolved(expression.inside))
            case syntax.Logic():
                operands = tuple(map(self.resolved, expression.operands))
                return syntax.Logic(expression.operator, operands)
            case syntax.Not() | syntax.Sign():
                return replace(expression, operand=self.resolved(expression.operand))
            case syntax.Comparison() | syntax.Arithmetic():
                rest = tuple(
                    (operator, self.resolved(operand)) for operator, operand in expression.rest
                )
                return replace(expression, first=self.resolved(expression.first), rest=rest)
            case syntax.Tested():
                tests = tuple(
                    replace(test, text=self.resolved(test.text))
                    if isinstance(test, syntax.TextTest)
                    else test
                    for test in expression.tests
                )
                return syntax.Tested(self.resolved(expression.operand), tests)
        return expression

    def pattern_names(self) -> Iterator[tuple[str, str]]:
        """Each name in a pattern or in the path of an EXISTS, with what it names there."""
        for clause in self.clauses:
            yield from names_of_clause(clause)
            if clause.condition is not None:
                yield from names_in_exists(clause.condition)
        for place in self.item_places():
            yield from names_in_exists(place.expression)

    def calls(self) -> Iterator[syntax.Call]:
        """All calls in text order."""
        for place in self.places:
            for part in syntax.walk(place.expression):
                if isinstance(part, syntax.Call):
                    yield part

    def trails(self) -> list[Hop]:
        """All trails."""
        return [trail for pattern in [self.pattern, *self.optionals] for trail in pattern.trails]

    def alternatives_of(self, pattern: Pattern) -> list[Alternative]:
        """The alternatives of a pattern; trails count as relationships where they are in it."""
        return alternatives_of(self.graph, as_relationships(pattern), self.effort)
