"""The alternatives of a pattern: the ways to give it tables and directions that agree."""

from __future__ import annotations

from collections.abc import Iterator
from dataclasses import dataclass
from itertools import islice, product

from .errors import Effort
from .graph import Graph, Node, Relationship
from .matches import Match
from .patterns import Hop, Pattern, Variable
from .syntax import Arrow

MOST = 512


@dataclass(frozen=True)
class Alternative:
    """A table for each node variable; for each relationship one, and if it is read backward."""

    readings: tuple[tuple[int, bool], ...]
    tables: tuple[int, ...]


def alternatives_of(graph: Graph, pattern: Pattern, effort: Effort) -> list[Alternative]:
    """The alternatives in their order, but at most one more than a query may have.

    They are ordered by the readings of the relationship patterns in text order, forward before
    backward, and then by the tables of the node variables in text order.
    """
    return list(islice(Choices(graph, pattern, effort).alternatives(), MOST + 1))


def alternative_of(graph: Graph, pattern: Pattern, match: Match) -> Alternative:
    """The alternative in which a match of a pattern lies."""
    readings = tuple(reading_of(graph, hop, match) for hop in pattern.hops)
    nodes = [match[variable] for variable in pattern.nodes]
    return Alternative(readings, tuple(node.table for node in nodes if isinstance(node, Node)))


def reading_of(graph: Graph, hop: Hop, match: Match) -> tuple[int, bool]:
    """The table of a relationship, and whether it is read backward; an undirected loop is not."""
    relationship = match[hop.variable]
    assert isinstance(relationship, Relationship)
    edge = graph.edge_of[relationship]
    is_forward = (edge.source, edge.target) == (match[hop.left], match[hop.right])
    return relationship.table, hop.arrow is Arrow.LEFT or not is_forward


class Choices:
    """Gives each relationship pattern a reading, and then each node that is left a table."""

    def __init__(self, graph: Graph, pattern: Pattern, effort: Effort) -> None:
        self.graph = graph
        self.pattern = pattern
        self.effort = effort
        self.allowed = {
            variable: [
                number
                for number, table in enumerate(graph.nodes)
                if set(labels) <= set(table.labels)
            ]
            for variable, labels in pattern.labels.items()
        }

    def alternatives(self) -> Iterator[Alternative]:
        """All alternatives."""
        for readings, tables in self.choices(self.pattern.hops, {}):
            left = [variable for variable in self.pattern.nodes if variable not in tables]
            for chosen in product(*(self.allowed[variable] for variable in left)):
                whole = tables | dict(zip(left, chosen, strict=True))
                yield Alternative(readings, tuple(whole[node] for node in self.pattern.nodes))

    def choices(
        self, hops: list[Hop], tables: dict[Variable, int]
    ) -> Iterator[tuple[tuple[tuple[int, bool], ...], dict[Variable, int]]]:
        """The readings of relationship patterns, each with the tables of the nodes at the ends."""
        if not hops:
            yield (), tables
            return
        for reading, left, right in self.readings(hops[0]):
            self.effort.spend()
            more = {**tables, hops[0].left: left}
            agree = tables.get(hops[0].left, left) == left
            agree &= more.setdefault(hops[0].right, right) == right
            if agree:
                for others, whole in self.choices(hops[1:], more):
                    yield (reading, *others), whole

    def readings(self, hop: Hop) -> Iterator[tuple[tuple[int, bool], int, int]]:
        """The readings of one relationship pattern, with the tables at its left and its right."""
        for number, table in enumerate(self.graph.relationships):
            if hop.types and table.type not in hop.types:
                continue
            for backward in (False, True):
                if hop.arrow is (Arrow.RIGHT if backward else Arrow.LEFT):
                    continue
                ends = (table.target, table.source) if backward else (table.source, table.target)
                if ends[0] in self.allowed[hop.left] and ends[1] in self.allowed[hop.right]:
                    yield (number, backward), *ends
