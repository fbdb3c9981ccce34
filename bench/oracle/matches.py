"""All matches of a pattern, found by trying each relationship, at a node that is bound those at it, and each node."""

from __future__ import annotations

from collections.abc import Iterator

from .errors import Effort
from .graph import Edge, Graph, Node, Relationship, Value
from .patterns import Hop, Pattern, Variable
from .syntax import Arrow
from .values import equal

Match = dict[Variable, Value]

# What is done with a match takes longer than a step of the search.
STEPS_OF_MATCH = 10


def all_matches(graph: Graph, pattern: Pattern, effort: Effort) -> list[Match]:
    """The matches of a pattern, each once for each way in which its trails can be walked."""
    return list(Search(graph, pattern, effort).matches())


def ways(hop: Hop, edge: Edge) -> list[tuple[Node, Node]]:
    """The nodes at the left and at the right with which a relationship fits its arrow."""
    forward, backward = (edge.source, edge.target), (edge.target, edge.source)
    match hop.arrow:
        case Arrow.RIGHT:
            return [forward]
        case Arrow.LEFT:
            return [backward]
    return [forward] if forward == backward else [forward, backward]


def by_ends(edges: list[Edge]) -> dict[Node, list[Edge]]:
    """Relationships by the nodes at which they are."""
    found: dict[Node, list[Edge]] = {}
    for edge in edges:
        for node in {edge.source, edge.target}:
            found.setdefault(node, []).append(edge)
    return found


class Search:
    """Binds the variables of a pattern one by one, and takes each back when all was tried with it.

    What binds a variable yields once where it can be bound, and unbinds it behind.
    """

    def __init__(self, graph: Graph, pattern: Pattern, effort: Effort) -> None:
        self.graph = graph
        self.pattern = pattern
        self.effort = effort
        self.match: Match = {}
        self.used: set[tuple[int, Relationship]] = set()
        # Each node once, in order; a dictionary, since it is asked whether it has a node.
        self.nodes = {
            variable: {node: None for node in graph.all_nodes if self.fits_node(variable, node)}
            for variable in pattern.nodes
        }
        self.edges = {
            hop.variable: [edge for edge in graph.edges if self.fits_hop(hop, edge.relationship)]
            for hop in pattern.hops + pattern.trails
        }
        self.edges_at = {variable: by_ends(edges) for variable, edges in self.edges.items()}

    def fits_node(self, variable: Variable, node: Node) -> bool:
        """Whether a node has all labels of a variable, and what its maps ask."""
        labels = self.graph.nodes[node.table].labels
        wanted = self.pattern.labels[variable]
        return all(label in labels for label in wanted) and self.has_entries(variable, node)

    def fits_hop(self, hop: Hop, relationship: Relationship) -> bool:
        """Whether a relationship has one of the types of its pattern, and what its map asks."""
        kind = self.graph.relationships[relationship.table].type
        is_of_type = not hop.types or kind in hop.types
        return is_of_type and self.has_entries(hop.variable, relationship)

    def has_entries(self, variable: Variable, entity: Node | Relationship) -> bool:
        """Whether all entries of the maps of a variable hold."""
        return all(
            equal(self.graph.property(entity, entry.key), entry.literal.value) is True
            for entry in self.pattern.entries
            if entry.variable == variable
        )

    def matches(self) -> Iterator[Match]:
        """The matches: relationships are bound first, then trails, then the nodes that are left."""
        for _ in self.bound_hops(self.pattern.hops):
            for _ in self.walked_trails(self.pattern.trails):
                for _ in self.bound_nodes(self.pattern.nodes):
                    self.effort.spend(STEPS_OF_MATCH)
                    yield dict(self.match)

    def bound_hops(self, hops: list[Hop]) -> Iterator[None]:
        """Binds relationship patterns in all ways."""
        if not hops:
            yield
            return
        hop = hops[0]
        for edge in self.edges_for(hop):
            self.effort.spend()
            for left, right in ways(hop, edge):
                for _ in self.with_node(hop.left, left):
                    for _ in self.with_node(hop.right, right):
                        for _ in self.taken(hop, edge.relationship):
                            self.match[hop.variable] = edge.relationship
                            yield from self.bound_hops(hops[1:])
                            del self.match[hop.variable]

    def edges_for(self, hop: Hop) -> list[Edge]:
        """The relationships that a pattern may have: where an end is bound, those at its node."""
        for end in (hop.left, hop.right):
            node = self.match.get(end)
            if isinstance(node, Node):
                return self.edges_at[hop.variable].get(node, [])
        return self.edges[hop.variable]

    def with_node(self, variable: Variable, node: Node) -> Iterator[None]:
        """Binds a node variable, where it is this node or may become it."""
        if variable in self.match:
            if self.match[variable] == node:
                yield
        elif node in self.nodes[variable]:
            self.match[variable] = node
            yield
            del self.match[variable]

    def taken(self, hop: Hop, relationship: Relationship) -> Iterator[None]:
        """Takes a relationship, where the clause has not taken it before."""
        key = hop.clause, relationship
        if key not in self.used:
            self.used.add(key)
            yield
            self.used.remove(key)

    def walked_trails(self, trails: list[Hop]) -> Iterator[None]:
        """Walks trails in all ways, each from where its arrow starts."""
        if not trails:
            yield
            return
        trail = trails[0]
        start = self.match.get(trail.start)
        for node in [start] if isinstance(start, Node) else self.nodes[trail.start]:
            self.effort.spend()
            for _ in self.with_node(trail.start, node):
                for end in self.walks(trail, node, 0):
                    for _ in self.with_node(trail.end, end):
                        yield from self.walked_trails(trails[1:])

    def walks(self, trail: Hop, node: Node, length: int) -> Iterator[Node]:
        """The ends of all walks that go on from a node, behind so many relationships."""
        assert trail.trail is not None
        low, high = trail.trail
        if length >= low:
            yield node
        if length == high:
            return
        for edge in self.edges_at[trail.variable].get(node, []):
            self.effort.spend()
            if edge.source == node:
                for _ in self.taken(trail, edge.relationship):
                    yield from self.walks(trail, edge.target, length + 1)

    def bound_nodes(self, variables: list[Variable]) -> Iterator[None]:
        """Binds the node variables that are not bound yet in all ways."""
        if not variables:
            yield
        elif variables[0] in self.match:
            yield from self.bound_nodes(variables[1:])
        else:
            for node in self.nodes[variables[0]]:
                self.effort.spend()
                for _ in self.with_node(variables[0], node):
                    yield from self.bound_nodes(variables[1:])
