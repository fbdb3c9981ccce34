"""The variables of clauses, what the patterns ask of them, and the core that trails leave."""

from __future__ import annotations

from collections.abc import Iterable, Iterator
from dataclasses import dataclass, field, replace
from itertools import count

from .syntax import Arrow, Clause, Literal, NodePattern, Path, RelationshipPattern

# A variable is called by its name; one without a name has a number, which no other one has.
Variable = str | int


@dataclass(frozen=True)
class Hop:
    """A relationship pattern or a trail, between the node variables at its left and its right."""

    variable: Variable
    left: Variable
    right: Variable
    arrow: Arrow
    types: tuple[str, ...]
    trail: tuple[int, int] | None
    clause: int
    path: int

    @property
    def start(self) -> Variable:
        """Where the arrow starts; the left end where there is no arrow."""
        return self.right if self.arrow is Arrow.LEFT else self.left

    @property
    def end(self) -> Variable:
        """Where the arrow ends; the right end where there is no arrow."""
        return self.left if self.arrow is Arrow.LEFT else self.right


@dataclass(frozen=True)
class Entry:
    """An entry `key: literal` of the map of a variable."""

    variable: Variable
    key: str
    literal: Literal


@dataclass
class Pattern:
    """All patterns of some clauses in text order; pieces are the paths, cut at their trails."""

    labels: dict[Variable, list[str]] = field(default_factory=dict)
    hops: list[Hop] = field(default_factory=list)
    trails: list[Hop] = field(default_factory=list)
    entries: list[Entry] = field(default_factory=list)
    paths: list[list[Variable]] = field(default_factory=list)
    pieces: list[list[Variable]] = field(default_factory=list)

    @property
    def nodes(self) -> list[Variable]:
        """The node variables."""
        return list(self.labels)

    @property
    def variables(self) -> list[Variable]:
        """All variables that a match gives a value."""
        return [*self.labels, *(hop.variable for hop in self.hops)]

    @property
    def names(self) -> list[str]:
        """The node variables that have names."""
        return [variable for variable in self.labels if isinstance(variable, str)]

    def add_node(self, node: NodePattern, numbers: Iterator[int]) -> Variable:
        """Adds a node pattern, and tells its variable."""
        variable: Variable = next(numbers) if node.name is None else node.name
        self.labels.setdefault(variable, []).extend(node.labels)
        self.entries += [Entry(variable, key, literal) for key, literal in node.entries]
        return variable

    def add_path(self, path: Path, clause: int, numbers: Iterator[int]) -> None:
        """Adds a path of the clause with this number."""
        variables = [self.add_node(path.nodes[0], numbers)]
        self.pieces.append(variables[:])
        for pattern, node in zip(path.relationships, path.nodes[1:], strict=True):
            self.add_hop(pattern, node, variables, clause, numbers)
        self.paths.append(variables)

    def add_hop(
        self,
        pattern: RelationshipPattern,
        node: NodePattern,
        variables: list[Variable],
        clause: int,
        numbers: Iterator[int],
    ) -> None:
        """Adds a relationship pattern or a trail, and the node pattern to which it leads."""
        variable: Variable = next(numbers) if pattern.name is None else pattern.name
        self.entries += [Entry(variable, key, literal) for key, literal in pattern.entries]
        left = variables[-1]
        right = self.add_node(node, numbers)
        variables.append(right)
        place = clause, len(self.paths)
        hop = Hop(variable, left, right, pattern.arrow, pattern.types, pattern.trail, *place)
        if hop.trail is None:
            self.hops.append(hop)
            self.pieces[-1].append(right)
        else:
            self.trails.append(hop)
            self.pieces.append([right])


def pattern_of(clauses: Iterable[Clause], numbers: Iterator[int] | None = None) -> Pattern:
    """The pattern of clauses, whose variables without a name have the next numbers."""
    numbers = count() if numbers is None else numbers
    pattern = Pattern()
    for number, clause in enumerate(clauses):
        for path in clause.paths:
            pattern.add_path(path, number, numbers)
    return pattern


def pattern_of_path(path: Path, numbers: Iterator[int] | None = None) -> Pattern:
    """The pattern of the path of an EXISTS by itself."""
    return pattern_of([Clause((path,), None)], numbers)


def as_relationships(pattern: Pattern) -> Pattern:
    """A pattern whose trails are counted as relationship patterns of their type."""
    return replace(pattern, hops=pattern.hops + pattern.trails, trails=[])


def core_of(pattern: Pattern) -> Pattern:
    """What is matched before the trails: the pieces between them, and a known end of each trail."""
    known = {node for piece in pattern.pieces if len(piece) > 1 for node in piece}
    known |= {path[0] for path in pattern.paths if len(path) == 1}
    met = set(known)
    for trail in pattern.trails:
        if trail.left not in met and trail.right not in met:
            known.add(trail.left)
        met |= {trail.left, trail.right}
    pieces = [piece for piece in pattern.pieces if known.issuperset(piece)]
    hops = iter(pattern.hops)
    core = Pattern(
        labels={node: labels for node, labels in pattern.labels.items() if node in known},
        hops=[replace(next(hops), path=at) for at, piece in enumerate(pieces) for _ in piece[1:]],
        paths=pieces,
        pieces=pieces,
    )
    core.entries = [entry for entry in pattern.entries if entry.variable in core.variables]
    return core
