"""A graph's tables as graphq's load format has them, and the limits of that format."""

from __future__ import annotations

from dataclasses import dataclass, field

# The limits of docs/load-format.md.
MOST_TABLES = 64
MOST_FIELDS = 64
MOST_LABELS = 8
MOST_NODES = 16_777_216
MOST_RELATIONSHIPS = 33_554_432
MOST_MANIFEST_BYTES = 1_048_576
MOST_FILE_BYTES = 268_435_456
MOST_BYTES = 536_870_912
LEAST_INT = -(2**63)
GREATEST_INT = 2**63 - 1


@dataclass(frozen=True)
class Field:
    """A property of a table: its name, and its kind, which is `int`, `string` or `bool`."""

    name: str
    kind: str

    def __str__(self) -> str:
        return f"{self.name}:{self.kind}"


@dataclass
class NodeTable:
    """A table of nodes that all have the same labels. The first field is the key."""

    labels: tuple[str, ...]
    file: str
    fields: list[Field] = field(default_factory=list)

    @property
    def word(self) -> str:
        """The labels as the manifest joins them."""
        return ":".join(self.labels)

    @property
    def key(self) -> Field:
        return self.fields[0]

    def line(self) -> str:
        """The table's line of a manifest."""
        return f"node {self.word} {self.file}"

    def summary(self, rows: int) -> str:
        """The table's line in the reply to `:schema`."""
        return " ".join(["node", self.word, str(rows), *map(str, self.fields)])


@dataclass
class RelTable:
    """A table of relationships of one type, from nodes of one table to those of one table, both named by words."""

    type: str
    source: str
    target: str
    multiplicity: str
    file: str
    fields: list[Field] = field(default_factory=list)

    def line(self) -> str:
        """The table's line of a manifest."""
        return f"rel {self.type} {self.source} {self.target} {self.multiplicity} {self.file}"

    def summary(self, rows: int) -> str:
        """The table's line in the reply to `:schema`."""
        ends = ["rel", self.type, self.source, self.target, self.multiplicity, str(rows)]
        return " ".join([*ends, *map(str, self.fields)])


@dataclass
class Graph:
    """The tables of a graph, in the order of the manifest's lines."""

    nodes: list[NodeTable] = field(default_factory=list)
    rels: list[RelTable] = field(default_factory=list)

    def tables(self) -> list[NodeTable | RelTable]:
        """All tables, those of nodes first."""
        return [*self.nodes, *self.rels]

    def node(self, word: str) -> NodeTable:
        """The table of nodes with this word; it has to be there."""
        return next(table for table in self.nodes if table.word == word)

    def tables_of(self, type_name: str) -> list[RelTable]:
        """The tables of a type of relationships."""
        return [table for table in self.rels if table.type == type_name]

    def name_of(self, table: RelTable) -> str:
        """The type of a table, with its place among the tables of the type where there are several, from 1."""
        tables = self.tables_of(table.type)
        return table.type if len(tables) == 1 else f"{table.type}_{tables.index(table) + 1}"

    def types(self) -> list[str]:
        """The types of relationships, each once, in the order of their first tables."""
        return list(dict.fromkeys(table.type for table in self.rels))


def multiplicity(single_source: bool, single_target: bool) -> str:
    """The manifest's word: `many_one` where each source has one relationship at most, `one_many` where a target has."""
    return ("one" if single_target else "many") + "_" + ("one" if single_source else "many")


def single_source(word: str) -> bool:
    """Whether a multiplicity allows each source one relationship at most."""
    return word.endswith("_one")


def single_target(word: str) -> bool:
    """Whether a multiplicity allows each target one relationship at most."""
    return word.startswith("one_")
