"""A graph in memory, read from a valid manifest and valid CSV files by docs/load-format.md."""

from __future__ import annotations

import csv
import io
import re
from collections.abc import Mapping
from dataclasses import dataclass
from functools import cached_property
from typing import NamedTuple


@dataclass(frozen=True)
class Node:
    """A node: a row of a table of nodes."""

    table: int
    row: int


@dataclass(frozen=True)
class Relationship:
    """A relationship: a row of a table of relationships."""

    table: int
    row: int


Constant = bool | int | str | None
Value = Constant | Node | Relationship


@dataclass(frozen=True)
class Field:
    """A property of a table; its kind is `int`, `string` or `bool`."""

    name: str
    kind: str


@dataclass(frozen=True)
class NodeTable:
    """A table of nodes; its first column is the key."""

    word: str
    fields: list[Field]
    rows: list[list[Constant]]

    @property
    def labels(self) -> list[str]:
        """The labels that all of its nodes have."""
        return self.word.split(":")

    @cached_property
    def row_by_key(self) -> dict[Constant, int]:
        """The row of each key."""
        return {row[0]: number for number, row in enumerate(self.rows)}


@dataclass(frozen=True)
class RelationshipTable:
    """A table of relationships between the nodes of two tables; `ends` has the two rows of each."""

    type: str
    source: int
    target: int
    multiplicity: str
    fields: list[Field]
    rows: list[list[Constant]]
    ends: list[tuple[int, int]]


class Edge(NamedTuple):
    """A relationship, the node where it starts and the one where it ends."""

    relationship: Relationship
    source: Node
    target: Node


class Graph:
    """The tables of nodes and of relationships, each kind numbered from 0."""

    def __init__(self, nodes: list[NodeTable], relationships: list[RelationshipTable]) -> None:
        self.nodes = nodes
        self.relationships = relationships
        self.all_nodes = [
            Node(number, row) for number, table in enumerate(nodes) for row in range(len(table.rows))
        ]
        self.edges = [
            Edge(Relationship(number, row), Node(table.source, source), Node(table.target, target))
            for number, table in enumerate(relationships)
            for row, (source, target) in enumerate(table.ends)
        ]
        self.edge_of = {edge.relationship: edge for edge in self.edges}

    def table_of(self, entity: Node | Relationship) -> NodeTable | RelationshipTable:
        """The table that a node or a relationship stands in."""
        return self.nodes[entity.table] if isinstance(entity, Node) else self.relationships[entity.table]

    def property(self, entity: Node | Relationship, key: str) -> Constant:
        """A property; null where the table does not have it."""
        table = self.table_of(entity)
        for field, value in zip(table.fields, table.rows[entity.row], strict=True):
            if field.name == key:
                return value
        return None


def read_graph(manifest: str, files: Mapping[str, str]) -> Graph:
    """The graph of a manifest, with the texts of the files that it names."""
    nodes: list[NodeTable] = []
    relationships: list[RelationshipTable] = []
    for line in re.split(r"\r?\n", manifest):
        match line.split():
            case []:
                continue
            case [word, *_] if line.startswith("#"):
                continue
            case ["node", word, name]:
                fields, records = read_table(files[name])
                rows = [values_of(fields, record) for record in records]
                nodes.append(NodeTable(word, fields, rows))
            case ["rel", kind, source, target, multiplicity, name]:
                ends = [table_number(nodes, source), table_number(nodes, target)]
                fields, records = read_table(files[name], beside=2)
                relationships.append(
                    RelationshipTable(
                        kind,
                        ends[0],
                        ends[1],
                        multiplicity,
                        fields,
                        [values_of(fields, record[2:]) for record in records],
                        [
                            (row_of(nodes[ends[0]], record[0]), row_of(nodes[ends[1]], record[1]))
                            for record in records
                        ],
                    )
                )
            case _:
                raise ValueError(f"a line of the manifest that is refused: {line}")
    return Graph(nodes, relationships)


def read_table(text: str, beside: int = 0) -> tuple[list[Field], list[list[str]]]:
    """The fields of a table behind so many other columns, and its records behind the header."""
    source = io.StringIO(text.removeprefix("\ufeff"), newline="")
    header, *records = (record for record in csv.reader(source) if record)
    fields = [Field(*column.split(":")) for column in header[beside:]]
    return fields, records


def values_of(fields: list[Field], cells: list[str]) -> list[Constant]:
    """The values of a record."""
    return [value_of(field, cell) for field, cell in zip(fields, cells, strict=True)]


def value_of(field: Field, cell: str) -> Constant:
    """The value that a cell of this field has."""
    if cell == "":
        return None
    if field.kind == "int":
        return int(cell)
    return cell.lower() == "true" if field.kind == "bool" else cell


def table_number(nodes: list[NodeTable], word: str) -> int:
    """The number of the table that is called so."""
    return [table.word for table in nodes].index(word)


def row_of(table: NodeTable, cell: str) -> int:
    """The row with the key that a cell names."""
    key = value_of(table.fields[0], cell)
    return table.row_by_key[key]
