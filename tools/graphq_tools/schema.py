"""The tables of a graph as the reply to `:schema` lists them."""

from __future__ import annotations

from collections.abc import Iterable
from dataclasses import dataclass, field

from .model import Field


@dataclass(frozen=True)
class Nodes:
    """A table of nodes: its labels, joined by colons, how many rows it has, and its properties, the key first."""

    word: str
    rows: int
    fields: tuple[Field, ...]

    @property
    def labels(self) -> tuple[str, ...]:
        """The labels that all of its nodes have."""
        return tuple(self.word.split(":"))

    @property
    def key(self) -> Field:
        """The property that tells its nodes apart."""
        return self.fields[0]


@dataclass(frozen=True)
class Rels:
    """A table of relationships: its type, the words of the tables at its ends, multiplicity, rows and properties."""

    type: str
    source: str
    target: str
    multiplicity: str
    rows: int
    fields: tuple[Field, ...]


@dataclass(frozen=True)
class Schema:
    """The tables of a graph, in the order of its manifest."""

    nodes: list[Nodes] = field(default_factory=list)
    rels: list[Rels] = field(default_factory=list)

    def labels(self) -> list[str]:
        """All labels, each once."""
        return _once(label for table in self.nodes for label in table.labels)

    def types(self) -> list[str]:
        """All types of relationships, each once."""
        return _once(table.type for table in self.rels)

    def properties(self) -> list[str]:
        """The names of all properties, each once."""
        fields = [table.fields for table in self.nodes] + [table.fields for table in self.rels]
        return _once(one.name for several in fields for one in several)

    def nodes_with(self, labels: Iterable[str]) -> list[Nodes]:
        """The tables whose nodes have all of these labels."""
        wanted = set(labels)
        return [table for table in self.nodes if wanted <= set(table.labels)]

    def rels_of(self, types: Iterable[str]) -> list[Rels]:
        """The tables of one of these types; all where none is said."""
        wanted = set(types)
        return [table for table in self.rels if not wanted or table.type in wanted]


def _once(names: Iterable[str]) -> list[str]:
    return list(dict.fromkeys(names))


def _fields(texts: Iterable[str]) -> tuple[Field, ...]:
    return tuple(Field(name, kind) for name, _, kind in (text.rpartition(":") for text in texts))


def read_schema(lines: Iterable[str]) -> Schema:
    """The tables in the lines of the reply to `:schema`."""
    schema = Schema()
    for line in lines:
        words = line.split(" ")
        if words[0] == "node":
            schema.nodes.append(Nodes(words[1], int(words[2]), _fields(words[3:])))
        elif words[0] == "rel":
            type_name, source, target, multiplicity, rows = words[1:6]
            schema.rels.append(Rels(type_name, source, target, multiplicity, int(rows), _fields(words[6:])))
    return schema
