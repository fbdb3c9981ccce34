"""Builds the tables of a graph out of nodes and relationships in any order of labels, types and properties.

Memory grows with the number of keys: rows go to files as they come.
"""

from __future__ import annotations

from collections.abc import Mapping, Sequence
from functools import partial
from pathlib import Path

from ..model import (
    MOST_LABELS,
    MOST_NODES,
    MOST_RELATIONSHIPS,
    MOST_TABLES,
    Field,
    NodeTable,
    RelTable,
    multiplicity,
    single_source,
    single_target,
)
from ..names import unused
from .graph_files import GraphFiles, Grown
from .kinds import is_canonical
from .spool import Property, Spool


class TooManyTables(ValueError):
    """A graph has no room for one more table."""


class Nodes:
    """A growing table of nodes: all that have one set of labels."""

    def __init__(self, labels: tuple[str, ...], spool: Spool) -> None:
        self.labels = labels
        self.spool = spool
        self.key_name: str | None = None
        self.key_kind: str | None = None
        self.canonical = True
        self.spaces: set[str] = set()
        self.twins: set[int] | None = None

    @property
    def word(self) -> str:
        return ":".join(self.labels)

    def _twin(self) -> int | None:
        """The first column that repeats a key without a name in every row."""
        if self.key_name is not None or not self.spool.rows:
            return None
        usable = [place for place in sorted(self.twins or ()) if self.spool.columns[place].kind != "bool"]
        return usable[0] if usable else None

    def finish(self, shared: set[int], notes: list[str], target: Path) -> NodeTable:
        """Writes the table's file."""
        dropped = {place + 1 for place in self.spool.unused(shared)}
        columns = self.spool.columns
        kind = self.key_kind or ("int" if self.canonical else "string")
        twin = self._twin()
        if twin is not None:
            key = Field(columns[twin].name, columns[twin].kind if self.key_kind is None else kind)
            dropped.add(twin + 1)
        else:
            wanted = self.key_name or "id"
            key = Field(unused(wanted, {column.name for column in columns}, any_case=False), kind)
            if key.name != wanted:
                notes.append(f"{self.word}: the key is called {key.name}, since {wanted} is a property")
        fields = self.spool.finish(target, [str(key)], dropped)
        _tell(self.word, self.spool, {place - 1 for place in dropped} - {twin}, notes)
        return NodeTable(self.labels, target.name, [key, *fields])


class Rels:
    """A growing table of relationships: all of one type from nodes of one table to nodes of one table."""

    def __init__(self, type_name: str, source: Nodes, target: Nodes, spool: Spool, strict: bool) -> None:
        self.type = type_name
        self.source = source
        self.target = target
        self.spool = spool
        # The table of the other direction, where each relationship goes in both, and where values stand in its rows.
        self.other: Rels | None = None
        self.other_places: dict[tuple[int, ...], list[int]] = {}
        self._declared = "many_many"
        # The ends seen so far, where one may come once, and None from the first that comes again.
        self._sources: set[str] | None = set() if strict else None
        self._targets: set[str] | None = set() if strict else None
        self._one_source = False
        self._one_target = False

    def declare(self, word: str) -> None:
        """Sets the multiplicity that the rows have to keep; in both directions they keep none that is said of one."""
        if self.other is None:
            self._declared, self._one_source, self._one_target = word, single_source(word), single_target(word)
            self._sources = set() if self._one_source else self._sources
            self._targets = set() if self._one_target else self._targets

    def add(self, source: str, target: str, places: Sequence[int], cells: Sequence[str]) -> None:
        """Adds a relationship between two keys, and in both directions the other one; a self-loop is added once."""
        self._add(source, target, places, cells)
        if self.other is not None and not (self.other is self and source == target):
            other = places if self.other is self else self.other_places[tuple(places)]
            self.other._add(target, source, other, cells)

    def _add(self, source: str, target: str, places: Sequence[int], cells: Sequence[str]) -> None:
        if self.spool.rows == MOST_RELATIONSHIPS:
            raise ValueError(f"{self.type} has more than the {MOST_RELATIONSHIPS:,} rows that a table has at most")
        if self._sources is not None:
            self._sources = _still_single(self._sources, source)
        if self._one_source and self._sources is None:
            self._sources = set()
            raise ValueError(f"{self.type} is {self._declared}, and there is a relationship from {source} already")
        if self._targets is not None:
            self._targets = _still_single(self._targets, target)
        if self._one_target and self._targets is None:
            self._targets = set()
            raise ValueError(f"{self.type} is {self._declared}, and there is a relationship to {target} already")
        self.spool.add((source, target), places, cells)

    def finish(self, shared: set[int], notes: list[str], target: Path) -> RelTable:
        """Writes the table's file."""
        dropped = self.spool.unused(shared)
        fields = self.spool.finish(target, ["from", "to"], {place + 2 for place in dropped})
        _tell(self.type, self.spool, dropped, notes)
        many = multiplicity(self._sources is not None, self._targets is not None)
        return RelTable(self.type, self.source.word, self.target.word, many, target.name, fields)


def _still_single(seen: set[str], key: str) -> set[str] | None:
    """The keys seen with one more, or None where one came twice."""
    if key in seen:
        return None
    seen.add(key)
    return seen


def _tell(table: str, spool: Spool, dropped: set[int], notes: list[str]) -> None:
    for place, column in enumerate(spool.columns):
        if place in dropped:
            notes.append(f"{table}.{column.name}: left out, since no row of this table has a value")
        else:
            notes.extend(f"{table}.{column.name}: {note}" for note in column.notes)


class Builder:
    """A graph that grows in a folder."""

    def __init__(self, files: GraphFiles, strict: bool = False, both: bool = False) -> None:
        self._files = files
        self._strict = strict
        self._both = both
        self._nodes: dict[frozenset[str], Nodes] = {}
        self._rels: dict[tuple[str, str, str], Rels] = {}
        self._spaces: dict[str, dict[str, Nodes]] = {}
        self._tables_of_part: dict[int, set[int]] = {}

    def _spool(self, leading: int) -> Spool:
        return Spool(self._files.spool(), leading)

    def close(self) -> None:
        """Closes the files of rows; where the graph is finished, they are closed already."""
        for nodes in self._nodes.values():
            nodes.spool.close()
        for rels in self._rels.values():
            rels.spool.close()

    def nodes(self, labels: Sequence[str]) -> Nodes:
        """The table for a set of labels."""
        distinct = tuple(dict.fromkeys(labels))
        table = self._nodes.get(frozenset(distinct))
        if table is None:
            if not distinct or len(distinct) > MOST_LABELS:
                raise ValueError(f"a node has 1 to {MOST_LABELS} labels, and not {len(distinct)}")
            if len(self._nodes) == MOST_TABLES:
                raise TooManyTables(
                    f"{':'.join(distinct)} is the set of labels after the {MOST_TABLES} of a graph: --labels first, most or "
                    "NAME,.. keeps one label or those named as tables, and makes the others boolean properties"
                )
            table = Nodes(distinct, self._spool(1))
            self._nodes[frozenset(distinct)] = table
        return table

    def rels(self, type_name: str, source: Nodes, target: Nodes) -> Rels:
        """The table for a type and two tables of nodes."""
        name = (type_name, source.word, target.word)
        table = self._rels.get(name)
        if table is None:
            if len(self._rels) == MOST_TABLES:
                ends = f"{type_name} from {source.word} to {target.word}"
                raise TooManyTables(f"{ends} is the type and pair of tables after the {MOST_TABLES} of a graph")
            table = Rels(type_name, source, target, self._spool(2), self._strict)
            self._rels[name] = table
            if self._both:
                table.other = table if source is target else self.rels(type_name, target, source)
        return table

    def place(self, table: Nodes | Rels, properties: Sequence[Property], part: int) -> list[int]:
        """Where the values of a part of the input, a file or a declared table, stand in the rows of a table."""
        self._tables_of_part.setdefault(part, set()).add(id(table))
        places = table.spool.place(properties, part)
        if isinstance(table, Rels) and table.other is not None and table.other is not table:
            self._tables_of_part[part].add(id(table.other))
            table.other_places[tuple(places)] = table.other.spool.place(properties, part)
        return places

    def keys(self, space: str) -> Mapping[str, Nodes]:
        """The keys of an id space, as they come to be known, with their tables."""
        return self._spaces.setdefault(space, {})

    def add_node(self, table: Nodes, space: str, key: str, places: Sequence[int], cells: Sequence[str]) -> None:
        """Adds a node, whose key is the only one of its text in its space and in its table."""
        if not key:
            raise ValueError("the id is empty")
        if table.spool.rows == MOST_NODES:
            raise ValueError(f"{table.word} has more than the {MOST_NODES:,} rows that a table has at most")
        known = self._spaces.setdefault(space, {})
        if key in known:
            raise ValueError(f"the id '{key}' is there already" + (f", in the id space {space}" if space else ""))
        if any(self._spaces[other].get(key) is table for other in table.spaces if other != space):
            raise ValueError(f"a node {table.word} of another id space has the id '{key}' already")
        known[key] = table
        table.spaces.add(space)
        table.canonical = table.canonical and is_canonical(key)
        ordered = table.spool.add((key,), places, cells)
        if table.twins is None:
            table.twins = {place for place, cell in enumerate(ordered) if cell == key}
        elif table.twins:
            table.twins = {place for place in table.twins if ordered[place] == key}

    def ends(self, space: str, key: str) -> Nodes:
        """The table of the node with this key in an id space."""
        table = self._spaces.get(space, {}).get(key)
        if table is None:
            where = f" in the id space {space}" if space else ""
            raise ValueError(f"no node has the id '{key}'{where}" if key else "an end of the relationship is empty")
        return table

    def shared(self) -> set[int]:
        """The parts of the input that gave rows to several tables."""
        return {part for part, tables in self._tables_of_part.items() if len(tables) > 1}

    def grown_nodes(self) -> list[Grown[NodeTable]]:
        """The tables of nodes, once all rows are there."""
        shared, notes = self.shared(), self._files.notes
        return [Grown(one.word, one.spool.rows, partial(one.finish, shared, notes)) for one in self._nodes.values()]

    def grown_rels(self) -> list[Grown[RelTable]]:
        """The tables of relationships, once all rows are there."""
        shared, notes = self.shared(), self._files.notes
        return [Grown(one.type, one.spool.rows, partial(one.finish, shared, notes)) for one in self._rels.values()]
