"""The tables of a graph that is taken in by blocks of rows: all checks are made on whole columns, and by row where one fails."""

from __future__ import annotations

from collections.abc import Iterable, Sequence
from dataclasses import dataclass, field
from functools import partial
from itertools import chain, compress
from operator import ne
from pathlib import Path

from ..model import MOST_NODES, MOST_RELATIONSHIPS, MOST_TABLES, Field, NodeTable, RelTable, multiplicity
from .blocks import BadRecord, Block
from .columns import Column
from .graph_files import GraphFiles, Grown
from .guesses import Guess
from .keys import Keys
from .row_file import RowFile


@dataclass
class NodeRows:
    """A table of nodes: those of files, or where there is no file, the ends that relationships name."""

    labels: tuple[str, ...]
    file: RowFile
    key_name: str = "id"
    made: bool = False
    broken: bool = False
    keys: Keys = field(default_factory=Keys)
    key: Column | None = None
    columns: list[Column] = field(default_factory=list)
    sources: list[str] = field(default_factory=list)

    @property
    def word(self) -> str:
        """The labels, joined by colons."""
        return ":".join(self.labels)

    def add(self, block: Block) -> list[BadRecord]:
        """Adds the rows of a block, and gives what is wrong with them, but for keys that are missing or come again."""
        assert self.key is not None
        bad: list[BadRecord] = []
        taken, before = [self.key, *self.columns], len(self.keys)
        self.keys.add(block, self.key.place)
        self.broken = self.broken or len(self.keys) != before + block.rows or "" in self.keys
        if len(self.keys) > MOST_NODES:
            bad.append(BadRecord(block.number(0), f"there are more than the {MOST_NODES:,} rows of a table"))
        _add(self.file, block, [], taken, bad)
        return bad

    def finish(self, notes: list[str], target: Path) -> NodeTable:
        """Writes the table's file."""
        if self.made:
            guess, keys = Guess(), list(self.keys)
            guess.meet(keys)
            key = Field(self.key_name, "int" if guess.kind == "int" else "string")
            text = "\n".join(keys)
            plain = not ("," in text or '"' in text or "\r" in text or text.count("\n") >= len(keys))
            self.file.add([keys], Block(0, [keys], plain, "\r" in text))
        else:
            assert self.key is not None
            key = self.key.key()
        _tell(self.word, self.columns, notes)
        fields = [key, *(column.field() for column in self.columns)]
        self.file.finish(target, fields)
        return NodeTable(self.labels, target.name, fields)


@dataclass
class RelRows:
    """A table of relationships, and, where each goes in both directions and its ends are of two tables, the other one."""

    type: str
    source: NodeRows
    target: NodeRows
    file: RowFile
    strict: bool = False
    both: RowFile | None = None
    columns: list[Column] = field(default_factory=list)
    _sources: set[str] | None = field(default_factory=set[str])
    _targets: set[str] | None = field(default_factory=set[str])

    def add(self, block: Block, ends: tuple[int, int]) -> list[BadRecord]:
        """Adds the rows of a block with the ends in these columns, and gives what is wrong with them."""
        bad: list[BadRecord] = []
        self._make(block, ends)
        for place, nodes in zip(ends, (self.source, self.target), strict=True):
            if ("" in nodes.keys) if nodes.made else not nodes.keys.has_all(block, place):
                bad += [
                    BadRecord(block.number(row), f"no {nodes.word} has the key '{key}'" if key else "an end is empty")
                    for row, key in enumerate(block.column(place))
                    if not key or key not in nodes.keys
                ]
                nodes.keys.drop("")
        if self.both is None:
            if self.strict:
                self._watch(block.column(ends[0]), block.column(ends[1]))
            _add(self.file, block, ends, self.columns, bad)
        else:
            self._add_both(block, ends, [column.values(block, bad) for column in self.columns])
        if self.file.rows > MOST_RELATIONSHIPS:
            bad.append(BadRecord(block.number(0), f"there are more than the {MOST_RELATIONSHIPS:,} rows of a table"))
        return bad

    def _make(self, block: Block, ends: tuple[int, int]) -> None:
        """Makes the nodes of ends that are no rows of a file."""
        if self.source is self.target:
            if self.source.made:
                self.source.keys.add(block, *ends)
            return
        for place, nodes in zip(ends, (self.source, self.target), strict=True):
            if nodes.made:
                nodes.keys.add(block, place)

    def _watch(self, sources: Sequence[str], targets: Sequence[str]) -> None:
        """Notes whether an end comes again."""
        self._sources = _still_single(self._sources, sources)
        self._targets = _still_single(self._targets, targets)

    def _add_both(self, block: Block, ends: tuple[int, int], rest: list[Sequence[str]]) -> None:
        """Adds relationships in both directions: the other one right after each, and a self-loop once."""
        sources, targets = (block.column(place) for place in ends)
        if self.source is not self.target:
            assert self.both is not None
            if self.strict:
                self._watch(sources, targets)
            self.file.add([sources, targets, *rest], block)
            self.both.add([targets, sources, *rest], block)
            return
        doubled = [_twice(sources, targets), _twice(targets, sources), *(_twice(one, one) for one in rest)]
        if not all(map(ne, sources, targets)):
            kept = list(chain.from_iterable((True, one != other) for one, other in zip(sources, targets, strict=True)))
            doubled = [list(compress(column, kept)) for column in doubled]
        if self.strict:
            self._watch(doubled[0], doubled[1])
        self.file.add(doubled, block)

    def finish(self, notes: list[str], target: Path) -> RelTable:
        """Writes the table's file."""
        _tell(self.type, self.columns, notes)
        many = multiplicity(self._sources is not None, self._targets is not None) if self.strict else "many_many"
        return self._finish(self.file, (self.source, self.target), many, target)

    def finish_both(self, target: Path) -> RelTable:
        """Writes the file of the relationships in the other direction, where they are a table of their own."""
        assert self.both is not None
        many = multiplicity(self._targets is not None, self._sources is not None) if self.strict else "many_many"
        return self._finish(self.both, (self.target, self.source), many, target)

    def _finish(self, file: RowFile, ends: tuple[NodeRows, NodeRows], many: str, target: Path) -> RelTable:
        fields = [column.field() for column in self.columns]
        file.finish(target, ["from", "to", *fields])
        return RelTable(self.type, ends[0].word, ends[1].word, many, target.name, fields)


def _add(file: RowFile, block: Block, leading: Sequence[int], columns: Sequence[Column], bad: list[BadRecord]) -> None:
    """Adds the rows of a block: some leading columns as they are, and what becomes of others."""
    order = [*leading, *(column.place for column in columns)]
    if order == list(range(block.width)) and all(column.taken_as_is(block) for column in columns):
        for column in columns:
            column.look(block)
        if file.add_raw(block):
            return
    file.add([*(block.column(place) for place in leading), *(column.values(block, bad) for column in columns)], block)


def _twice(one: Sequence[str], other: Sequence[str]) -> list[str]:
    """The values of two columns in turn."""
    both = [""] * (2 * len(one))
    both[::2], both[1::2] = one, other
    return both


def _still_single(seen: set[str] | None, keys: Sequence[str]) -> set[str] | None:
    """The keys seen with some more, or None where one came twice."""
    if seen is None:
        return None
    before = len(seen)
    seen.update(keys)
    return seen if len(seen) == before + len(keys) else None


def _tell(table: str, columns: Iterable[Column], notes: list[str]) -> None:
    for column in columns:
        note = column.note()
        if note:
            notes.append(f"{table}.{column.name}: {note}")


class Tables:
    """The tables of a graph that grow by blocks."""

    def __init__(self, files: GraphFiles, strict: bool, both: bool) -> None:
        self._files = files
        self._strict = strict
        self._both = both
        self.nodes: dict[str, NodeRows] = {}
        self.rels: dict[tuple[str, str, str], RelRows] = {}

    def node(self, labels: tuple[str, ...]) -> NodeRows:
        """A new table of nodes."""
        if len(self.nodes) == MOST_TABLES:
            raise ValueError(f"{':'.join(labels)} is the table after the {MOST_TABLES} of a graph")
        table = NodeRows(labels, RowFile(self._files.spool()))
        self.nodes[table.word] = table
        return table

    def rel(self, type_name: str, source: NodeRows, target: NodeRows) -> RelRows:
        """The table for a type and two tables of nodes."""
        name = (type_name, source.word, target.word)
        if name not in self.rels:
            if len(self.rels) == MOST_TABLES:
                raise ValueError(f"{type_name} from {source.word} to {target.word} is the table after the {MOST_TABLES}")
            table = RelRows(type_name, source, target, RowFile(self._files.spool()), self._strict)
            if self._both:
                table.both = RowFile(self._files.spool()) if source is not target else table.file
            self.rels[name] = table
        return self.rels[name]

    def close(self) -> None:
        """Closes the files of rows; where the graph is finished, they are closed already."""
        for node in self.nodes.values():
            node.file.close()
        for rel in self.rels.values():
            rel.file.close()
            if rel.both is not None:
                rel.both.close()

    def grown_nodes(self) -> list[Grown[NodeTable]]:
        """The tables of nodes, once all rows are there."""
        notes = self._files.notes
        return [
            Grown(one.word, len(one.keys) if one.made else one.file.rows, partial(one.finish, notes))
            for one in self.nodes.values()
        ]

    def grown_rels(self) -> list[Grown[RelTable]]:
        """The tables of relationships, once all rows are there."""
        grown = []
        for one in self.rels.values():
            grown.append(Grown(one.type, one.file.rows, partial(one.finish, self._files.notes)))
            if one.both is not None and one.both is not one.file:
                grown.append(Grown(one.type, one.both.rows, one.finish_both))
        return grown
