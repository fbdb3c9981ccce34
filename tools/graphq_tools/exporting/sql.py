"""Writes a graph as SQL: a table for each table, with keys and indexes, for sqlite3 or PostgreSQL."""

from __future__ import annotations

import re
from collections.abc import Iterable, Iterator
from dataclasses import dataclass
from itertools import islice
from pathlib import Path
from typing import TextIO

from ..manifest import node_rows, rel_rows
from ..model import Field, Graph, single_source, single_target
from ..names import unused
from ..outcome import Refusal, writing

_TYPES = {"int": "BIGINT", "string": "TEXT", "bool": "BOOLEAN"}
_ROWS_OF_AN_INSERT = 200
# What sqlite3 loses of a text as it reads its script: a CR before a line end, and all after a NUL.
_LOST = re.compile("[\r\0]")
_COPY_ESCAPES = str.maketrans({"\\": "\\\\", "\t": "\\t", "\n": "\\n", "\r": "\\r"})


@dataclass
class Column:
    """A column: its name, its kind, and what stands after its type."""

    name: str
    kind: str
    rule: str = ""

    def definition(self) -> str:
        return f"{quoted(self.name)} {_TYPES[self.kind]}{self.rule}"


def quoted(name: str) -> str:
    """A name as SQL quotes it."""
    return '"' + name.replace('"', '""') + '"'


def _literal(text: str, kind: str) -> str:
    if not text:
        return "NULL"
    if kind == "string":
        inner = text.replace("'", "''")
        return "'" + _LOST.sub(lambda found: f"' || char({ord(found[0])}) || '", inner) + "'"
    return text.upper() if kind == "bool" else text


class _Script:
    """An SQL script on its way out."""

    def __init__(self, stream: TextIO, dialect: str) -> None:
        self._stream = stream
        self._dialect = dialect
        self._taken: set[str] = set()
        self.notes: list[str] = []

    def take(self, wanted: str) -> str:
        """A name for a table or an index; SQL takes names that differ in case alone for one."""
        name = unused(wanted, self._taken)
        self._taken.add(name.lower())
        return name

    def columns(self, table: str, leading: list[Column], fields: Iterable[Field]) -> list[Column]:
        """The columns of a table, where a property gives way to a leading column and to one of another case."""
        columns, taken = list(leading), {column.name.lower() for column in leading}
        for field in fields:
            name = unused(field.name, taken)
            taken.add(name.lower())
            columns.append(Column(name, field.kind))
            if name != field.name:
                self.notes.append(f"{table}.{field.name} is the column {name}")
        return columns

    def line(self, text: str) -> None:
        self._stream.write(text + "\n")

    def table(self, name: str, columns: list[Column], rows: Iterator[list[str]]) -> None:
        """A table with its rows."""
        body = ",\n    ".join(column.definition() for column in columns)
        self.line(f"CREATE TABLE {quoted(name)} (\n    {body}\n);")
        if self._dialect == "postgresql":
            self._copy(name, columns, rows)
        else:
            self._insert(name, columns, rows)

    def _insert(self, name: str, columns: list[Column], rows: Iterator[list[str]]) -> None:
        kinds = [column.kind for column in columns]
        while some := list(islice(rows, _ROWS_OF_AN_INSERT)):
            values = (", ".join(map(_literal, row, kinds)) for row in some)
            self.line(f"INSERT INTO {quoted(name)} VALUES\n" + ",\n".join(f"({value})" for value in values) + ";")

    def _copy(self, name: str, columns: list[Column], rows: Iterator[list[str]]) -> None:
        self.line(f"COPY {quoted(name)} ({', '.join(quoted(column.name) for column in columns)}) FROM stdin;")
        for row in rows:
            if any("\0" in cell for cell in row):
                raise Refusal(f"{name}: PostgreSQL holds no text with the character U+0000")
            self.line("\t".join(cell.translate(_COPY_ESCAPES) if cell else "\\N" for cell in row))
        self.line("\\.")

    def index(self, table: str, columns: list[str], unique: bool) -> None:
        name = self.take(f"{table}_{columns[0]}")
        over = ", ".join(map(quoted, columns))
        self.line(f"CREATE {'UNIQUE ' if unique else ''}INDEX {quoted(name)} ON {quoted(table)} ({over});")


def _numbered(rows: Iterable[list[str]]) -> Iterator[list[str]]:
    for number, row in enumerate(rows):
        yield [str(number), *row]


def export_sql(graph: Graph, folder: Path, dialect: str) -> list[str]:
    """Writes `graph.sql`; gives what a reader should know of it."""
    path = folder / "graph.sql"
    with writing(path), open(path, "w", encoding="utf-8", newline="\n") as stream:
        script = _Script(stream, dialect)
        script.line("BEGIN;")
        nodes: dict[str, tuple[str, str]] = {}
        for node in graph.nodes:
            name = script.take(node.word)
            key = Column(node.key.name, node.key.kind, " NOT NULL PRIMARY KEY")
            script.table(name, script.columns(name, [key], node.fields[1:]), node_rows(node))
            nodes[node.word] = name, node.key.name
        for rel in graph.rels:
            name = script.take(graph.name_of(rel))
            leading = [Column("number", "int", " NOT NULL PRIMARY KEY")]
            for end, word in (("source", rel.source), ("target", rel.target)):
                of, key_name = nodes[word]
                rule = f" NOT NULL REFERENCES {quoted(of)} ({quoted(key_name)})"
                leading.append(Column(end, graph.node(word).key.kind, rule))
            script.table(name, script.columns(name, leading, rel.fields), _numbered(rel_rows(rel, graph)))
            for ends, single in (
                (["source", "target"], single_source(rel.multiplicity)),
                (["target", "source"], single_target(rel.multiplicity)),
            ):
                script.index(name, ends[:1] if single else ends, single)
        script.line("COMMIT;")
    command = "psql -f graph.sql" if dialect == "postgresql" else "sqlite3 graph.db <graph.sql"
    return [f"graph.sql makes the tables: {command}", *script.notes]
