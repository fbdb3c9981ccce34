"""Reads a graph that a Kùzu script makes out of CSV files."""

from __future__ import annotations

import glob
from collections.abc import Iterator
from dataclasses import dataclass, field
from pathlib import Path

from ..csvfile import records
from ..outcome import BadRow, Refusal, at_line
from .builder import Nodes, Rels
from .intake import Intake, checked
from .kinds import as_integer
from .kuzu_script import Copy, NodeTable, RelTable, read_script, twice
from .spool import Property

_FAMILIES = {
    "BOOL": "bool",
    "BOOLEAN": "bool",
    "STRING": "string",
    "FLOAT": "decimal",
    "DOUBLE": "decimal",
    "DECIMAL": "decimal",
    "NUMERIC": "decimal",
    "DATE": "moment",
    "INTERVAL": "text",
    "UUID": "text",
}
_INTEGERS = ("SERIAL", "INT", "INTEGER", *(f"{sign}INT{bits}" for sign in ("", "U") for bits in (8, 16, 32, 64, 128)))


def _family(kind: str) -> str:
    base = kind.split("(", 1)[0]
    if "[" in kind:
        return "other"
    if base in _INTEGERS:
        return "int"
    return "moment" if base.startswith("TIMESTAMP") else _FAMILIES.get(base, "other")


@dataclass
class _Known:
    """A table of nodes that was declared, with what its files fill."""

    declared: NodeTable
    table: Nodes
    properties: dict[str, Property | None]
    part: int
    rows: int = 0


@dataclass
class _KnownRels:
    """A table of relationships that was declared, with a table of the graph for each of its pairs."""

    declared: RelTable
    tables: dict[tuple[str, str], Rels]
    properties: dict[str, Property | None]
    part: int


@dataclass
class _Script:
    """What a script declared so far."""

    intake: Intake
    folder: Path
    file: Path
    nodes: dict[str, _Known] = field(default_factory=dict)
    rels: dict[str, _KnownRels] = field(default_factory=dict)

    def properties(self, columns: list[tuple[str, str]]) -> dict[str, Property | None]:
        return {name: self.intake.property(name, _family(kind), kind) for name, kind in columns}

    def new(self, name: str) -> None:
        """Holds that no table has this name yet."""
        if name in self.nodes or name in self.rels:
            raise ValueError(f"there is a table {name} already")

    def declare_nodes(self, declared: NodeTable) -> None:
        self.new(declared.name)
        labels = [self.intake.labels.plain(label) for label in declared.name.split(":")]
        table = self.intake.builder.nodes(labels)
        kinds = dict(declared.columns)
        if _family(kinds[declared.key]) not in ("int", "string", "text"):
            raise ValueError(f"the key {declared.key} is {kinds[declared.key]}, and has to be an integer or a text")
        table.key_name = self.intake.properties.plain(declared.key)
        table.key_kind = "int" if _family(kinds[declared.key]) == "int" else "string"
        rest = self.properties([column for column in declared.columns if column[0] != declared.key])
        part = self.intake.part()
        self.intake.builder.place(table, [one for one in rest.values() if one], part)
        self.nodes[declared.name] = _Known(declared, table, rest, part)

    def declare_rels(self, declared: RelTable) -> None:
        self.new(declared.name)
        name = self.intake.types.plain(declared.name)
        properties, part, tables = self.properties(declared.columns), self.intake.part(), {}
        for source, target in declared.pairs:
            for end in (source, target):
                if end not in self.nodes:
                    raise ValueError(f"there is no table {end} of nodes above")
            table = self.intake.builder.rels(name, self.nodes[source].table, self.nodes[target].table)
            table.declare(declared.multiplicity.lower())
            self.intake.builder.place(table, [one for one in properties.values() if one], part)
            tables[source, target] = table
        self.rels[declared.name] = _KnownRels(declared, tables, properties, part)

    def copy(self, copy: Copy) -> None:
        if again := twice(copy.columns):
            raise ValueError(f"COPY names the column {again} twice")
        if copy.table in self.nodes:
            _fill_nodes(self, self.nodes[copy.table], copy)
        elif copy.table in self.rels:
            _fill_rels(self, self.rels[copy.table], copy)
        else:
            raise ValueError(f"there is no table {copy.table} above")


def _is_header(record: list[str], columns: list[str], leading: int) -> bool:
    """Whether a record after COPY without HEADER is one: its fields are called like the columns."""
    names = [text.strip().split(":", 1)[0].lower() for text in record]
    if leading and names[:2] == ["from", "to"]:
        return True
    return names[leading:] == [column.lower() for column in columns] and bool(columns)


def _paths(script: _Script, copy: Copy) -> list[str]:
    """The files after COPY, found from the script's folder or else from here, with their patterns opened up."""
    paths: list[str] = []
    for name in copy.files:
        for place in (script.folder / name, Path(name)):
            found = sorted(glob.glob(str(place))) if glob.has_magic(name) else [str(place)] * place.exists()
            if found:
                paths += found
                break
        else:
            raise BadRow(script.file, copy.line, f"there is no file {name}")
    for path in paths:
        if path.removesuffix(".gz").rsplit(".", 1)[-1].lower() in ("parquet", "npy", "json"):
            raise BadRow(script.file, copy.line, f"{path} is no CSV file, and no other is taken")
    return paths


def _rows(script: _Script, copy: Copy, columns: list[str], leading: int) -> Iterator[tuple[str, int, list[str]]]:
    options = copy.options
    delimiter = options.get("DELIM") or options.get("DELIMITER") or options.get("SEP") or ","
    quote, escape = options.get("QUOTE") or '"', options.get("ESCAPE")
    for path in _paths(script, copy):
        skipped = int(options.get("SKIP", "0"))
        begun = False
        for line, record in checked(records(path, delimiter, quote, escape), script.intake):
            if skipped:
                skipped -= 1
                continue
            if not begun:
                begun = True
                asked = options.get("HEADER", options.get("HEADERS"))
                if asked.lower() == "true" if asked else _is_header(record, columns, leading):
                    continue
            if len(record) != leading + len(columns):
                why = f"it has {len(record)} fields, and {leading + len(columns)} are wanted"
                script.intake.complaints.add(BadRow(path, line, why, copy.table))
            else:
                yield path, line, record
        script.intake.complaints.say()


def _fill_nodes(script: _Script, known: _Known, copy: Copy) -> None:
    kinds = dict(known.declared.columns)
    columns = copy.columns or [name for name, _ in known.declared.columns if kinds[name] != "SERIAL"]
    places, taken = _places(script, known.table, known.properties, columns, known.part)
    key, builder = known.declared.key, script.intake.builder
    if kinds[key] != "SERIAL" and key not in columns:
        raise ValueError(f"COPY leaves out the key {key}")
    for path, line, record in _rows(script, copy, columns, 0):
        try:
            if kinds[key] == "SERIAL":
                text = str(known.rows)
            else:
                text = record[columns.index(key)]
                text = as_integer(text) if text and known.table.key_kind == "int" else text
            builder.add_node(known.table, known.declared.name, text, places, _cells(taken, record))
            known.rows += 1
        except (ValueError, Refusal) as error:
            script.intake.refuse(path, line, error, copy.table)


def _fill_rels(script: _Script, known: _KnownRels, copy: Copy) -> None:
    pairs = known.declared.pairs
    pair = (copy.options.get("FROM", pairs[0][0]), copy.options.get("TO", pairs[0][1]))
    if pair not in known.tables or (len(pairs) > 1 and "FROM" not in copy.options):
        raise ValueError(f"{known.declared.name} has several pairs of tables: COPY names one, as in (from='A', to='B')")
    columns = copy.columns or [name for name, _ in known.declared.columns]
    table = known.tables[pair]
    places, taken = _places(script, table, known.properties, columns, known.part)
    builder = script.intake.builder
    for path, line, record in _rows(script, copy, columns, 2):
        try:
            ends = []
            for text, name, end in zip(record, pair, (table.source, table.target), strict=False):
                key = as_integer(text) if text and end.key_kind == "int" else text
                builder.ends(name, key)
                ends.append(key)
            table.add(ends[0], ends[1], places, _cells(taken, record[2:]))
        except (ValueError, Refusal) as error:
            script.intake.refuse(path, line, error, copy.table)


def _places(
    script: _Script, table: Nodes | Rels, known: dict[str, Property | None], columns: list[str], part: int
) -> tuple[list[int], list[tuple[int, Property]]]:
    """Where the values of a file go, and which of its fields they are."""
    taken = [(place, one) for place, name in enumerate(columns) if (one := known.get(name))]
    return script.intake.builder.place(table, [one for _, one in taken], part), taken


def _cells(taken: list[tuple[int, Property]], record: list[str]) -> list[str]:
    return [one.treatment.convert(record[place]) if record[place] else "" for place, one in taken]


def read_kuzu(file: str, intake: Intake) -> None:
    """Takes in the graph of a script."""
    path = Path(file)
    script = _Script(intake, path.parent, path)
    for statement in read_script(path):
        try:
            match statement:
                case NodeTable():
                    script.declare_nodes(statement)
                case RelTable():
                    script.declare_rels(statement)
                case Copy():
                    script.copy(statement)
        except (ValueError, Refusal) as error:
            raise at_line(path, statement.line, error) from error
