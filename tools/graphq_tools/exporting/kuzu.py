"""Writes a graph for Kùzu: a script that makes its tables and fills them, and their CSV files."""

from __future__ import annotations

from pathlib import Path

from ..manifest import node_rows, rel_rows
from ..model import Field, Graph, RelTable, multiplicity, single_source, single_target
from ..names import unused
from ..output import FileNames
from .tables_out import spread, union, write_csv, write_text

_TYPES = {"int": "INT64", "string": "STRING", "bool": "BOOL"}


def _quoted(name: str) -> str:
    return "`" + name.replace("`", "``") + "`"


def _columns(fields: list[Field]) -> list[str]:
    return [f"{_quoted(field.name)} {_TYPES[field.kind]}" for field in fields]


def _copy(table: str, file: str, broken: bool, *more: str) -> str:
    """A COPY statement. A field with a line end is not for a reader of several threads."""
    options = [*more, "HEADER=true", "ESCAPE='\"'", *(["PARALLEL=false"] if broken else [])]
    return f"COPY {_quoted(table)} FROM '{file}' ({', '.join(options)});"


def _loosest(tables: list[RelTable]) -> str:
    words = [table.multiplicity for table in tables]
    return multiplicity(all(map(single_source, words)), all(map(single_target, words))).upper()


def export_kuzu(graph: Graph, folder: Path) -> list[str]:
    """Writes the files; gives what a reader should know of them."""
    names, makes, copies, notes = FileNames(), [], [], []
    taken = {node.word.lower() for node in graph.nodes}
    for node in graph.nodes:
        file = names.take(node.word)
        broken = write_csv(folder / file, [field.name for field in node.fields], node_rows(node))
        body = ", ".join([*_columns(node.fields), f"PRIMARY KEY({_quoted(node.key.name)})"])
        makes.append(f"CREATE NODE TABLE {_quoted(node.word)}({body});")
        copies.append(_copy(node.word, file, broken))
    for name in graph.types():
        tables = graph.tables_of(name)
        wide = union([table.fields for table in tables])
        pairs = [f"FROM {_quoted(table.source)} TO {_quoted(table.target)}" for table in tables]
        own = unused(name, taken)
        taken.add(own.lower())
        if own != name:
            notes.append(f"a name is one table's in Kuzu: the type {_quoted(name)} is called {_quoted(own)}")
        makes.append(f"CREATE REL TABLE {_quoted(own)}({', '.join([*pairs, *_columns(wide), _loosest(tables)])});")
        for table in tables:
            file = names.take(graph.name_of(table))
            rows = spread(rel_rows(table, graph), 2, table.fields, wide)
            broken = write_csv(folder / file, ["from", "to", *(field.name for field in wide)], rows)
            pair = [f"from='{table.source}'", f"to='{table.target}'"] if len(tables) > 1 else []
            copies.append(_copy(own, file, broken, *pair))
    write_text(folder / "schema.cypher", "\n".join([*makes, *copies, ""]))
    notes[:0] = ["schema.cypher makes the tables and fills them; run it in this folder, since COPY counts from there"]
    several = [node.word for node in graph.nodes if len(node.labels) > 1]
    if several:
        notes.append(f"a node has one label in Kuzu: {', '.join(map(_quoted, several))} are tables of their own")
    return notes
