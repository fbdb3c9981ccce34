"""Writes a graph as CSV files with the headers of `neo4j-admin database import`, and the command that takes them."""

from __future__ import annotations

from collections.abc import Iterator
from pathlib import Path

from ..manifest import node_rows, rel_rows
from ..model import Field, Graph, NodeTable, RelTable
from ..output import FileNames
from .tables_out import write_csv, write_text

_TYPES = {"int": "long", "string": "string", "bool": "boolean"}


def _properties(fields: list[Field]) -> list[str]:
    return [f"{field.name}:{_TYPES[field.kind]}" for field in fields]


def _node_header(table: NodeTable) -> list[str]:
    """The header of a table. A key that is an integer stands twice, since an id would be stored as a text."""
    if table.key.kind == "int":
        return [f":ID({table.word})", *_properties(table.fields), ":LABEL"]
    return [f"{table.key.name}:ID({table.word})", *_properties(table.fields[1:]), ":LABEL"]


def _node_rows(table: NodeTable) -> Iterator[list[str]]:
    labels = ";".join(table.labels)
    for row in node_rows(table):
        yield [*row[: table.key.kind == "int"], *row, labels]


def _rel_header(table: RelTable) -> list[str]:
    return [f":START_ID({table.source})", f":END_ID({table.target})", *_properties(table.fields), ":TYPE"]


def _constraint(table: NodeTable) -> str:
    return f"CREATE CONSTRAINT IF NOT EXISTS FOR (n:`{table.word}`) REQUIRE n.`{table.key.name}` IS UNIQUE;"


def export_neo4j(graph: Graph, folder: Path) -> list[str]:
    """Writes the files; gives what a reader should know of them."""
    names, words, broken = FileNames(), [], False
    for node in graph.nodes:
        file = names.take(node.word)
        broken |= write_csv(folder / file, _node_header(node), _node_rows(node))
        words.append(f"--nodes={file}")
    for rel in graph.rels:
        file = names.take(graph.name_of(rel))
        rows = ([*row, rel.type] for row in rel_rows(rel, graph))
        broken |= write_csv(folder / file, _rel_header(rel), rows)
        words.append(f"--relationships={file}")
    if broken:
        words.append("--multiline-fields=true")
    command = " \\\n    ".join(["neo4j-admin database import full", *words, '"${1:-neo4j}"'])
    write_text(folder / "import.sh", f"#!/bin/sh\n# Run it in this folder; its argument is the database.\n{command}\n")
    (folder / "import.sh").chmod(0o755)
    labels = [label for node in graph.nodes for label in node.labels]
    alone = [node for node in graph.nodes if len(node.labels) == 1 and labels.count(node.word) == 1]
    write_text(folder / "constraints.cypher", "".join(f"{_constraint(node)}\n" for node in alone))
    return [
        "import.sh makes a database of the files; run it in this folder",
        "constraints.cypher says which keys are unique, for cypher-shell and afterwards",
    ]
