"""Writes a graph as plain CSV files, with a header of names alone, and the command that makes a graph of them again."""

from __future__ import annotations

import shlex
from pathlib import Path

from ..manifest import node_rows, rel_rows
from ..model import Graph
from ..names import unused
from ..output import FileNames
from .tables_out import write_csv, write_text


def export_csv(graph: Graph, folder: Path) -> list[str]:
    """Writes the files; gives what a reader should know of them."""
    names, words, notes = FileNames(), [], []
    for node in graph.nodes:
        file = names.take(node.word)
        write_csv(folder / file, [field.name for field in node.fields], node_rows(node))
        words.append(f"--node {shlex.quote(f'{node.word}={file}:{node.key.name}')}")
    for rel in graph.rels:
        file = names.take(graph.name_of(rel))
        header = ["from", "to"]
        for field in rel.fields:
            header.append(unused(field.name, header, any_case=False))
            if header[-1] != field.name:
                notes.append(f"{rel.type}.{field.name} is the column {header[-1]}")
        write_csv(folder / file, header, rel_rows(rel, graph))
        words.append(f"--rel {shlex.quote(f'{rel.type}={file}:{rel.source}.from>{rel.target}.to')}")
    command = " \\\n    ".join(["graphq-import csv", *words, '--comments "" --strict --out "${1:-graph}"'])
    write_text(folder / "import.sh", f"#!/bin/sh\n# Run it in this folder; its argument is the folder of the new graph.\n{command}\n")
    (folder / "import.sh").chmod(0o755)
    return [
        "import.sh makes a graph of the files again; run it in this folder. Kinds are guessed then: of texts that all look "
        "like integers it makes integers, unless --text names the property",
        *notes,
    ]
