"""The command line of graphq-export."""

from __future__ import annotations

import argparse
from collections.abc import Sequence

from ..manifest import read_manifest
from ..outcome import Status
from ..output import new_folder
from ..words import words_of
from .graphframes import export_graphframes
from .graphml import export_graphml
from .kuzu import export_kuzu
from .neo4j import export_neo4j
from .plain_csv import export_csv
from .sql import export_sql

_EXAMPLES = """\
examples:
  graphq-export kuzu --manifest examples/metro/metro.manifest --out metro-kuzu
  graphq-export neo4j --manifest examples/metro/metro.manifest --out metro-neo4j
  graphq-export sqlite --manifest examples/metro/metro.manifest --out metro-sql && sqlite3 m.db <metro-sql/graph.sql
  graphq-export postgresql --manifest examples/metro/metro.manifest --out metro-pg && psql -f metro-pg/graph.sql
  graphq-export graphframes --manifest examples/metro/metro.manifest --out metro-spark
  graphq-export graphml --manifest examples/metro/metro.manifest --out metro-graphml
  graphq-export csv --manifest examples/metro/metro.manifest --out metro-csv

The names of files in a manifest count from the folder in which the tool runs, as they do for graphq.

exit status: 0 done, 2 wrong arguments, 3 the graph is refused, 4 a file cannot be read, 5 the folder cannot be
written, 6 no memory. docs/tools/graphq-export.md has more."""


def parser() -> argparse.ArgumentParser:
    """The parser of the command line."""
    top = words_of("graphq-export", "Writes a graph that graphq loads in the form of another system.", _EXAMPLES)
    top.add_argument("form", choices=("kuzu", "neo4j", "sqlite", "postgresql", "graphframes", "graphml", "csv"))
    top.add_argument("--manifest", required=True, metavar="PATH", help="the graph")
    top.add_argument("--out", required=True, metavar="FOLDER", help="a new folder for what is written")
    top.add_argument("--quiet", action="store_true", help="says nothing where nothing is wrong")
    return top


def main(arguments: Sequence[str]) -> int:
    """Exports a graph by the arguments of the command line."""
    words = parser().parse_args(arguments)
    graph = read_manifest(words.manifest)
    with new_folder(words.out) as folder:
        match words.form:
            case "kuzu":
                notes = export_kuzu(graph, folder)
            case "neo4j":
                notes = export_neo4j(graph, folder)
            case "graphml":
                notes = export_graphml(graph, folder)
            case "csv":
                notes = export_csv(graph, folder)
            case "graphframes":
                notes = export_graphframes(graph, folder)
            case dialect:
                notes = export_sql(graph, folder, dialect)
    if not words.quiet:
        for note in notes:
            print(note)
    return int(Status.DONE)
