"""Writes a graph as vertices and edges, as Spark's GraphFrames take them, and a script that reads them."""

from __future__ import annotations

from collections.abc import Iterator
from pathlib import Path

from ..manifest import node_rows, rel_rows
from ..model import Field, Graph, NodeTable, RelTable
from ..names import unused
from .tables_out import spread, union, write_csv, write_text

_TYPES = {"int": "LongType()", "string": "StringType()", "bool": "BooleanType()"}

_SCRIPT = '''\
"""Reads vertices.csv and edges.csv into a GraphFrame, for pyspark with GraphFrames:

    spark-submit --packages graphframes:graphframes:0.8.4-spark3.5-s_2.12 load.py
"""

from graphframes import GraphFrame
from pyspark.sql import SparkSession
from pyspark.sql.types import BooleanType, LongType, StringType, StructField, StructType

VERTICES = StructType([
{vertices}
])
EDGES = StructType([
{edges}
])


def load(spark: SparkSession, folder: str = ".") -> GraphFrame:
    """The graph in a folder, which may be one of a file system of many machines."""
    reader = spark.read.option("header", True).option("multiLine", True).option("escape", '"')
    vertices = reader.schema(VERTICES).csv(f"{{folder}}/vertices.csv")
    edges = reader.schema(EDGES).csv(f"{{folder}}/edges.csv")
    return GraphFrame(vertices, edges)


if __name__ == "__main__":
    graph = load(SparkSession.builder.appName("graph").getOrCreate())
    graph.vertices.groupBy("labels").count().show()
    graph.edges.groupBy("relationship").count().show()
'''


def _columns(leading: list[str], wide: list[Field], notes: list[str]) -> list[Field]:
    """The leading columns and the properties: a property gives way to a leading one and to one of another case."""
    columns, taken = [Field(name, "string") for name in leading], {name.lower() for name in leading}
    for field in wide:
        name = unused(field.name, taken)
        taken.add(name.lower())
        columns.append(Field(name, field.kind))
        if name != field.name:
            notes.append(f"the property {field.name} is the column {name}")
    return columns


def _schema(columns: list[Field]) -> str:
    return "\n".join(f'    StructField("{column.name}", {_TYPES[column.kind]}),' for column in columns)


def _vertices(table: NodeTable, wide: list[Field]) -> Iterator[list[str]]:
    for row in spread(node_rows(table), 0, table.fields, wide):
        key = row[[field.name for field in wide].index(table.key.name)]
        yield [f"{table.word}/{key}", table.word, *row]


def _edges(table: RelTable, graph: Graph, wide: list[Field]) -> Iterator[list[str]]:
    for source, target, *row in spread(rel_rows(table, graph), 2, table.fields, wide):
        yield [f"{table.source}/{source}", f"{table.target}/{target}", table.type, *row]


def export_graphframes(graph: Graph, folder: Path) -> list[str]:
    """Writes the files; gives what a reader should know of them."""
    notes: list[str] = []
    of_nodes = union([node.fields for node in graph.nodes])
    of_rels = union([rel.fields for rel in graph.rels])
    vertices = _columns(["id", "labels"], of_nodes, notes)
    edges = _columns(["src", "dst", "relationship"], of_rels, notes)
    rows = (row for node in graph.nodes for row in _vertices(node, of_nodes))
    write_csv(folder / "vertices.csv", [column.name for column in vertices], rows)
    rows = (row for rel in graph.rels for row in _edges(rel, graph, of_rels))
    write_csv(folder / "edges.csv", [column.name for column in edges], rows)
    write_text(folder / "load.py", _SCRIPT.format(vertices=_schema(vertices), edges=_schema(edges)))
    return ["load.py reads vertices.csv and edges.csv into a GraphFrame; an id is LABELS/KEY", *notes]
