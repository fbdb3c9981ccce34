"""Writes a graph as GraphML, which Gephi, yEd, networkx and igraph read."""

from __future__ import annotations

import re
from collections.abc import Iterable
from pathlib import Path
from typing import TextIO
from xml.sax.saxutils import escape, quoteattr

from ..manifest import node_rows, rel_rows
from ..model import Field, Graph, NodeTable
from ..outcome import Refusal, writing

_TYPES = {"int": "long", "string": "string", "bool": "boolean"}
# What XML has no way to write.
_NO_XML = re.compile("[\0-\x08\x0b\x0c\x0e-\x1f\ufffe\uffff]")
_ENTITIES = {"\r": "&#13;", "\n": "&#10;", "\t": "&#9;"}
_HEAD = """\
<?xml version="1.0" encoding="UTF-8"?>
<graphml xmlns="http://graphml.graphdrawing.org/xmlns">
  <key id="labels" for="node" attr.name="labels" attr.type="string"/>
  <key id="type" for="edge" attr.name="type" attr.type="string"/>
"""


class _Ids:
    """The ids of nodes: their keys, where no two nodes of the graph have one key, and else with the labels in front."""

    def __init__(self, graph: Graph) -> None:
        seen: set[str] = set()
        self._alone = True
        for table in graph.nodes if len(graph.nodes) > 1 else ():
            keys = {row[0] for row in node_rows(table)}
            self._alone = self._alone and seen.isdisjoint(keys)
            seen |= keys

    def of(self, table: NodeTable, key: str) -> str:
        """The id of a node."""
        return quoteattr(_held(key if self._alone else f"{table.word}/{key}"), _ENTITIES)


def _held(text: str) -> str:
    found = _NO_XML.search(text)
    if found:
        raise Refusal(f"GraphML holds no text with the character U+{ord(found[0]):04X}")
    return text


def _keys(end: str, tables: Iterable[list[Field]]) -> dict[Field, str]:
    """An id for each property of nodes or of edges; one that has two kinds in two tables has two."""
    fields = dict.fromkeys(field for several in tables for field in several)
    return {field: f"{end}{number}" for number, field in enumerate(fields)}


def _data(stream: TextIO, fields: list[Field], cells: Iterable[str], keys: dict[Field, str]) -> None:
    for field, cell in zip(fields, cells, strict=True):
        if cell:
            stream.write(f'<data key="{keys[field]}">{escape(_held(cell), _ENTITIES)}</data>')


def export_graphml(graph: Graph, folder: Path) -> list[str]:
    """Writes `graph.graphml`; gives what a reader should know of it."""
    path = folder / "graph.graphml"
    ids = _Ids(graph)
    of_nodes = _keys("n", (table.fields for table in graph.nodes))
    of_edges = _keys("e", (table.fields for table in graph.rels))
    with writing(path), open(path, "w", encoding="utf-8", newline="\n") as stream:
        stream.write(_HEAD)
        for end, keys in (("node", of_nodes), ("edge", of_edges)):
            for field, key in keys.items():
                name = quoteattr(field.name)
                stream.write(f'  <key id="{key}" for="{end}" attr.name={name} attr.type="{_TYPES[field.kind]}"/>\n')
        stream.write('  <graph id="graph" edgedefault="directed">\n')
        for node in graph.nodes:
            labels = f'<data key="labels">{escape(node.word)}</data>'
            for row in node_rows(node):
                stream.write(f"    <node id={ids.of(node, row[0])}>{labels}")
                _data(stream, node.fields, row, of_nodes)
                stream.write("</node>\n")
        for rel in graph.rels:
            source, target = graph.node(rel.source), graph.node(rel.target)
            name = f'<data key="type">{escape(rel.type)}</data>'
            for row in rel_rows(rel, graph):
                ends = f"source={ids.of(source, row[0])} target={ids.of(target, row[1])}"
                stream.write(f"    <edge {ends}>{name}")
                _data(stream, rel.fields, row[2:], of_edges)
                stream.write("</edge>\n")
        stream.write("  </graph>\n</graphml>\n")
    return ["graph.graphml is the graph: the attribute labels has the labels of a node, and type the type of an edge"]
