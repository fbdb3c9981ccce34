"""Graphs of networkx, made of the nodes and relationships of rows."""

from __future__ import annotations

import contextlib
from collections.abc import Iterable
from typing import Any

from graphq_tools.manifest import node_rows, read_manifest, rel_rows
from graphq_tools.model import Field, Graph, NodeTable, RelTable

from .values import Node, Rel, Value


def network_of(network: Any, values: Iterable[Node | Rel], manifest: str, folder: str, properties: bool) -> Any:
    """Fills a network with values; ends and properties are read from the files of a graph, which count from a folder."""
    distinct = list(dict.fromkeys(values))
    network.add_nodes_from(one for one in distinct if isinstance(one, Node))
    rels = [one for one in distinct if isinstance(one, Rel)]
    if rels or (properties and len(network)):
        with contextlib.chdir(folder):
            graph = read_manifest(manifest)
            for type_name, table in dict.fromkeys((one.type, one.table) for one in rels):
                wanted = {one.number: one for one in rels if (one.type, one.table) == (type_name, table)}
                _add_rels(network, wanted, graph.tables_of(type_name)[(table or 1) - 1], graph, properties)
            if properties:
                for node_table in graph.nodes:
                    _add_properties(network, node_table)
    for node in network:
        network.nodes[node]["label"] = node.label
    return network


def _add_rels(network: Any, wanted: dict[int, Rel], table: RelTable, graph: Graph, properties: bool) -> None:
    source, target = graph.node(table.source), graph.node(table.target)
    for number, row in enumerate(rel_rows(table, graph)):
        rel = wanted.get(number)
        if rel is not None:
            ends = Node(source.word, _key(row[0], source)), Node(target.word, _key(row[1], target))
            network.add_edge(*ends, key=rel)
            edge: dict[str, Value] = network.edges[(*ends, rel)]
            edge.update(_values(table.fields, row[2:]) if properties else {})
            edge["type"] = table.type


def _add_properties(network: Any, table: NodeTable) -> None:
    mine = {node.key: node for node in network if node.label == table.word}
    for row in node_rows(table) if mine else ():
        node = mine.get(_key(row[0], table))
        if node is not None:
            network.nodes[node].update(_values(table.fields, row))


def _key(text: str, table: NodeTable) -> int | str:
    return int(text) if table.key.kind == "int" else text


def _values(fields: Iterable[Field], row: Iterable[str]) -> dict[str, Value]:
    return {field.name: _value(text, field.kind) for field, text in zip(fields, row, strict=True)}


def _value(text: str, kind: str) -> Value:
    if not text:
        return None
    return int(text) if kind == "int" else text == "true" if kind == "bool" else text
