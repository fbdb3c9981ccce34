"""Reads a manifest and the files that it names, as docs/load-format.md has them."""

from __future__ import annotations

import re
from collections.abc import Iterator

from .csvfile import open_text, records
from .model import MOST_LABELS, Field, Graph, NodeTable, RelTable
from .names import is_plain
from .outcome import BadRow

MULTIPLICITIES = ("many_many", "many_one", "one_many", "one_one")
_KINDS = ("int", "string", "bool")
_BLANKS = re.compile(r"[ \t]+")


def fields_of(file: str, names: list[str]) -> list[Field]:
    """The properties that the fields of a header declare."""
    fields: list[Field] = []
    for text in names:
        name, _, kind = text.rpartition(":")
        if not is_plain(name) or kind not in _KINDS:
            raise BadRow(file, 1, f"'{text}' is no field NAME:KIND with a KIND of {', '.join(_KINDS)}")
        if name in [field.name for field in fields]:
            raise BadRow(file, 1, f"there are two fields {name}")
        fields.append(Field(name, kind))
    return fields


def _header(file: str) -> list[str]:
    for _, record in records(file):
        return record
    raise BadRow(file, 1, "there is no header")


def _node(words: list[str], graph: Graph) -> NodeTable:
    labels = tuple(words[1].split(":"))
    if words[1] in [node.word for node in graph.nodes]:
        raise ValueError(f"a line above has the nodes {words[1]} already")
    if not all(map(is_plain, labels)) or len(labels) > MOST_LABELS or len(set(labels)) < len(labels):
        raise ValueError(f"{words[1]} is not one to {MOST_LABELS} labels joined by colons")
    table = NodeTable(labels, words[2])
    table.fields = fields_of(table.file, _header(table.file))
    if table.key.kind == "bool":
        raise BadRow(table.file, 1, "the key is an int or a string, and no bool")
    return table


def _rel(words: list[str], graph: Graph) -> RelTable:
    type_name, source, target, multiplicity, file = words[1:]
    table = RelTable(type_name, source, target, multiplicity, file)
    known = [node.word for node in graph.nodes]
    for end in (table.source, table.target):
        if end not in known:
            raise ValueError(f"no line above has the nodes {end}")
    if (type_name, source, target) in [(rel.type, rel.source, rel.target) for rel in graph.rels]:
        raise ValueError(f"a line above has {type_name} from {source} to {target} already")
    if table.multiplicity not in MULTIPLICITIES:
        raise ValueError(f"{table.multiplicity} is none of {', '.join(MULTIPLICITIES)}")
    header = _header(table.file)
    if header[:2] != ["from", "to"]:
        raise BadRow(table.file, 1, "the header of relationships begins with from,to")
    table.fields = fields_of(table.file, header[2:])
    return table


def read_manifest(path: str) -> Graph:
    """The tables of a manifest, with the headers of their files."""
    graph = Graph()
    with open_text(path) as stream:
        lines = stream.read().split("\n")
    for number, line in enumerate(lines, 1):
        text = line.removesuffix("\r").strip(" \t")
        if not text or line.startswith("#"):
            continue
        words = _BLANKS.split(text)
        try:
            if words[0] == "node" and len(words) == 3:
                graph.nodes.append(_node(words, graph))
            elif words[0] == "rel" and len(words) == 6:
                graph.rels.append(_rel(words, graph))
            else:
                raise ValueError("it is neither `node LABELS FILE` nor `rel TYPE FROM TO MULTIPLICITY FILE`")
        except ValueError as error:
            raise BadRow(path, number, str(error)) from error
    return graph


def _value(text: str, field: Field) -> str:
    """A cell as one text for each value: canonical digits, `true` or `false`, a text; empty for null."""
    if not text or field.kind == "string":
        return text
    if field.kind == "bool":
        word = text.lower()
        if word not in ("true", "false"):
            raise ValueError(f"'{text}' is no bool")
        return word
    if not re.fullmatch(r"-?[0-9]+", text, re.ASCII):
        raise ValueError(f"'{text}' is no int")
    return str(int(text))


def node_rows(table: NodeTable) -> Iterator[list[str]]:
    """The rows of a table of nodes, a cell for each field, empty for null."""
    yield from _rows(table.file, table.fields)


def rel_rows(table: RelTable, graph: Graph) -> Iterator[list[str]]:
    """The rows of a table of relationships: the keys of its ends, and then a cell for each field."""
    source, target = graph.node(table.source).key, graph.node(table.target).key
    yield from _rows(table.file, [Field("from", source.kind), Field("to", target.kind), *table.fields])


def _rows(file: str, fields: list[Field]) -> Iterator[list[str]]:
    plain = all(field.kind == "string" for field in fields)
    reader = records(file)
    next(reader, None)
    for line, record in reader:
        if len(record) != len(fields):
            raise BadRow(file, line, f"it has {len(record)} fields, and the header has {len(fields)}")
        try:
            yield record if plain else [_value(text, field) for text, field in zip(record, fields, strict=True)]
        except ValueError as error:
            raise BadRow(file, line, str(error)) from error
