"""Reads GraphML, GEXF, GML and node-link JSON, through networkx, which holds the whole graph in memory."""

from __future__ import annotations

import inspect
import json
import math
import re
from collections import Counter
from pathlib import Path
from typing import Any
from xml.etree.ElementTree import ParseError

from ..csvfile import not_utf8, open_bytes
from ..outcome import BadRow, Refusal, one_line, package
from .builder import Nodes, TooManyTables
from .intake import Intake
from .kinds import fits
from .labels import MOST, flags
from .spool import Property

FORMS = (".graphml", ".gexf", ".gml", ".json")
# What the readers of networkx raise for files that are well-formed and something else than they should be.
_OF_THE_READERS = (ValueError, TypeError, AttributeError, LookupError, ArithmeticError, RecursionError)
_LINE = re.compile(r"(?:line |\((?=\d+, ))(\d+)")


def _form(path: Path) -> str:
    name = path.name.lower().removesuffix(".gz")
    return next((form for form in FORMS if name.endswith(form)), "")


def _hashable(value: Any) -> Any:
    return tuple(value) if isinstance(value, list) else value


def _node_link(networkx: Any, data: Any) -> Any:
    """The graph of node-link JSON, whose list of edges is called `links` or `edges`."""
    if not isinstance(data, dict) or not isinstance(data.get("nodes"), list):
        raise ValueError("it is no node-link JSON: there is no list of nodes")
    if "links" not in data:
        data["links"] = data.pop("edges", None)
    if not isinstance(data["links"], list):
        raise ValueError("it is no node-link JSON: there is no list of links or edges")
    if not all(isinstance(one, dict) and "id" in one for one in data["nodes"]):
        raise ValueError("it is no node-link JSON: a node is no object with an id")
    if not all(isinstance(one, dict) and "source" in one and "target" in one for one in data["links"]):
        raise ValueError("it is no node-link JSON: a link is no object with a source and a target")
    ids = [_hashable(one["id"]) for one in data["nodes"]]
    if len(set(ids)) < len(ids):
        raise ValueError(f"two nodes have the id {next(one for one, count in Counter(ids).items() if count > 1)!r}")
    read = networkx.node_link_graph
    return read(data, edges="links") if "edges" in inspect.signature(read).parameters else read(data)


def _load(path: Path) -> Any:
    """The graph in a file."""
    try:
        import networkx
    except ImportError as error:
        raise package("networkx") from error
    form = _form(path)
    if not form:
        raise Refusal(f"{path}: its name ends with none of {', '.join(FORMS)}")
    with open_bytes(path) as stream:
        try:
            match form:
                case ".graphml":
                    return networkx.read_graphml(stream)
                case ".gexf":
                    return networkx.read_gexf(stream)
                case ".gml":
                    return networkx.parse_gml([line.decode("utf-8") for line in stream], label="id")
            return _node_link(networkx, json.loads(stream.read().decode("utf-8-sig")))
        except ParseError as error:
            raise BadRow(path, error.position[0], str(error)) from error
        except json.JSONDecodeError as error:
            raise BadRow(path, error.lineno, error.msg) from error
        except UnicodeDecodeError as error:
            raise not_utf8(path) from error
        except KeyError as error:
            raise Refusal(f"{path}: the reader of networkx knows no {error}") from error
        except (networkx.NetworkXException, *_OF_THE_READERS) as error:
            why = " ".join(str(error).split())
            found = _LINE.search(why)
            raise BadRow(path, int(found[1]), why) if found else Refusal(f"{path}: {why}") from error


def text_of(value: Any) -> tuple[str, str]:
    """A value's text in a file, and the kind that holds it; the text is empty for null."""
    if value is None or (isinstance(value, float) and math.isnan(value)):
        return "", ""
    if isinstance(value, bool):
        return ("true" if value else "false"), "bool"
    if isinstance(value, int):
        return str(value), "int" if fits(value) else "string"
    if isinstance(value, float):
        return (str(int(value)) if value.is_integer() and abs(value) < 2**53 else repr(value)), "decimal"
    if isinstance(value, str):
        return value, "string"
    raise ValueError(f"is a {type(value).__name__}, which graphq cannot hold")


class _Attributes:
    """The attributes of all nodes, or of all edges: what each one becomes, by the values that it has anywhere."""

    def __init__(self, intake: Intake, rows: list[dict[str, Any]], left: set[str]) -> None:
        kinds: dict[str, set[str]] = {}
        for row in rows:
            for name, value in row.items():
                if name not in left:
                    kinds.setdefault(name, set()).add(self._kind(intake, name, value))
        self.properties: dict[str, Property] = {}
        for name, seen in kinds.items():
            one = intake.property(name, *self._family(seen - {""}))
            if one is not None:
                self.properties[name] = one

    @staticmethod
    def _kind(intake: Intake, name: str, value: Any) -> str:
        plain = intake.properties.plain(str(name))
        if plain in intake.choices.as_text or plain in intake.choices.dropped:
            return "string"
        try:
            return text_of(value)[1]
        except ValueError as error:
            hint = f"take its text by --text {plain}, or leave it out by --drop {plain}"
            raise Refusal(f"the property '{name}' {error}: {hint}") from error

    @staticmethod
    def _family(seen: set[str]) -> tuple[str, str]:
        if seen <= {"int", "decimal"} and "decimal" in seen:
            return "decimal", "decimal"
        if len(seen) > 1:
            return "text", " and ".join(sorted(seen))
        kind = next(iter(seen), "string")
        return kind, kind

    def cells(self, names: list[str], row: dict[str, Any]) -> list[str]:
        """The values of a row for some attributes."""
        cells = []
        for name in names:
            value = row.get(name)
            text = json.dumps(value) if isinstance(value, (list, dict)) else text_of(value)[0]
            cells.append(self.properties[name].treatment.convert(text) if text else "")
        return cells

    def of(self, row: dict[str, Any]) -> list[str]:
        """The attributes of a row that are taken."""
        return [name for name in row if name in self.properties]


def _labels(intake: Intake, row: dict[str, Any], attribute: str) -> list[str]:
    """A node's labels: a list of texts, or a text such as `:Person:Student`."""
    value = row.get(attribute)
    texts = value if isinstance(value, list) else str(value or "").split(":")
    return [intake.labels.plain(str(one).strip()) for one in texts if str(one).strip()] or [intake.label]


def _nodes(intake: Intake, path: Path, graph: Any, attribute: str) -> None:
    rows = [dict(row) for _, row in graph.nodes(data=True)]
    attributes = _Attributes(intake, rows, {attribute})
    for row in rows if intake.kept.word == MOST else ():
        intake.kept.count(_labels(intake, row, attribute))
    part = intake.part()
    for (node, _), row in zip(graph.nodes(data=True), rows, strict=True):
        try:
            kept, others = intake.kept.split(_labels(intake, row, attribute), intake.label)
            table: Nodes = intake.builder.nodes(kept)
            names = attributes.of(row)
            more = flags(others, [one.name for one in attributes.properties.values()])
            places = intake.builder.place(table, [*(attributes.properties[name] for name in names), *more], part)
            cells = [*attributes.cells(names, row), *["true"] * len(more)]
            intake.builder.add_node(table, "", _key(node), places, cells)
        except ValueError as error:
            intake.complaints.add(Refusal(f"{path}: node {node!r}: {one_line(str(error))}"))
            if isinstance(error, TooManyTables):
                break
    intake.complaints.say()


def _edges(intake: Intake, path: Path, graph: Any, attribute: str) -> None:
    edges = [(source, target, dict(row)) for source, target, row in graph.edges(data=True)]
    attributes = _Attributes(intake, [row for _, _, row in edges], {attribute})
    part = intake.part()
    for source, target, row in edges:
        try:
            ends = [_key(source), _key(target)]
            tables = [intake.builder.ends("", key) for key in ends]
            name = intake.types.plain(str(row.get(attribute) or intake.type))
            table = intake.builder.rels(name, tables[0], tables[1])
            names = attributes.of(row)
            places = intake.builder.place(table, [attributes.properties[one] for one in names], part)
            table.add(ends[0], ends[1], places, attributes.cells(names, row))
        except ValueError as error:
            intake.complaints.add(Refusal(f"{path}: edge {source!r} to {target!r}: {one_line(str(error))}"))
            if isinstance(error, TooManyTables):
                break
    intake.complaints.say()


def _key(node: Any) -> str:
    if isinstance(node, (str, int)) and not isinstance(node, bool):
        return str(node)
    raise ValueError("its id is neither a text nor an integer")


def read_networkx(file: str, labels_from: str, type_from: str, intake: Intake) -> None:
    """Takes in a graph. Labels and types are the values of these attributes, where an element has them."""
    path = Path(file)
    graph = _load(path)
    if not graph.is_directed() and graph.number_of_edges() and not intake.choices.both:
        why = "each edge is one relationship, so ask with --, and not with -->; --both writes it in both directions"
        intake.told.append(f"the graph is undirected: {why}")
    _nodes(intake, path, graph, labels_from)
    _edges(intake, path, graph, type_from)
