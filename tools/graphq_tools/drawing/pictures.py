"""Pictures of graphs in Graphviz's language: the nodes and relationships of rows."""

from __future__ import annotations

from collections.abc import Iterable
from dataclasses import dataclass, field

from ..manifest import node_rows, rel_rows
from ..model import Graph, NodeTable
from ..outcome import Refusal, Status
from ..replies import Node, Relationship, Value
from ..text_table import visible

# Light colours that a black text can be read on, one for each table of nodes in turn.
_COLOURS = ("#bcd8f0", "#f8d7a8", "#c9e6c3", "#f2c4c4", "#d9ccec", "#f4f0a8", "#c8e8e6", "#e8d3bd")


def quoted(text: str) -> str:
    """A text as Graphviz quotes it, with its line ends, and other control characters as `\\x1b`.

    It would read `&amp;` as one character.
    """
    shown = "\n".join(map(visible, text.split("\n")))
    return '"' + shown.replace("&", "&amp;").replace("\\", "\\\\").replace('"', '\\"').replace("\n", "\\n") + '"'


@dataclass
class Picture:
    """The nodes and relationships to draw: captions by node, and ends and caption by relationship."""

    nodes: dict[Node, str] = field(default_factory=dict)
    edges: dict[Relationship, tuple[Node, Node, str]] = field(default_factory=dict)


def _key(text: str, table: NodeTable) -> int | str:
    return int(text) if table.key.kind == "int" else text


def picture(values: Iterable[Iterable[Value]], graph: Graph, captions: dict[str, str]) -> Picture:
    """What the rows of a reply hold. The ends of relationships and the captions are read from the graph's files."""
    cells = [value for row in values for value in row]
    drawn = Picture({value: "" for value in cells if isinstance(value, Node)})
    wanted = [value for value in dict.fromkeys(cells) if isinstance(value, Relationship)]
    if not drawn.nodes and not wanted:
        raise Refusal("no column of the reply has a node or a relationship", Status.REPLY_REFUSED)
    for name in dict.fromkeys((one.type, one.place) for one in wanted):
        _find_ends([one for one in wanted if (one.type, one.place) == name], graph, captions, drawn)
    for table in graph.nodes:
        _find_captions(table, captions, drawn)
    return drawn


def _find_ends(wanted: list[Relationship], graph: Graph, captions: dict[str, str], drawn: Picture) -> None:
    """Looks up the relationships of one table by their numbers, which are places in its file."""
    tables = graph.tables_of(wanted[0].type)
    if not 0 < wanted[0].place <= len(tables):
        raise Refusal(f"{wanted[0]} is of no table of the manifest", Status.BAD_GRAPH)
    table = tables[wanted[0].place - 1]
    source, target = graph.node(table.source), graph.node(table.target)
    names = [one.name for one in table.fields]
    shown = names.index(captions[table.type]) + 2 if captions.get(table.type) in names else None
    by_number = {one.number: one for one in wanted}
    for number, row in enumerate(rel_rows(table, graph)):
        one = by_number.get(number)
        if one is not None:
            ends = Node(source.word, _key(row[0], source)), Node(target.word, _key(row[1], target))
            drawn.edges[one] = *ends, table.type if shown is None else row[shown]
            for end in ends:
                drawn.nodes.setdefault(end, "")


def _find_captions(table: NodeTable, captions: dict[str, str], drawn: Picture) -> None:
    """Gives each node of a table its caption: its key, or the property that was asked for with one of its labels."""
    names = [one.name for one in table.fields]
    asked = [names.index(captions[label]) for label in table.labels if captions.get(label) in names]
    mine = {node.key: node for node in drawn.nodes if node.word == table.word}
    for node in mine.values():
        drawn.nodes[node] = str(node.key)
    if asked and mine:
        for row in node_rows(table):
            found = mine.get(_key(row[0], table))
            if found is not None and row[asked[0]]:
                drawn.nodes[found] = row[asked[0]]


def draw_rows(drawn: Picture, graph: Graph) -> str:
    """The picture in Graphviz's language. Nodes of one table have one colour, which the legend tells."""
    colours = {table.word: _COLOURS[number % len(_COLOURS)] for number, table in enumerate(graph.nodes)}
    name = {node: f"n{number}" for number, node in enumerate(drawn.nodes)}
    lines = [
        "digraph rows {",
        '  graph [fontname="sans-serif", overlap=false, splines=true];',
        '  node [fontname="sans-serif", fontsize=11, style=filled, shape=box, margin="0.08,0.04"];',
        '  edge [fontname="sans-serif", fontsize=9, color="#666666", len=1.4];',
    ]
    for node, caption in drawn.nodes.items():
        colour = colours.get(node.word, "#eeeeee")
        lines.append(f'  {name[node]} [label={quoted(caption)}, tooltip={quoted(str(node))}, fillcolor="{colour}"];')
    for one, (source, target, caption) in drawn.edges.items():
        ends = f"{name[source]} -> {name[target]}"
        lines.append(f"  {ends} [label={quoted(caption)}, tooltip={quoted(str(one))}];")
    words = dict.fromkeys(node.word for node in drawn.nodes)
    cells = "".join(f'<td bgcolor="{colours.get(word, "#eeeeee")}">{_html(word)}</td>' for word in words)
    lines.append(f'  label=<<table border="0" cellborder="1" cellspacing="4"><tr>{cells}</tr></table>>;')
    return "\n".join([*lines, "}", ""])


def _html(text: str) -> str:
    return visible(text).replace("&", "&amp;").replace("<", "&lt;").replace(">", "&gt;").replace('"', "&quot;")
