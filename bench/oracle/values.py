"""Values: when two are equal or one is less, the order of all of them, and their text."""

from __future__ import annotations

from .graph import Graph, Node, NodeTable, Relationship, RelationshipTable, Value

# The order of ORDER BY: nodes, relationships, strings, booleans, integers, null.
RANKS = {Node: 0, Relationship: 1, str: 2, bool: 3, int: 4, type(None): 5}
ESCAPES = {"\\": "\\\\", "\n": "\\n", "\r": "\\r", "\t": "\\t"}

Rank = tuple[int, tuple[int, int] | str | int]


def equal(left: Value, right: Value) -> bool | None:
    """The value of `left = right`."""
    if left is None or right is None:
        return None
    return type(left) is type(right) and left == right


def less(left: Value, right: Value) -> bool | None:
    """The value of `left < right`."""
    if type(left) is not type(right):
        return None
    if isinstance(left, str) and isinstance(right, str):
        return left < right
    return left < right if isinstance(left, int) and isinstance(right, int) else None


def rank(value: Value) -> Rank:
    """What two values are compared by in ascending order; the same for the same values alone."""
    number = RANKS[type(value)]
    if value is None:
        return number, 0
    if isinstance(value, Node | Relationship):
        return number, (value.table, value.row)
    return number, value


def escaped(text: str) -> str:
    """A name as it is written in a reply."""
    return "".join(ESCAPES.get(character, character) for character in text)


def spelled(graph: Graph, value: Value) -> str:
    """A value as it is written in a reply."""
    match value:
        case None:
            return "null"
        case bool():
            return "true" if value else "false"
        case int():
            return str(value)
        case str():
            return "'" + escaped(value).replace("'", "\\'") + "'"
        case Node():
            node_table: NodeTable = graph.nodes[value.table]
            return f"({node_table.word} {spelled(graph, node_table.rows[value.row][0])})"
        case Relationship():
            return f"[{numbered_type(graph, value.table)} #{value.row}]"


def numbered_type(graph: Graph, number: int) -> str:
    """The type of a table, with the table's place among those of the type if there are more."""
    table: RelationshipTable = graph.relationships[number]
    same = [at for at, other in enumerate(graph.relationships) if other.type == table.type]
    return table.type if len(same) == 1 else f"{table.type}/{same.index(number) + 1}"
