"""Answers as text: aligned tables, CSV, JSON, Markdown, and as graphq writes them."""

from __future__ import annotations

import csv
import json
from collections.abc import Callable

from ..replies import Node, Relationship, Rows, Value, unescaped
from ..text_table import aligned, is_numeric, visible

# In these a program may read the answers, so that nothing else is to stand among them.
FOR_PROGRAMS = ("plain", "csv", "json")


def count(rows: int) -> str:
    """So many rows, in words."""
    return f"{rows:,} row{'' if rows == 1 else 's'}"


def _table(reply: Rows) -> list[str]:
    return [*reply.spent, *aligned(reply.columns, reply.rows), f"({count(len(reply.rows))})"]


def _plain(reply: Rows) -> list[str]:
    header = "\t".join(_escaped(name) for name in reply.columns)
    return [*reply.spent, header, *("\t".join(row) for row in reply.rows), f"rows {len(reply.rows)}"]


def _escaped(name: str) -> str:
    """The name of a column as graphq writes it."""
    return name.translate({9: "\\t", 10: "\\n", 13: "\\r", 92: "\\\\"})


def _csv(reply: Rows) -> list[str]:
    """Texts without their quotes, and null as nothing."""

    class _Lines(list[str]):
        def write(self, text: str) -> None:
            self.append(text.removesuffix("\r\n"))

    lines = _Lines()
    writer = csv.writer(lines, lineterminator="\r\n")
    writer.writerow(reply.columns)
    for row in reply.rows:
        writer.writerow("" if cell == "null" else _unquoted(cell) for cell in row)
    return lines


def _unquoted(cell: str) -> str:
    return unescaped(cell[1:-1]) if cell.startswith("'") else cell


def _json(reply: Rows) -> list[str]:
    """An array of objects, one on a line; nodes and relationships are objects too."""
    objects = [
        json.dumps(dict(zip(reply.columns, map(_plain_value, row))), ensure_ascii=False) for row in reply.values()
    ]
    if not objects:
        return ["[]"]
    return [
        f"{'[' if at == 0 else ' '}{text}{',' if at < len(objects) - 1 else ']'}" for at, text in enumerate(objects)
    ]


def _plain_value(value: Value) -> object:
    if isinstance(value, Node):
        return {"labels": value.word.split(":"), "key": value.key}
    if isinstance(value, Relationship):
        return {"type": value.type, "table": value.place, "number": value.number}
    return value if value is None or isinstance(value, (bool, int, str)) else str(value)


def _markdown(reply: Rows) -> list[str]:
    """A table of Markdown; columns of integers stand at the right."""
    columns = [_cell(_escaped(name)) for name in reply.columns]
    right = [is_numeric([row[place] for row in reply.rows]) for place in range(len(columns))]
    lines = [columns, ["---:" if at_right else "---" for at_right in right]]
    lines += [[_cell(cell) for cell in row] for row in reply.rows]
    return [f"| {' | '.join(line)} |" for line in lines]


def _cell(text: str) -> str:
    return visible(text).replace("|", "\\|")


FORMATS: dict[str, Callable[[Rows], list[str]]] = {
    "table": _table,
    "plain": _plain,
    "csv": _csv,
    "json": _json,
    "markdown": _markdown,
}
