"""Rows of a query, and what becomes of them: tuples, dictionaries, tables of other packages, a graph of networkx."""

from __future__ import annotations

import html
import importlib
from collections.abc import Iterator
from typing import TYPE_CHECKING, Any, overload

from graphq_tools.packages import package_of
from graphq_tools.text_table import visible

from .connection import Reply
from .errors import NotInstalled
from .networks import network_of
from .values import Node, Rel, Value, row_of, unescaped

if TYPE_CHECKING:
    from .graph import Graph

# So many rows are shown in a notebook.
SHOWN_ROWS = 20


class Rows:
    """Rows as they come, each a tuple of Python values; they come once."""

    def __init__(self, reply: Reply) -> None:
        self._reply = reply
        self.columns: list[str] = [unescaped(name) for name in next(reply).decode("utf-8").split("\t")]
        self._ended = False

    def __iter__(self) -> Iterator[tuple[Value, ...]]:
        return self

    def __next__(self) -> tuple[Value, ...]:
        if self._ended:
            raise StopIteration
        line = next(self._reply)
        if line.startswith(b"rows "):
            self._ended = True
            raise StopIteration
        return row_of(line)

    def dicts(self) -> Iterator[dict[str, Value]]:
        """The rows as dictionaries by the names of the columns."""
        return (dict(zip(self.columns, row, strict=True)) for row in self)


class Result:
    """The rows of a query, each a tuple of Python values. They are read where they are asked for, and kept then."""

    def __init__(self, rows: Rows, graph: Graph) -> None:
        self._coming = rows
        self._rows: list[tuple[Value, ...]] = []
        self._graph = graph

    @property
    def columns(self) -> list[str]:
        """The names of the columns."""
        return self._coming.columns

    def __iter__(self) -> Iterator[tuple[Value, ...]]:
        at = 0
        while at < len(self._rows) or self._more():
            yield self._rows[at]
            at += 1

    def _more(self) -> bool:
        """Reads one more row, if there is one."""
        row = next(self._coming, None)
        if row is not None:
            self._rows.append(row)
        return row is not None

    def rows(self) -> list[tuple[Value, ...]]:
        """All rows."""
        self._rows.extend(self._coming)
        return self._rows

    def __len__(self) -> int:
        return len(self.rows())

    def __bool__(self) -> bool:
        return bool(self._rows) or self._more()

    @overload
    def __getitem__(self, at: int) -> tuple[Value, ...]: ...
    @overload
    def __getitem__(self, at: slice) -> list[tuple[Value, ...]]: ...

    def __getitem__(self, at: int | slice) -> tuple[Value, ...] | list[tuple[Value, ...]]:
        while isinstance(at, int) and 0 <= at and len(self._rows) <= at and self._more():
            pass
        return self._rows[at] if isinstance(at, int) and at >= 0 else self.rows()[at]

    def dicts(self) -> list[dict[str, Value]]:
        """The rows as dictionaries by the names of the columns."""
        return [dict(zip(self.columns, row, strict=True)) for row in self]

    def to_pandas(self) -> Any:
        """A `DataFrame`: integers as `Int64` and booleans as `boolean`, which may be null; nodes and relationships as they are."""
        pandas = _module("pandas")
        columns = self._columns()
        kinds = {"int": "Int64", "bool": "boolean"}
        made = {
            at: pandas.Series(values, dtype=kinds.get(_kind(values), "object")) for at, values in enumerate(columns)
        }
        frame = pandas.DataFrame(made)
        frame.columns = self.columns
        return frame

    def to_arrow(self) -> Any:
        """A `pyarrow.Table`: nodes and relationships by their texts, as `(Person 1)`; a column of several kinds by its texts too."""
        pyarrow = _module("pyarrow")
        kinds = {"int": pyarrow.int64(), "bool": pyarrow.bool_()}
        arrays = []
        for values in self._columns():
            kind = kinds.get(_kind(values))
            texts = values if kind else [value if value is None else str(value) for value in values]
            arrays.append(pyarrow.array(texts, type=kind or pyarrow.string()))
        return pyarrow.Table.from_arrays(arrays, names=self.columns)

    def to_networkx(self, properties: bool = True) -> Any:
        """A `MultiDiGraph` of the nodes and relationships in the rows, and of the ends of these.

        Nodes are `Node` values and the keys of edges `Rel` values. Both have their properties as attributes, which are read
        from the files of the graph, as the ends are, and nodes also `label`; relationships have `type`.
        """
        networkx = _module("networkx")
        values = [value for row in self for value in row if isinstance(value, Node | Rel)]
        return network_of(networkx.MultiDiGraph(), values, self._graph.manifest, self._graph.folder, properties)

    def _columns(self) -> list[list[Value]]:
        rows = self.rows()
        return [list(column) for column in zip(*rows, strict=True)] if rows else [[] for _ in self.columns]

    def __repr__(self) -> str:
        there = f"{len(self._rows)} rows read" if self._rows else "no row read yet"
        return f"<graphq.Result of {', '.join(self.columns)}: {there}>"

    def _repr_html_(self) -> str:
        """The first rows as a table."""
        shown = self[0:SHOWN_ROWS] if self._ended_within(SHOWN_ROWS) else [self[at] for at in range(SHOWN_ROWS)]
        head = "".join(f"<th>{html.escape(visible(name))}</th>" for name in self.columns)
        body = "".join(f"<tr>{''.join(map(_cell, row))}</tr>" for row in shown)
        below = f"{len(shown)} rows" if len(shown) < SHOWN_ROWS else f"the first {SHOWN_ROWS} rows"
        if len(shown) == SHOWN_ROWS and self._ended_within(SHOWN_ROWS + 1):
            below = f"{SHOWN_ROWS} rows"
        return f"<table><thead><tr>{head}</tr></thead><tbody>{body}</tbody></table><p>{below}</p>"

    def _ended_within(self, count: int) -> bool:
        """Whether there are fewer rows than this."""
        while len(self._rows) < count:
            if not self._more():
                return True
        return False


def _cell(value: Value) -> str:
    if value is None:
        return "<td><i>null</i></td>"
    if isinstance(value, bool):
        return f"<td>{'true' if value else 'false'}</td>"
    if isinstance(value, int):
        return f'<td style="text-align: right">{value}</td>'
    return f'<td style="text-align: left">{html.escape(visible(str(value)))}</td>'


def _kind(values: list[Value]) -> str:
    """`int` or `bool` where all values that are there are such, and else `object`."""
    kinds = {type(value) for value in values if value is not None}
    return "int" if kinds == {int} else "bool" if kinds == {bool} else "object"


def _module(name: str) -> Any:
    try:
        return importlib.import_module(name)
    except ImportError as error:
        raise NotInstalled(f"the Python module {name} is missing: it is in {package_of(name)}") from error
