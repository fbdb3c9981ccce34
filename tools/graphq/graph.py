"""A graph that was opened."""

from __future__ import annotations

import os
from collections.abc import Mapping
from types import TracebackType

from graphq_tools.hints.outline import tokens_of
from graphq_tools.schema import Schema, read_schema
from graphq_tools.statements import is_blank, is_closed, split

from .connection import MOST_STATEMENT, Connection, Reply
from .errors import LoadError, ProgramEnded, QueryError
from .plan import Pipeline, Plan, Profile, pipeline_of
from .program import program_of
from .result import Result, Rows
from .values import literal

ORDERS = ("given", "greedy", "least")


def open(
    manifest: str | os.PathLike[str], *, order: str = "greedy", rows: int | None = None, program: str | None = None
) -> Graph:
    """Loads the graph of a manifest, whose names of files count from the folder in which this is called.

    `order` is how queries are gone through, `given`, `greedy` or `least`, and `rows` how many rows a statement may keep;
    docs/language.md has both. Raises `LoadError` where the graph is refused, and `NotInstalled` without a program.
    """
    return Graph(manifest, order=order, rows=rows, program=program)


class Graph:
    """A graph in a program that runs as long as the graph is open; `with` closes it. It may be used by several threads."""

    def __init__(
        self,
        manifest: str | os.PathLike[str],
        *,
        order: str = "greedy",
        rows: int | None = None,
        program: str | None = None,
    ) -> None:
        if order not in ORDERS:
            raise ValueError(f"the order is one of {', '.join(ORDERS)}, and not {order!r}")
        self.manifest = os.fspath(manifest)
        self.folder = os.getcwd()
        self._program = program_of(program)
        words = [f"--manifest={self.manifest}", "--order", order, *(["--rows", str(rows)] if rows is not None else [])]
        self._connection = Connection([os.path.abspath(self._program), *words], self.folder)
        self._schema = self._loaded()

    def _loaded(self) -> Schema:
        """Loads the graph, and gives its tables."""
        reply = self._connection.ask(":schema", {})
        lines: list[str] = []
        try:
            for line in reply:
                lines.append(line.decode("utf-8"))
        except ProgramEnded as ended:
            if lines and lines[0].startswith("load: "):
                raise LoadError(lines[0], self.manifest) from None
            if lines and lines[0].startswith("usage: "):
                raise ValueError("graphq takes neither this manifest's name nor these rows: 1 to 16777216") from None
            raise ended
        return read_schema(lines)

    @property
    def schema(self) -> Schema:
        """The tables of the graph, those of nodes first."""
        return self._schema

    def query(
        self, text: str, parameters: Mapping[str, object] | None = None, /, **named: None | bool | int | str
    ) -> Result:
        """Answers a query. A `$name` in it stands for the value of the parameter of that name.

        The rows are read as they come, and kept once they are read. Raises `QueryError` where the query is refused.
        """
        return Result(self.stream(text, parameters, **named), self)

    def stream(
        self, text: str, parameters: Mapping[str, object] | None = None, /, **named: None | bool | int | str
    ) -> Rows:
        """Answers a query with rows that come once and are not kept."""
        reply, statement = self._ask("", text, {**(parameters or {}), **named})
        return self._rows(reply, statement)

    def plan(
        self, text: str, parameters: Mapping[str, object] | None = None, /, **named: None | bool | int | str
    ) -> Plan:
        """How a query would be gone through."""
        reply, statement = self._ask(":plan ", text, {**(parameters or {}), **named})
        self._refuse(reply, statement)
        return Plan([line.decode("utf-8") for line in reply])

    def profile(
        self, text: str, parameters: Mapping[str, object] | None = None, /, **named: None | bool | int | str
    ) -> Profile:
        """Answers a query, and tells what was spent on it."""
        reply, statement = self._ask(":profile ", text, {**(parameters or {}), **named})
        self._refuse(reply, statement)
        pipelines: list[Pipeline] = []
        while (pipeline := pipeline_of(reply.peek(2), len(pipelines) + 1)) is not None:
            pipelines.append(pipeline)
            next(reply)
        return Profile(pipelines, Result(self._rows(reply, statement), self))

    def stop(self) -> None:
        """Ends a query that runs, from another thread. The next one loads the graph again."""
        self._connection.stop()

    def close(self) -> None:
        """Ends the program. Results keep the rows that they have read."""
        self._connection.close()

    def __enter__(self) -> Graph:
        return self

    def __exit__(
        self, kind: type[BaseException] | None, error: BaseException | None, trace: TracebackType | None
    ) -> None:
        self.close()

    def __repr__(self) -> str:
        return f"graphq.open({self.manifest!r})"

    def _ask(self, command: str, text: str, parameters: Mapping[str, object]) -> tuple[Reply, str]:
        """Sends a statement made of a command and a query; gives its reply, and the query as its places count in it."""
        statement = _one_statement(text)
        literals = {name: literal(value) for name, value in parameters.items()}
        names = list(dict.fromkeys(_parameters_of(statement)))
        for name in names:
            if name not in literals:
                raise QueryError(f"error: UnknownParameter {name}", statement, self._schema)
        if not is_closed(f"{statement}\n"):
            raise self._open_end(statement)
        # A comment to the end of its line needs that end.
        sent = f"{command}{statement}" + ("" if is_closed(statement) else "\n")
        for one in (sent, *(f":param {name} {literals[name]}" for name in names)):
            if len(one.encode("utf-8")) + 8 > MOST_STATEMENT:
                raise ValueError(f"a statement has {MOST_STATEMENT:,} bytes at most, and a parameter not more")
        return self._connection.ask(sent, {name: literals[name] for name in names}), statement

    def _open_end(self, statement: str) -> QueryError:
        """The refusal of a statement whose string, quoted name or comment does not end: a program without a graph has it."""
        other = Connection([os.path.abspath(self._program), "--manifest=/dev/null"], self.folder)
        lines = [line.decode("utf-8") for line in other.ask_last(statement)]
        other.close()
        return QueryError(lines[0] if lines else "error: Lex", statement, self._schema)

    def _rows(self, reply: Reply, statement: str) -> Rows:
        self._refuse(reply, statement)
        return Rows(reply)

    def _refuse(self, reply: Reply, statement: str) -> None:
        """Raises the refusal that a reply is; a column may be called like one, and then more lines follow."""
        first = reply.peek(2)
        if len(first) == 1 and first[0].startswith(b"error: "):
            raise QueryError(first[0].decode("utf-8"), statement, self._schema)


def _one_statement(text: str) -> str:
    """The only statement in a text, without its `;`."""
    statements, rest = split(text)
    whole = [one for one in [*statements, rest] if not is_blank(one)]
    if len(whole) != 1:
        raise ValueError(f"one query is answered at a time, and there are {len(whole)}")
    if whole[0].lstrip().startswith(":"):
        raise ValueError("a statement with a colon is asked for by graph.schema, graph.plan(..) and graph.profile(..)")
    return whole[0]


def _parameters_of(statement: str) -> list[str]:
    """The names of the parameters in a statement: each `$`, and the word after it."""
    tokens = tokens_of(statement)
    return [
        word.name
        for sign, word in zip(tokens, tokens[1:], strict=False)
        if sign.text == "$" and sign.kind == "sign" and word.is_word()
    ]
