"""What goes wrong, as exceptions: each says what was refused, where, and what to do."""

from __future__ import annotations

from graphq_tools.schema import Schema
from graphq_tools.text_table import caret


class Error(Exception):
    """What all exceptions of graphq are."""


class NotInstalled(Error):
    """The program graphq, or a Python module that is asked for, is not there."""


class ProgramEnded(Error):
    """The program ended where it should not have; the next query starts it again, and loads the graph again."""

    def __init__(self, status: int, said: str = "") -> None:
        super().__init__(said or f"graphq ended with status {status}")
        self.status = status
        self.said = said


class LoadError(Error):
    """The graph is refused: the line of docs/load-format.md, as `load: NoFile x.csv`, and what to do."""

    def __init__(self, line: str, manifest: str) -> None:
        self.refusal = line.removeprefix("load: ")
        self.kind = self.refusal.split(" ", 1)[0]
        self.hint = _load_hint(line, manifest)
        super().__init__("\n".join([self.refusal, *([self.hint] if self.hint else [])]))


class QueryError(Error):
    """A query is refused, or has no rows for what is wrong with it: the line of docs/language.md, its place, and what to do.

    `kind` is the first word, as `Syntax`. `position` counts the characters of the query before the place, `line` and
    `column` count from 1; all are None where a refusal has no place.
    """

    def __init__(self, line: str, statement: str, schema: Schema | None = None) -> None:
        self.refusal = line.removeprefix("error: ")
        self.kind = self.refusal.split(" ", 1)[0]
        self.statement = statement
        name = self.refusal.removeprefix("UnknownParameter ")
        of_call = f"${name} has no value: give it one in the call, as in query(.., {name}=..)"
        self.hint = of_call if self.kind == "UnknownParameter" else _hint(line, statement, schema)
        self.position = _position(line, statement)
        self.line: int | None = None
        self.column: int | None = None
        if self.position is not None:
            before = statement[: self.position]
            self.line = before.count("\n") + 1
            self.column = self.position - (before.rfind("\n") + 1) + 1
        super().__init__("\n".join([self.refusal, *caret(statement, line), *([self.hint] if self.hint else [])]))


def _hint(line: str, statement: str, schema: Schema | None) -> str | None:
    try:
        from graphq_tools.hints import hint
    except ImportError:
        return None
    return hint(line, statement, schema)


def _position(line: str, statement: str) -> int | None:
    try:
        from graphq_tools.hints import place
    except ImportError:
        return None
    return place(statement, line)


def _load_hint(line: str, manifest: str) -> str | None:
    try:
        from graphq_tools.hints import load_hint
    except ImportError:
        return None
    return load_hint(line, manifest)
