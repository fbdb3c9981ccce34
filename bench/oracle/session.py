"""The replies that are permitted to the statements of a session, one after another."""

from __future__ import annotations

import re
from dataclasses import replace

from . import syntax
from .binder import bind
from .errors import Effort, Refused
from .graph import Constant, Field, Graph
from .parser import parse
from .plans import plan_end
from .replies import Permitted, Settings, permitted_to, refusal
from .values import escaped, spelled

MOST_PARAMETERS = 256
STEPS = 100_000
# A string, a quoted name and a comment, in which a `;` ends nothing; each may lack its end.
ENCLOSED = re.compile(
    rb"'(?:\\.|[^'\\])*'?|\"(?:\\.|[^\"\\])*\"?|`[^`]*`?|//[^\n\r]*|/\*.*?(?:\*/|\Z)|;", re.DOTALL
)


def statements_of(source: bytes) -> list[bytes]:
    """An input, cut at each `;` that ends a statement."""
    found, start = [], 0
    for piece in ENCLOSED.finditer(source):
        if piece[0] == b";":
            found.append(source[start : piece.start()])
            start = piece.end()
    return [*found, source[start:]]


class Session:
    """A session over a graph, with the parameters that are set so far."""

    def __init__(self, graph: Graph, settings: Settings, steps: int = STEPS) -> None:
        self.graph = graph
        self.settings = settings
        self.steps = steps
        self.parameters: dict[str, Constant] = {}

    def permitted(self, source: bytes) -> Permitted | None:
        """What may be the reply to the next statement; nothing where it has none."""
        try:
            statement = parse(source, self.parameters)
            return None if statement is None else self.answer(statement)
        except Refused as refused:
            return Permitted([refusal(refused.line)])

    def answer(self, statement: syntax.Statement) -> Permitted:
        """What may be the reply to a statement that its text spells."""
        match statement:
            case syntax.Schema():
                return Permitted([self.schema()])
            case syntax.SetParameter():
                return Permitted([self.set_parameter(statement)])
        effort = Effort(self.steps)
        bound = bind(self.graph, statement.query, effort)
        if statement.form == "plan":
            return Permitted(plan_end=plan_end(bound))
        permitted = permitted_to(self.graph, bound, self.settings, effort)
        return replace(permitted, is_profile=statement.form == "profile")

    def schema(self) -> list[str]:
        """The tables of the graph."""
        nodes = [
            f"node {table.word} {len(table.rows)}{fields_text(table.fields)}"
            for table in self.graph.nodes
        ]
        words = [table.word for table in self.graph.nodes]
        return nodes + [
            f"rel {table.type} {words[table.source]} {words[table.target]} {table.multiplicity}"
            f" {len(table.rows)}{fields_text(table.fields)}"
            for table in self.graph.relationships
        ]

    def set_parameter(self, statement: syntax.SetParameter) -> list[str]:
        """Sets a parameter."""
        name, value = statement.name, statement.value
        if name not in self.parameters and len(self.parameters) == MOST_PARAMETERS:
            raise Refused("TooManyParameters")
        self.parameters[name] = value
        return [f"param {escaped(name)} {spelled(self.graph, value)}"]


def fields_text(fields: list[Field]) -> str:
    """The properties of a table, each behind a blank."""
    return "".join(f" {field.name}:{field.kind}" for field in fields)
