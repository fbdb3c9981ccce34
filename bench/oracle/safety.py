"""Which conjuncts may fault, as far as the kinds of the tables' properties tell."""

from __future__ import annotations

from collections.abc import Mapping

from . import syntax
from .graph import Node, NodeTable, Relationship, RelationshipTable
from .patterns import Variable
from .syntax import Expression

KINDS: dict[str, type] = {"int": int, "string": str, "bool": bool}

# The table of each variable of an alternative.
Tables = Mapping[Variable, NodeTable | RelationshipTable]


def may_fault(conjunct: Expression, tables: Tables) -> bool:
    """Whether a conjunct may fault, or may be neither a boolean nor null."""
    return not kinds_of(conjunct, tables) <= {bool} or any(
        may_fault_alone(part, tables) for part in syntax.walk(conjunct)
    )


def may_fault_alone(expression: Expression, tables: Tables) -> bool:
    """Whether an expression may fault where no part of it does."""
    match expression:
        case syntax.Arithmetic() | syntax.Sign():
            return True
        case syntax.Logic() | syntax.Not():
            wanted: set[type] = {bool}
        case syntax.Call() if expression.function.lower() == "type":
            wanted = {Relationship}
        case _:
            return False
    return any(not kinds_of(part, tables) <= wanted for part in syntax.parts(expression))


def kinds_of(expression: Expression, tables: Tables) -> set[type]:
    """The kinds that the value of an expression may have where it is not null."""
    match expression:
        case syntax.Literal():
            return set() if expression.value is None else {type(expression.value)}
        case syntax.Name():
            return {Node if isinstance(tables[expression.name], NodeTable) else Relationship}
        case syntax.Property():
            fields = tables[expression.variable].fields
            return {KINDS[field.kind] for field in fields if field.name == expression.key}
        case syntax.Parentheses():
            return kinds_of(expression.inside, tables)
        case syntax.Call() if expression.function.lower() == "type":
            return {str}
        case syntax.Call():
            return set().union(*(kinds_of(part, tables) for part in expression.arguments))
        case syntax.Arithmetic() | syntax.Sign():
            return {int}
    return {bool}
