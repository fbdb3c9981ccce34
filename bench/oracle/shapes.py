"""When two expressions are the same, and when one is made of columns."""

from __future__ import annotations

from . import syntax
from .syntax import Expression

# What two expressions have in common exactly where they are the same but for parentheses.
Shape = tuple[object, ...]


def shape(expression: Expression) -> Shape:
    """The shape of an expression whose names are resolved."""
    if isinstance(expression, syntax.Parentheses):
        return shape(expression.inside)
    inside = tuple(map(shape, syntax.parts(expression)))
    match expression:
        case syntax.Literal():
            return "literal", *literal_shape(expression)
        case syntax.Name() | syntax.Property() | syntax.Exists():
            return "atom", expression
        case syntax.Call():
            return "call", expression.function.lower(), inside
        case syntax.Logic():
            return "logic", expression.operator, inside
        case syntax.Sign():
            return "sign", expression.sign, inside
        case syntax.Comparison() | syntax.Arithmetic():
            return "chain", tuple(operator for operator, _ in expression.rest), inside
        case syntax.Tested():
            return "tested", tuple(map(shape_of_test, expression.tests)), inside
    return "not", inside


def literal_shape(literal: syntax.Literal) -> Shape:
    """A literal's kind and value."""
    return type(literal.value).__name__, literal.value


def shape_of_test(test: syntax.NullTest | syntax.Membership | syntax.TextTest) -> Shape:
    """A test but for its operand."""
    match test:
        case syntax.NullTest():
            return "null", test.wanted
        case syntax.Membership():
            return "in", tuple(map(literal_shape, test.literals))
        case syntax.TextTest():
            return "text", test.operator


def is_made_of(columns: set[Shape], expression: Expression) -> bool:
    """Whether an expression is made of columns."""
    if shape(expression) in columns:
        return True
    match expression:
        case syntax.Name():
            return False
        case syntax.Property():
            return shape(syntax.Name(expression.variable)) in columns
    return all(is_made_of(columns, part) for part in syntax.parts(expression))
