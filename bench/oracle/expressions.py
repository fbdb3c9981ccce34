"""The value of an expression over a row, or its first fault."""

from __future__ import annotations

from collections.abc import Mapping

from . import syntax
from .errors import Fault
from .graph import Graph, Node, Relationship, Value
from .patterns import Variable
from .syntax import Expression
from .values import equal, less

LEAST, GREATEST = -(2**63), 2**63 - 1

Row = Mapping[Variable, Value]


def truth(value: Value) -> bool | None:
    """A boolean or null; all else is a fault."""
    if value is None or isinstance(value, bool):
        return value
    raise Fault("Kind")


def integer(value: Value) -> int | None:
    """An integer or null; all else is a fault."""
    if value is None or (isinstance(value, int) and not isinstance(value, bool)):
        return value
    raise Fault("Kind")


def negated(value: bool | None) -> bool | None:
    """NOT of a truth."""
    return None if value is None else not value


def logic(operator: str, left: bool | None, right: bool | None) -> bool | None:
    """AND, OR and XOR of two truths."""
    deciding = {"AND": False, "OR": True}.get(operator)
    if deciding is not None and deciding in (left, right):
        return deciding
    if left is None or right is None:
        return None
    return left != right if operator == "XOR" else not deciding


def compared(operator: str, left: Value, right: Value) -> bool | None:
    """The value of one comparison."""
    match operator:
        case "=":
            return equal(left, right)
        case "<>":
            return negated(equal(left, right))
        case "<":
            return less(left, right)
        case ">":
            return less(right, left)
        case "<=":
            return negated(less(right, left))
        case _:
            return negated(less(left, right))


def arithmetic(operator: str, left: Value, right: Value) -> int | None:
    """The integer of `+ - * / %`; null where an operand is null."""
    if left is None or right is None:
        return None
    first, second = integer(left), integer(right)
    assert first is not None and second is not None
    match operator:
        case "+":
            return fitting(first + second)
        case "-":
            return fitting(first - second)
        case "*":
            return fitting(first * second)
    if second == 0:
        raise Fault("DivideByZero")
    quotient = abs(first) // abs(second)
    if (first < 0) != (second < 0):
        quotient = -quotient
    return fitting(quotient) if operator == "/" else first - second * quotient


def fitting(number: int) -> int:
    """An integer of 64 signed bits; a greater one is a fault."""
    if LEAST <= number <= GREATEST:
        return number
    raise Fault("Overflow")


def text_test(operator: str, left: Value, right: Value) -> bool | None:
    """STARTS WITH, ENDS WITH and CONTAINS."""
    if not isinstance(left, str) or not isinstance(right, str):
        return None
    match operator:
        case "STARTS":
            return left.startswith(right)
        case "ENDS":
            return left.endswith(right)
        case _:
            return right in left


class Evaluator:
    """Evaluates expressions over a row: each operand, from the left, whatever is known already."""

    def __init__(self, graph: Graph, row: Row) -> None:
        self.graph = graph
        self.row = row

    def value(self, expression: Expression) -> Value:
        """The value of an expression."""
        match expression:
            case syntax.Literal():
                return expression.value
            case syntax.Name():
                return self.row[expression.name]
            case syntax.Property():
                owner = self.row[expression.variable]
                return self.graph.property(owner, expression.key) if isinstance(owner, Node | Relationship) else None
            case syntax.Parentheses():
                return self.value(expression.inside)
            case syntax.Logic():
                return self.logic(expression)
            case syntax.Not():
                return negated(truth(self.value(expression.operand)))
            case syntax.Comparison():
                return self.comparison(expression)
            case syntax.Tested():
                return self.tested(expression)
            case syntax.Arithmetic():
                found = self.value(expression.first)
                for operator, operand in expression.rest:
                    found = arithmetic(operator, found, self.value(operand))
                return found
            case syntax.Sign():
                signed = integer(self.value(expression.operand))
                return signed if expression.sign == "+" else arithmetic("-", 0, signed)
            case syntax.Call():
                return self.call(expression)
        raise AssertionError("an EXISTS is no expression with a value")

    def logic(self, expression: syntax.Logic) -> bool | None:
        """The value of operands from the left; one of another kind faults where it is combined."""
        found = self.value(expression.operands[0])
        for operand in expression.operands[1:]:
            value = self.value(operand)
            found = logic(expression.operator, truth(found), truth(value))
        return truth(found)

    def comparison(self, expression: syntax.Comparison) -> bool | None:
        """`a < b <= c` is `a < b AND b <= c`."""
        left = self.value(expression.first)
        found: bool | None = True
        for operator, operand in expression.rest:
            right = self.value(operand)
            found = logic("AND", found, compared(operator, left, right))
            left = right
        return found

    def tested(self, expression: syntax.Tested) -> Value:
        """An operand, and then each test of what stands before it."""
        found = self.value(expression.operand)
        for test in expression.tests:
            match test:
                case syntax.NullTest():
                    found = (found is None) == test.wanted
                case syntax.Membership():
                    found = self.is_member(found, test.literals)
                case syntax.TextTest():
                    found = text_test(test.operator, found, self.value(test.text))
        return found

    def is_member(self, value: Value, literals: tuple[syntax.Literal, ...]) -> bool | None:
        """`a = x OR a = y ..`; false for the empty list."""
        found: bool | None = False
        for literal in literals:
            found = logic("OR", found, equal(value, literal.value))
        return found

    def call(self, expression: syntax.Call) -> Value:
        """`coalesce` or `type`, all of whose arguments are evaluated."""
        values = [self.value(argument) for argument in expression.arguments]
        if expression.function.lower() == "coalesce":
            return next((value for value in values if value is not None), None)
        if values[0] is None:
            return None
        if not isinstance(values[0], Relationship):
            raise Fault("Kind")
        return self.graph.relationships[values[0].table].type
