"""The syntax tree of a statement, and how to go through its expressions in text order."""

from __future__ import annotations

from collections.abc import Iterator
from dataclasses import dataclass
from enum import Enum

from .graph import Constant


@dataclass(frozen=True)
class Literal:
    """A literal, or the value of a parameter."""

    value: Constant


@dataclass(frozen=True)
class Name:
    """A name by itself: a variable, or in ORDER BY a column."""

    name: str


@dataclass(frozen=True)
class Property:
    """`variable.key`."""

    variable: str
    key: str


@dataclass(frozen=True)
class Call:
    """`function(argument, ..)`."""

    function: str
    arguments: tuple[Expression, ...]


@dataclass(frozen=True)
class Exists:
    """`EXISTS(path)`."""

    path: Path


@dataclass(frozen=True)
class Parentheses:
    """`(inside)`."""

    inside: Expression


@dataclass(frozen=True)
class Logic:
    """Two operands or more with AND, OR or XOR between them."""

    operator: str
    operands: tuple[Expression, ...]


@dataclass(frozen=True)
class Not:
    """`NOT operand`."""

    operand: Expression


@dataclass(frozen=True)
class Comparison:
    """`first < next <= ..`."""

    first: Expression
    rest: tuple[tuple[str, Expression], ...]


@dataclass(frozen=True)
class NullTest:
    """`IS NULL` or `IS NOT NULL` behind an operand."""

    wanted: bool


@dataclass(frozen=True)
class Membership:
    """`IN [..]` behind an operand."""

    literals: tuple[Literal, ...]


@dataclass(frozen=True)
class TextTest:
    """`STARTS WITH`, `ENDS WITH` or `CONTAINS` and a text behind an operand."""

    operator: str
    text: Expression


@dataclass(frozen=True)
class Tested:
    """An operand with one test or more behind it."""

    operand: Expression
    tests: tuple[NullTest | Membership | TextTest, ...]


@dataclass(frozen=True)
class Arithmetic:
    """Operands with `+` and `-`, or with `*`, `/` and `%`, between them."""

    first: Expression
    rest: tuple[tuple[str, Expression], ...]


@dataclass(frozen=True)
class Sign:
    """`+operand` or `-operand`."""

    sign: str
    operand: Expression


Expression = (
    Literal
    | Name
    | Property
    | Call
    | Exists
    | Parentheses
    | Logic
    | Not
    | Comparison
    | Tested
    | Arithmetic
    | Sign
)


class Arrow(Enum):
    """Which way a relationship leads in the text."""

    RIGHT = "-->"
    LEFT = "<--"
    EITHER = "--"


@dataclass(frozen=True)
class NodePattern:
    """`(name:label.. {key: literal, ..})`."""

    name: str | None
    labels: tuple[str, ...]
    entries: tuple[tuple[str, Literal], ...]


@dataclass(frozen=True)
class RelationshipPattern:
    """`-[name:type|.. {key: literal, ..}]->`; a trail has its least and its greatest length."""

    name: str | None
    types: tuple[str, ...]
    entries: tuple[tuple[str, Literal], ...]
    arrow: Arrow
    trail: tuple[int, int] | None


@dataclass(frozen=True)
class Path:
    """Node patterns, and between each and the next a relationship pattern."""

    nodes: tuple[NodePattern, ...]
    relationships: tuple[RelationshipPattern, ...]

    def patterns(self) -> Iterator[NodePattern | RelationshipPattern]:
        """All patterns in text order."""
        yield self.nodes[0]
        for relationship, node in zip(self.relationships, self.nodes[1:], strict=True):
            yield relationship
            yield node


@dataclass(frozen=True)
class Clause:
    """`MATCH path, .. WHERE condition`, behind OPTIONAL or not."""

    paths: tuple[Path, ...]
    condition: Expression | None


@dataclass(frozen=True)
class Item:
    """An item of RETURN; its name stands behind AS, or is its source text."""

    expression: Expression
    name: str
    is_renamed: bool


@dataclass(frozen=True)
class SortItem:
    """An item of ORDER BY."""

    expression: Expression
    descending: bool


@dataclass(frozen=True)
class Query:
    """A query, with its MATCH clauses and its OPTIONAL MATCH clauses apart."""

    clauses: tuple[Clause, ...]
    optionals: tuple[Clause, ...]
    distinct: bool
    star: bool
    items: tuple[Item, ...]
    order: tuple[SortItem, ...]
    skip: int
    limit: int | None

    @property
    def looks_at(self) -> int | None:
        """How many outcomes are looked at, or nothing where all are."""
        if self.limit is None or self.distinct or self.order:
            return None
        return self.skip + self.limit


@dataclass(frozen=True)
class Schema:
    """`:schema`."""


@dataclass(frozen=True)
class SetParameter:
    """`:param name value`."""

    name: str
    value: Constant


@dataclass(frozen=True)
class Asked:
    """A query, with `plan` or `profile` where that stands before it."""

    query: Query
    form: str


Statement = Schema | SetParameter | Asked


def parts(expression: Expression) -> list[Expression]:
    """The expressions that an expression is made of, in text order."""
    match expression:
        case Call():
            return list(expression.arguments)
        case Parentheses():
            return [expression.inside]
        case Logic():
            return list(expression.operands)
        case Not() | Sign():
            return [expression.operand]
        case Comparison() | Arithmetic():
            return [expression.first, *(operand for _, operand in expression.rest)]
        case Tested():
            texts = [test.text for test in expression.tests if isinstance(test, TextTest)]
            return [expression.operand, *texts]
    return []


def walk(expression: Expression) -> Iterator[Expression]:
    """An expression and all that it is made of, in text order."""
    yield expression
    for part in parts(expression):
        yield from walk(part)


def paths_in(expression: Expression) -> list[Path]:
    """The paths of the EXISTS in an expression."""
    return [part.path for part in walk(expression) if isinstance(part, Exists)]


def conjuncts(condition: Expression | None) -> list[Expression]:
    """What stands between the ANDs of a condition, without parentheses around the whole of it."""
    match condition:
        case None:
            return []
        case Parentheses():
            return conjuncts(condition.inside)
        case Logic(operator="AND"):
            return [part for operand in condition.operands for part in conjuncts(operand)]
    return [condition]


def path_test(conjunct: Expression) -> tuple[bool, Path] | None:
    """What a conjunct wants of a path, where it is an EXISTS inside parentheses and NOTs alone."""
    wanted = True
    while isinstance(conjunct, Parentheses | Not):
        if isinstance(conjunct, Not):
            wanted = not wanted
            conjunct = conjunct.operand
        else:
            conjunct = conjunct.inside
    return (wanted, conjunct.path) if isinstance(conjunct, Exists) else None
