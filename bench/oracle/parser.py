"""Reads a statement by the grammar of docs/language.md, or refuses its first wrong byte."""

from __future__ import annotations

from collections.abc import Callable, Iterator, Mapping
from contextlib import contextmanager
from typing import NoReturn, TypeVar

from . import syntax
from .errors import Refused
from .graph import Constant
from .lexer import GREATEST, Token, lex
from .syntax import Arrow, Expression

RESERVED = frozenset(
    "MATCH OPTIONAL WHERE RETURN DISTINCT ORDER BY ASC ASCENDING DESC DESCENDING SKIP LIMIT AS AND"
    " OR XOR NOT IN IS NULL TRUE FALSE STARTS ENDS WITH CONTAINS EXISTS".split()
)
FORMS = ("SCHEMA", "PLAN", "PROFILE", "PARAM")
CONSTANTS = {"TRUE": True, "FALSE": False, "NULL": None}
COMPARISONS = ("=", "<>", "<", "<=", ">", ">=")
MOST_NESTED = 64

Part = TypeVar("Part")


def keyword(token: Token) -> str:
    """A token as a sign or a word that the grammar names: words in upper case; else nothing."""
    if token.kind == "sign":
        return token.text
    return token.text.upper() if token.kind == "word" and token.text.isascii() else ""


def is_name(token: Token) -> bool:
    """Whether a token is a name: a quoted word, or a word that is not reserved."""
    return token.kind == "quoted" or (token.kind == "word" and keyword(token) not in RESERVED)


def parse(source: bytes, parameters: Mapping[str, Constant]) -> syntax.Statement | None:
    """The statement that a text spells with these parameters; nothing where it has no tokens."""
    parser = Parser(source, lex(source), parameters)
    return None if parser.token.kind == "end" else parser.whole_statement()


class Parser:
    """Reads tokens from left to right, with one method for each production of the grammar."""

    def __init__(
        self, source: bytes, tokens: list[Token], parameters: Mapping[str, Constant]
    ) -> None:
        self.source = source
        self.tokens = tokens
        self.parameters = parameters
        self.at = 0
        self.nested = 0
        self.unknown_parameters: list[str] = []

    # ---- tokens

    @property
    def token(self) -> Token:
        """The next token."""
        return self.tokens[self.at]

    def fail(self) -> NoReturn:
        """Refuses the next token."""
        raise Refused(f"Syntax at byte {self.token.start}")

    def comes(self, *keywords: str) -> bool:
        """Whether the next token is one of these."""
        return keyword(self.token) in keywords

    def take(self, *keywords: str) -> str:
        """Takes the next token and tells which it is, where it is one of these."""
        if not self.comes(*keywords):
            return ""
        taken = keyword(self.token)
        self.at += 1
        return taken

    def want(self, *keywords: str) -> str:
        """Takes the next token, which has to be one of these."""
        return self.take(*keywords) or self.fail()

    def word(self) -> str:
        """Takes a word, reserved or not, or a quoted word."""
        if self.token.kind not in ("word", "quoted"):
            self.fail()
        self.at += 1
        return str(self.tokens[self.at - 1].value)

    def name(self) -> str:
        """Takes a name."""
        return self.word() if is_name(self.token) else self.fail()

    def number(self, most: int = GREATEST - 1) -> int:
        """Takes an integer of at most this."""
        if self.token.kind != "integer" or int(self.token.value) > most:
            self.fail()
        self.at += 1
        return int(self.tokens[self.at - 1].value)

    @contextmanager
    def construct(self) -> Iterator[None]:
        """Takes the token that opens a construct, of which so many may stand inside one another."""
        if self.nested == MOST_NESTED:
            raise Refused(f"Depth at byte {self.token.start}")
        self.nested += 1
        self.at += 1
        yield
        self.nested -= 1

    def list_of(self, part: Callable[[], Part]) -> tuple[Part, ...]:
        """Reads one part or more with commas between them."""
        found = [part()]
        while self.take(","):
            found.append(part())
        return tuple(found)

    # ---- statements

    def whole_statement(self) -> syntax.Statement:
        """Reads a statement to the end of the text."""
        statement = self.statement()
        if self.token.kind != "end":
            self.fail()
        if self.unknown_parameters:
            raise Refused(f"UnknownParameter {self.unknown_parameters[0]}")
        return statement

    def statement(self) -> syntax.Statement:
        if not self.take(":"):
            return syntax.Asked(self.query(), "")
        match self.want(*FORMS):
            case "SCHEMA":
                return syntax.Schema()
            case "PARAM":
                return syntax.SetParameter(self.word(), self.literal().value)
            case form:
                return syntax.Asked(self.query(), form.lower())

    def query(self) -> syntax.Query:
        clauses = [self.clause()]
        while self.comes("MATCH"):
            clauses.append(self.clause())
        optionals = []
        while self.take("OPTIONAL"):
            optionals.append(self.clause())
        self.want("RETURN")
        distinct = bool(self.take("DISTINCT"))
        star = bool(self.take("*"))
        items: tuple[syntax.Item, ...] = ()
        if not star or self.take(","):
            items = self.list_of(self.item)
        order: tuple[syntax.SortItem, ...] = ()
        if self.take("ORDER"):
            self.want("BY")
            order = self.list_of(self.sort_item)
        skip = self.number() if self.take("SKIP") else 0
        limit = self.number() if self.take("LIMIT") else None
        return syntax.Query(
            tuple(clauses), tuple(optionals), distinct, star, items, order, skip, limit
        )

    def clause(self) -> syntax.Clause:
        self.want("MATCH")
        paths = self.list_of(self.path)
        return syntax.Clause(paths, self.expression() if self.take("WHERE") else None)

    def item(self) -> syntax.Item:
        start = self.token.start
        expression = self.expression()
        text = self.source[start : self.tokens[self.at - 1].end].decode()
        if self.take("AS"):
            return syntax.Item(expression, self.name(), True)
        return syntax.Item(expression, text, False)

    def sort_item(self) -> syntax.SortItem:
        expression = self.expression()
        direction = self.take("ASC", "ASCENDING", "DESC", "DESCENDING")
        return syntax.SortItem(expression, direction.startswith("DESC"))

    # ---- patterns

    def path(self, with_trails: bool = True) -> syntax.Path:
        nodes, relationships = [self.node()], []
        while self.comes("<", "-"):
            relationships.append(self.relationship(with_trails))
            nodes.append(self.node())
        return syntax.Path(tuple(nodes), tuple(relationships))

    def node(self) -> syntax.NodePattern:
        self.want("(")
        name = self.name() if is_name(self.token) else None
        labels = []
        while self.take(":"):
            labels.append(self.word())
        entries = self.entries()
        self.want(")")
        return syntax.NodePattern(name, tuple(labels), entries)

    def relationship(self, with_trails: bool) -> syntax.RelationshipPattern:
        is_left = bool(self.take("<"))
        self.want("-")
        name, trail = None, None
        types: list[str] = []
        entries: tuple[tuple[str, syntax.Literal], ...] = ()
        if self.take("["):
            name = self.name() if is_name(self.token) else None
            if self.take(":"):
                types.append(self.word())
                if with_trails and name is None and self.take("*"):
                    trail = self.range()
                while trail is None and self.take("|"):
                    self.take(":")
                    types.append(self.word())
            if trail is None:
                entries = self.entries()
            self.want("]")
        self.want("-")
        arrow = Arrow.LEFT if is_left else Arrow.EITHER
        if not is_left and (self.want(">") if trail else self.take(">")):
            arrow = Arrow.RIGHT
        return syntax.RelationshipPattern(name, tuple(types), entries, arrow, trail)

    def range(self) -> tuple[int, int]:
        if self.take(".."):
            return 1, self.number()
        low = self.number()
        return low, self.number() if self.take("..") else low

    def entries(self) -> tuple[tuple[str, syntax.Literal], ...]:
        """Reads a map, where one comes."""
        found: tuple[tuple[str, syntax.Literal], ...] = ()
        if self.take("{"):
            if not self.comes("}"):
                found = self.list_of(self.entry)
            self.want("}")
        return found

    def entry(self) -> tuple[str, syntax.Literal]:
        key = self.word()
        self.want(":")
        return key, self.literal()

    def literal(self) -> syntax.Literal:
        if self.take("-"):
            return syntax.Literal(-self.number(GREATEST))
        return self.constant() or self.fail()

    def constant(self) -> syntax.Literal | None:
        """Reads a literal without a sign, or the value of a parameter, where one comes."""
        if self.token.kind == "integer":
            return syntax.Literal(self.number())
        if self.token.kind == "string":
            self.at += 1
            return syntax.Literal(self.tokens[self.at - 1].value)
        if self.take("$"):
            parameter = self.word()
            if parameter not in self.parameters:
                self.unknown_parameters.append(parameter)
            return syntax.Literal(self.parameters.get(parameter))
        word = self.take(*CONSTANTS)
        return syntax.Literal(CONSTANTS[word]) if word else None

    # ---- expressions

    def expression(self) -> Expression:
        return self.logic("OR", self.exclusive)

    def exclusive(self) -> Expression:
        return self.logic("XOR", self.conjunction)

    def conjunction(self) -> Expression:
        return self.logic("AND", self.negation)

    def logic(self, operator: str, operand: Callable[[], Expression]) -> Expression:
        operands = [operand()]
        while self.take(operator):
            operands.append(operand())
        return operands[0] if len(operands) == 1 else syntax.Logic(operator, tuple(operands))

    def negation(self) -> Expression:
        if self.comes("NOT"):
            with self.construct():
                return syntax.Not(self.negation())
        return self.comparison()

    def comparison(self) -> Expression:
        first, rest = self.chain(COMPARISONS, self.tested)
        return syntax.Comparison(first, rest) if rest else first

    def chain(
        self, operators: tuple[str, ...], operand: Callable[[], Expression]
    ) -> tuple[Expression, tuple[tuple[str, Expression], ...]]:
        """Reads an operand, and as many others behind operators as there are."""
        first, rest = operand(), []
        while operator := self.take(*operators):
            rest.append((operator, operand()))
        return first, tuple(rest)

    def tested(self) -> Expression:
        operand = self.sum()
        tests: list[syntax.NullTest | syntax.Membership | syntax.TextTest] = []
        while operator := self.take("IS", "IN", "STARTS", "ENDS", "CONTAINS"):
            if operator == "IS":
                tests.append(syntax.NullTest(not self.take("NOT")))
                self.want("NULL")
            elif operator == "IN":
                tests.append(syntax.Membership(self.literals()))
            else:
                if operator != "CONTAINS":
                    self.want("WITH")
                tests.append(syntax.TextTest(operator, self.sum()))
        return syntax.Tested(operand, tuple(tests)) if tests else operand

    def literals(self) -> tuple[syntax.Literal, ...]:
        self.want("[")
        found: tuple[syntax.Literal, ...] = ()
        if not self.comes("]"):
            found = self.list_of(self.literal)
        self.want("]")
        return found

    def sum(self) -> Expression:
        first, rest = self.chain(("+", "-"), self.product)
        return syntax.Arithmetic(first, rest) if rest else first

    def product(self) -> Expression:
        first, rest = self.chain(("*", "/", "%"), self.signed)
        return syntax.Arithmetic(first, rest) if rest else first

    def signed(self) -> Expression:
        if not self.comes("+", "-"):
            return self.atom()
        sign = self.token.text
        with self.construct():
            if sign == "-" and self.token.value == GREATEST:
                return syntax.Literal(-self.number(GREATEST))
            return syntax.Sign(sign, self.signed())

    def atom(self) -> Expression:
        constant = self.constant()
        if constant is not None:
            return constant
        if self.comes("("):
            with self.construct():
                inside = self.expression()
                self.want(")")
                return syntax.Parentheses(inside)
        if self.take("EXISTS"):
            self.want("(")
            path = self.path(with_trails=False)
            self.want(")")
            return syntax.Exists(path)
        name = self.name()
        if self.take("."):
            return syntax.Property(name, self.word())
        if self.comes("("):
            with self.construct():
                arguments: tuple[Expression, ...] = ()
                if not self.comes(")"):
                    arguments = self.list_of(self.expression)
                self.want(")")
                return syntax.Call(name, arguments)
        return syntax.Name(name)
