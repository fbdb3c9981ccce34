"""What a refusal of a statement means and what to do: looked up in the table, and told of the statement itself."""

from __future__ import annotations

import re
from collections.abc import Callable

from ..schema import Schema
from .outline import RESERVED, Outline, names_of, outline_of, place_of_byte, tokens_of
from .rows import fault_hint, memory_hint, rows_hint, unnamed
from .spelling import like, nearest
from .table import ENDS, FUNCTIONS, LEX, REFUSALS, SYNTAX, TYPOGRAPHIC, Place

_LINE = re.compile(r"error: (?P<refusal>Fault \w+|\w+)(?: at byte (?P<byte>[0-9]+)| (?P<name>.+))?\Z", re.DOTALL)
_HIDDEN = re.compile(r"'(?:[^'\\]|\\.)*'|\"(?:[^\"\\]|\\.)*\"|//[^\n\r]*|/\*.*?\*/", re.DOTALL)
_FLAGS = re.IGNORECASE | re.DOTALL
_NEAR = 2_000


def hint(error_line: str, statement: str, schema: Schema | None = None) -> str | None:
    """One line on what a refusal of a statement means and what to do; None where there is nothing to say.

    `error_line` is graphq's, as `error: Syntax at byte 15`, and `statement` the text whose bytes it counts. With the
    schema of the graph its names are suggested, and the kinds of its properties tell which expression may have a fault.
    """
    match = _LINE.match(error_line)
    if match is None:
        return None
    refusal, name = match["refusal"], match["name"] or ""
    if refusal in ("Lex", "Syntax"):
        places = LEX if refusal == "Lex" else SYNTAX
        return _of_place(statement, place_of_byte(statement, int(match["byte"])), places) if match["byte"] else None
    if refusal not in REFUSALS:
        return None
    more = _MORE.get(refusal)
    own = more(name, outline_of(statement), schema or Schema()) if more else None
    return own or REFUSALS[refusal].format(name=name)


def _of_place(statement: str, place: int, places: tuple[Place, ...]) -> str | None:
    """The hint for a place that `Lex` or `Syntax` names."""
    before = _HIDDEN.sub(lambda found: " " if found[0].startswith("/") else "''", statement[:place])
    after = statement[place:]
    # Of a long statement what stands near the place is looked at, and it does not begin there.
    near = before if len(before) <= _NEAR else f"..{before[-_NEAR:]}"
    if not tokens_of(after):
        return _of_end(before, near)
    for ends, begins, said in places:
        if re.match(begins, after, _FLAGS) and re.search(ends, near, _FLAGS):
            return said
    return _of_reserved(before, after) or _of_open(before)


def _of_end(before: str, near: str) -> str | None:
    """The hint where a statement ends too early."""
    return _of_open(before) or next((said for ends, said in ENDS if re.search(ends, near, _FLAGS)), None)


def _of_reserved(before: str, after: str) -> str | None:
    """The hint for a reserved word where a name is wanted."""
    word = tokens_of(after)[0]
    if word.upper in RESERVED and re.search(
        r"[(\[,=<>+*/%-]\s*$|\b(AS|RETURN|WHERE|BY|AND|OR|NOT)\s+$", before, _FLAGS
    ):
        return f"{word.text} is a word of the language: as a name it stands in backquotes, `{word.text}`"
    if word.is_name() and re.search(r"(\bMATCH|,)\s*$", before, _FLAGS):
        return f"a node stands in parentheses, as in MATCH ({word.text})"
    return None


def _of_open(before: str) -> str | None:
    """The hint for a parenthesis, bracket or brace that is still open."""
    opened = []
    for token in tokens_of(before):
        if token.text in ("(", "[", "{"):
            opened.append(token.text)
        elif token.text in (")", "]", "}") and opened:
            opened.pop()
    if not opened:
        return None
    close = {"(": ")", "[": "]", "{": "}"}[opened[-1]]
    return f"a {opened[-1]} before this place has no {close}"


def _of_variable(name: str, outline: Outline, schema: Schema) -> str | None:
    """Why an expression cannot see a name, as far as that can be told."""
    for _, begins, said in TYPOGRAPHIC:
        if re.match(begins, name):
            return said
    known = list(outline.variables())
    if name in known and not any(name in names_of(clause) for clause in outline.clauses if clause.kind != "EXISTS"):
        return f"{name} stands in the path of exists(..) alone, which names nothing: leave the name out there"
    if name in known:
        return f"{name} stands in a later clause: a WHERE sees the names of its own clause and of those before it"
    if name in [column.name for column in outline.columns]:
        return f"{name} is a column, which only ORDER BY can name: write its expression again"
    if name in schema.labels():
        return f"{name} is a label: it stands in a pattern after a colon, as in (n:{name})"
    if name in schema.properties() and known:
        return f"{name} is a property: write it after a variable, as in {known[0]}.{name}"
    close = like(name, known)
    if close or not known:
        return f"no pattern has the name {name}{close}"
    return f"no pattern has the name {name}: the names are {', '.join(known[:8])}"


def _of_function(name: str, _: Outline, __: Schema) -> str | None:
    if own := FUNCTIONS.get(name.lower()):
        return own
    if close := like(name, ["type", "coalesce", "exists"]):
        return f"there is no function {name}{close}"
    known = nearest(name, FUNCTIONS)
    return FUNCTIONS[known] if known else None


def _of_alternatives(_: str, outline: Outline, __: Schema) -> str | None:
    """Which patterns have no label and no type."""
    if not (without := unnamed(outline)):
        return None
    return f"there are over 512 ways to give each node and relationship a table: name labels and types, as of {without}"


_MORE: dict[str, Callable[[str, Outline, Schema], str | None]] = {
    "UnknownVariable": _of_variable,
    "UnknownFunction": _of_function,
    "TooManyAlternatives": _of_alternatives,
    "TooManyRows": rows_hint,
    "Memory": memory_hint,
    "Fault DivideByZero": lambda _, outline, schema: fault_hint("DivideByZero", outline, schema),
    "Fault Overflow": lambda _, outline, schema: fault_hint("Overflow", outline, schema),
    "Fault Kind": lambda _, outline, schema: fault_hint("Kind", outline, schema),
}
