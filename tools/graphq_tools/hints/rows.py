"""What a query is likely refused for by `TooManyRows`, `TooManyAlternatives` and faults, told from its outline."""

from __future__ import annotations

from collections.abc import Iterable

from ..schema import Schema
from .notes import tables_of
from .outline import Outline, Part, Pattern

# The signs that may have each fault.
_SIGNS = {"DivideByZero": ("/", "%"), "Overflow": ("+", "-", "*", "/")}
_ARITHMETIC = ("+", "-", "*", "/", "%")
_LOGIC = ("AND", "OR", "XOR", "NOT")
_MOST_SHOWN = 3


def rows_hint(number: str, outline: Outline, _: Schema) -> str:
    """Which part or clause of a query has more rows than may be kept, and what to do."""
    begin = f"more than {number} rows would be kept"
    if own := _large(outline):
        return f"{begin}: {own}"
    if not outline.limited:
        return (
            f"{begin}: add LIMIT, with ORDER BY for the first ones, or start with a greater --rows (16777216 at most)"
        )
    return (
        f"{begin}: ask with a smaller LIMIT or with more conditions, or start with a greater --rows (16777216 at most)"
    )


def memory_hint(_: str, outline: Outline, __: Schema) -> str | None:
    """Which part or clause of a query asks for much, where one is likely."""
    own = _large(outline)
    return f"the statement asks for more work or memory than one may take: {own}" if own else None


def _large(outline: Outline) -> str | None:
    """What is likely large in a query: a clause or a part that is made by itself, before any row."""
    if own := _by_itself(outline):
        return own
    if apart := _apart(outline):
        return f"nothing connects {apart} with what stands before it: it is made by itself, and all pairs are rows"
    return None


def _by_itself(outline: Outline) -> str | None:
    """The clause that is made for all nodes before any row, where what fixes its nodes stands elsewhere."""
    fixed: dict[str, str] = {}
    for part in outline.parts:
        texts = [token.text for token in part.tokens]
        if part.kind == "WHERE" and len(texts) == 5 and texts[1] == "." and texts[3] == "=":
            fixed[texts[0]] = f"({texts[0]} {{{texts[2]}: {texts[4]}}})"
    for clause in outline.clauses:
        if clause.kind == "MATCH":
            nodes = [node for node in clause.nodes if node.name is not None and node.entries]
            fixed |= {node.name.name: outline.text[node.begin : node.end] for node in nodes if node.name is not None}
    for clause in outline.clauses:
        if clause.kind == "MATCH" or any(node.entries for node in clause.nodes):
            continue
        what = "the OPTIONAL MATCH" if clause.kind == "OPTIONAL MATCH" else "the path in exists(..)"
        for node in clause.nodes:
            if node.name is not None and node.name.name in fixed:
                return f"{what} is made for all nodes by itself: repeat {fixed[node.name.name]} in it"
        if clause.kind == "OPTIONAL MATCH":
            return (
                f"{what} is made for all nodes by itself: give its nodes labels and maps, as it has them before any row"
            )
    return None


def _apart(outline: Outline) -> str | None:
    """A node that nothing connects with the first one of its query, as it is written."""
    nodes = [node for clause in outline.clauses if clause.kind == "MATCH" for node in clause.nodes]
    links = [link for clause in outline.clauses if clause.kind == "MATCH" for link in clause.links]
    reached = {_identity(node) for node in nodes[:1]}
    while True:
        ends = [{_identity(link.left), _identity(link.right)} for link in links]
        more = set().union(*(pair for pair in ends if pair & reached)) - reached
        if not more:
            break
        reached |= more
    return next((outline.text[node.begin : node.end] for node in nodes if _identity(node) not in reached), None)


def _identity(node: Pattern) -> str | int:
    """What two patterns of one node have in common: its name, and else its place."""
    return node.name.name if node.name is not None else node.begin


def unnamed(outline: Outline) -> str:
    """The patterns without a label or a type, as they are written."""
    labelled = {name for name, patterns in outline.variables().items() if any(pattern.words for pattern in patterns)}
    found: list[str] = []
    for clause in outline.clauses:
        for pattern in clause.patterns():
            if not pattern.words and not (pattern.name is not None and pattern.name.name in labelled):
                found.append(" ".join(outline.text[pattern.begin : pattern.end].split()))
    return _listed(dict.fromkeys(found))


def fault_hint(fault: str, outline: Outline, schema: Schema) -> str | None:
    """Which expressions of a query may have a fault, and what to do."""
    if fault == "Kind":
        return _kind_hint(outline, schema)
    parts = [part for part in outline.parts if any(token.text in _SIGNS[fault] for token in part.tokens)]
    listed = _listed(dict.fromkeys(map(outline.text_of, parts)))
    if not listed:
        return None
    if fault == "Overflow":
        return f"an integer of more than 64 bits comes of {listed}: leave such rows out by a condition"
    divisor = next((text for part in parts if (text := _divisor(part))), None)
    way = f"WHERE {divisor} <> 0" if divisor else "a condition"
    return f"something is divided by 0 in {listed}: leave such rows out by {way}"


def _divisor(part: Part) -> str | None:
    """The property that a part divides by, where it is one by itself."""
    texts = [token.text for token in part.tokens]
    for at, text in enumerate(texts):
        if text in ("/", "%") and texts[at + 2 : at + 3] == ["."] and len(texts) > at + 3:
            return "".join(texts[at + 1 : at + 4])
    return None


def _kind_hint(outline: Outline, schema: Schema) -> str | None:
    for part in outline.parts:
        found = (
            _type_of_a_node(part, outline) or _no_integer(part, outline, schema) or _no_condition(part, outline, schema)
        )
        if found:
            return found
    return None


def _type_of_a_node(part: Part, outline: Outline) -> str | None:
    """A call of `type` with a node."""
    for call, opened, argument in zip(part.tokens, part.tokens[1:], part.tokens[2:], strict=False):
        if call.upper == "TYPE" and opened.text == "(" and argument.name in outline.variables():
            if not outline.is_relationship(argument.name):
                shown = outline.text_of(part)
                return f"type(..) asks for a relationship, and {argument.name} is a node, in {shown}"
    return None


def _no_integer(part: Part, outline: Outline, schema: Schema) -> str | None:
    """What stands beside a sign of arithmetic and is no integer."""
    texts = ["", *(token.text for token in part.tokens), "", "", ""]
    shown = outline.text_of(part)
    for at, token in enumerate(part.tokens, 1):
        reads = texts[at + 1] == "." and token.is_name()
        after = texts[at + 3] if reads else texts[at + 1]
        if texts[at - 1] not in _ARITHMETIC and after not in _ARITHMETIC:
            continue
        if token.kind == "string":
            return f"there is no arithmetic with texts, as {token.text} in {shown}: return them side by side"
        if reads:
            kinds = _kinds(token.name, part.tokens[at + 1].name, outline, schema)
            if kinds and "int" not in kinds:
                name = "".join(texts[at : at + 3])
                return f"{name} is {_a(kinds)}, and arithmetic is for integers alone, in {shown}"
        elif token.is_name() and token.name in outline.variables() and texts[at - 1] != ".":
            what = "relationship" if outline.is_relationship(token.name) else "node"
            return f"{token.text} is a {what}, and arithmetic is for integers alone, in {shown}: name a property"
    return None


def _no_condition(part: Part, outline: Outline, schema: Schema) -> str | None:
    """A conjunct, or an operand of AND, OR, XOR and NOT, that is a property and no condition."""
    texts = [token.text for token in part.tokens]
    for at in range(len(texts) - 2):
        before = texts[at - 1].upper() if at else ""
        after = texts[at + 3].upper() if at + 3 < len(texts) else ""
        whole = part.kind == "WHERE" and not before and not after
        operand = before in (*_LOGIC, "", "(") and after in (*_LOGIC, "", ")") and (before in _LOGIC or after in _LOGIC)
        if texts[at + 1] == "." and (whole or operand):
            kinds = _kinds(texts[at], part.tokens[at + 2].name, outline, schema)
            if kinds and "bool" not in kinds:
                name = "".join(texts[at : at + 3])
                return f"{name} is {_a(kinds)} and no condition: compare it, or write {name} IS NOT NULL"
    return None


def _a(kinds: Iterable[str]) -> str:
    kind = sorted(kinds)[0]
    return "an int" if kind == "int" else f"a {kind}"


def _kinds(variable: str, name: str, outline: Outline, schema: Schema) -> set[str]:
    """The kinds that a property of a variable may have, by the tables that its labels and types allow."""
    return {one.kind for table in tables_of(variable, outline, schema) for one in table.fields if one.name == name}


def _listed(texts: Iterable[str]) -> str:
    shown = list(texts)
    more = ", .." if len(shown) > _MOST_SHOWN else ""
    return ", ".join(shown[:_MOST_SHOWN]) + more
