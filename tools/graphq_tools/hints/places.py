"""Where in a statement the cause of a refusal stands: the byte that the refusal names, or the place of its name."""

from __future__ import annotations

import re
from collections.abc import Callable, Iterable

from .outline import Outline, Part, Token, outline_of, place_of_byte

_LINE = re.compile(r"error: (?P<refusal>\w+)(?: at byte (?P<byte>[0-9]+)| (?P<name>.+))?\Z", re.DOTALL)
_MOST_HOPS = 16


def place(statement: str, refusal: str) -> int | None:
    """The character of a statement that a refusal is about, counted from 0, or None where it is about no one place.

    `refusal` is graphq's line, as `error: Syntax at byte 15` or `error: UnknownVariable m`.
    """
    match = _LINE.match(refusal)
    if match is None:
        return None
    if match["byte"]:
        return place_of_byte(statement, int(match["byte"]))
    find = _FINDERS.get(match["refusal"])
    if find is None:
        return None
    return find(outline_of(statement), match["name"] or "")


def _least(tokens: Iterable[Token]) -> int | None:
    return min((token.begin for token in tokens), default=None)


def _parameter(outline: Outline, name: str) -> int | None:
    pairs = zip(outline.tokens, outline.tokens[1:], strict=False)
    return _least(dollar for dollar, word in pairs if dollar.text == "$" and word.name == name)


def _variable(outline: Outline, name: str) -> int | None:
    """The first expression that has the name, or the path of an EXISTS with a name that no other pattern has."""
    used = [token for token in outline.names if token.name == name]
    used += [token for token, _ in outline.reads if token.name == name]
    used += [
        pattern.name
        for clause in outline.clauses
        if clause.kind == "EXISTS"
        for pattern in clause.patterns()
        if pattern.name is not None and pattern.name.name == name
    ]
    return _least(used)


def _links_of(outline: Outline, name: str) -> list[Token]:
    patterns = [link.pattern for clause in outline.clauses for link in clause.links]
    return [one.name for one in patterns if one.name is not None and one.name.name == name]


def _conflict(outline: Outline, name: str) -> int | None:
    """The first pattern that is of the other kind than the one before."""
    nodes = [node.name for clause in outline.clauses for node in clause.nodes if node.name and node.name.name == name]
    firsts = [first for first in (_least(nodes), _least(_links_of(outline, name))) if first is not None]
    return max(firsts, default=None)


def _repeated(outline: Outline, name: str) -> int | None:
    places = sorted(token.begin for token in _links_of(outline, name))
    return places[1] if len(places) > 1 else None


def _columns(outline: Outline, name: str) -> int | None:
    """The second column of a name; the first where `*` brings the other one."""
    found = []
    for part in outline.parts:
        if part.kind != "RETURN" or not part.tokens:
            continue
        last = part.tokens[-1]
        named = len(part.tokens) > 2 and part.tokens[-2].upper == "AS"
        text = last.name if named else outline.text[part.tokens[0].begin : last.end]
        if text == name:
            found.append(last.begin if named else part.tokens[0].begin)
    return found[min(1, len(found) - 1)] if found else None


def _star(outline: Outline, _: str) -> int | None:
    return _least(
        token for part in outline.parts if part.kind == "RETURN" for token in part.tokens if token.text == "*"
    )


def _sorted(outline: Outline) -> list[Part]:
    return [part for part in outline.parts if part.kind == "ORDER BY" and part.tokens]


def _item(outline: Outline, number: str) -> int | None:
    items = _sorted(outline)
    return items[int(number) - 1].tokens[0].begin if number.isdecimal() and 0 < int(number) <= len(items) else None


def _ambiguous(outline: Outline, name: str) -> int | None:
    return _least(token for part in _sorted(outline) for token in part.tokens if token.is_word() and token.name == name)


def _call(outline: Outline, name: str) -> int | None:
    pairs = zip(outline.tokens, outline.tokens[1:], strict=False)
    return _least(word for word, sign in pairs if sign.text == "(" and word.is_word() and word.name == name)


def _arguments(outline: Outline, name: str) -> int | None:
    """The first call of a function that has a wrong number of arguments."""
    tokens = outline.tokens
    for at, token in enumerate(tokens[:-1]):
        if token.is_word() and token.name == name and tokens[at + 1].text == "(":
            count = _count(tokens[at + 2 :])
            if count == 0 or (count > 1 and name.lower() == "type"):
                return token.begin
    return None


def _count(tokens: list[Token]) -> int:
    """How many expressions stand before the parenthesis that closes a call."""
    depth, commas = 0, 0
    for at, token in enumerate(tokens):
        if token.text in (")", "]") and depth == 0:
            return 0 if at == 0 else commas + 1
        depth += (token.text in ("(", "[")) - (token.text in (")", "]"))
        commas += token.text == "," and depth == 0
    return commas + 1


def _trail(outline: Outline, _: str) -> int | None:
    """The first trail whose numbers are out of range."""
    for link in (link for clause in outline.clauses for link in clause.links if link.trail):
        text = outline.text[link.pattern.begin : link.pattern.end]
        range_of = re.search(r"\*\s*([0-9]+)?\s*(\.\.)?\s*([0-9]+)?", text)
        if range_of is None:
            continue
        low, dots, high = range_of.groups()
        least = int(low) if low else 1
        most = int(high) if high else least
        if not 0 < least <= most <= _MOST_HOPS or (dots and not high):
            return link.pattern.begin + range_of.start()
    return None


def _optional(outline: Outline, _: str) -> int | None:
    return _least(token for token in outline.tokens if token.upper == "OPTIONAL")


def _exists(outline: Outline, _: str) -> int | None:
    """The first EXISTS that is no condition of its own of a MATCH that is not optional."""
    for part in outline.parts:
        words = [token for token in part.tokens if token.text not in ("(", ")") and token.upper != "NOT"]
        alone = part.kind == "WHERE" and not part.optional and len(words) == 1
        tests = [token for token in words if token.upper == "EXISTS"]
        if tests and not alone:
            return tests[0].begin
    return None


_FINDERS: dict[str, Callable[[Outline, str], int | None]] = {
    "UnknownParameter": _parameter,
    "UnknownVariable": _variable,
    "VariableConflict": _conflict,
    "RelationshipRepeated": _repeated,
    "ColumnRepeated": _columns,
    "NothingToReturn": _star,
    "OrderOutOfScope": _item,
    "AmbiguousOrderName": _ambiguous,
    "UnknownFunction": _call,
    "ArgumentCount": _arguments,
    "TrailLength": _trail,
    "TrailWithOptional": _optional,
    "ExistsPlace": _exists,
}
