"""What a query can never find: labels, types, properties and directions that no table has, told from the schema."""

from __future__ import annotations

from collections.abc import Iterator, Sequence

from ..schema import Nodes, Rels, Schema
from .outline import Clause, Link, Outline, Pattern, Token, outline_of
from .spelling import like

_MOST_NOTES = 3
_MOST_NAMES = 8
_COMPARISONS = ("=", "<>", "<", ">", "<=", ">=")
_Tables = Sequence[Nodes] | Sequence[Rels]


def notes(statement: str, schema: Schema) -> list[str]:
    """Lines on what a query asks for and no table has, such as `no table has the label Lina; Line?`; at most three.

    They say why a query that graphq answers has no rows, or nulls. A statement that is no query has none.
    """
    outline = outline_of(statement)
    if not schema.nodes or not outline.clauses:
        return []
    found: list[str] = []
    for one in (_words, _together, _directions, _properties, _values, _names):
        found += one(outline, schema)
    return list(dict.fromkeys(found))[:_MOST_NOTES]


def tables_of(variable: str, outline: Outline, schema: Schema) -> _Tables:
    """The tables whose nodes or relationships a variable may be, by what its patterns say.

    A label in an optional clause or in the path of an EXISTS says nothing of a variable that a MATCH has.
    """
    patterns = _firm(variable, outline) or outline.variables().get(variable, [])
    words = [word.name for pattern in patterns for word in pattern.words]
    return schema.rels_of(words) if outline.is_relationship(variable) else schema.nodes_with(words)


def _firm(variable: str, outline: Outline) -> list[Pattern]:
    """The patterns of a variable in MATCH clauses."""
    clauses = [clause for clause in outline.clauses if clause.kind == "MATCH"]
    patterns = [pattern for clause in clauses for pattern in clause.patterns()]
    return [pattern for pattern in patterns if pattern.name is not None and pattern.name.name == variable]


def _labels(node: Pattern, clause: Clause, outline: Outline) -> list[str]:
    """The labels of a node in a clause: those of its patterns there, and in MATCH clauses."""
    patterns = [node]
    if node.name is not None:
        name = node.name.name
        own = [one for one in clause.nodes if one.name is not None and one.name.name == name]
        patterns = [*_firm(name, outline), *own]
    return list(dict.fromkeys(word.name for pattern in patterns for word in pattern.words))


def _nodes(outline: Outline) -> Iterator[tuple[Pattern, Clause]]:
    for clause in outline.clauses:
        for node in clause.nodes:
            yield node, clause


def _links(outline: Outline) -> Iterator[tuple[Link, Clause]]:
    for clause in outline.clauses:
        for link in clause.links:
            yield link, clause


def _words(outline: Outline, schema: Schema) -> Iterator[str]:
    """Labels and types that are in no table."""
    labels, types = schema.labels(), schema.types()
    for node, _ in _nodes(outline):
        for word in node.words:
            if word.name not in labels:
                yield f"no table has the label {word.name}{like(word.name, labels)}"
    for link, _ in _links(outline):
        for word in link.pattern.words:
            if word.name not in types:
                yield f"no table has the type {word.name}{like(word.name, types)}"


def _together(outline: Outline, schema: Schema) -> Iterator[str]:
    """Labels that are in no table together."""
    known = schema.labels()
    for node, clause in _nodes(outline):
        labels = _labels(node, clause, outline)
        if len(labels) > 1 and set(labels) <= set(known) and not schema.nodes_with(labels):
            yield f"no table has the labels {' and '.join(labels)} together"


def _directions(outline: Outline, schema: Schema) -> Iterator[str]:
    """Relationships between tables that no table of their types joins, in the direction of the arrow."""
    for link, clause in _links(outline):
        ends = [_labels(node, clause, outline) for node in (link.left, link.right)]
        if link.arrow == "<--":
            ends.reverse()
        source, target = (schema.nodes_with(labels) for labels in ends)
        types = [word.name for word in link.pattern.words]
        tables = schema.rels_of(types)
        if not tables or not source or not target or _joins(tables, source, target, link.trail):
            continue
        back = _joins(tables, target, source, link.trail)
        if back and link.arrow == "--":
            continue
        names = [":".join(labels) or "any node" for labels in ends]
        said = f"no {'|'.join(types) or 'relationship'} leads from {names[0]} to {names[1]}"
        if back:
            yield f"{said}, but the other way round: turn the arrow"
        else:
            yield said + (f": it leads from {tables[0].source} to {tables[0].target}" if types else "")


def _joins(tables: list[Rels], sources: list[Nodes], targets: list[Nodes], trail: bool) -> bool:
    """Whether a table leads from one of these to one of those; of a trail, whether one begins so and one ends."""
    begins = [table for table in tables if table.source in [one.word for one in sources]]
    words = [one.word for one in targets]
    return any(table.target in words for table in (tables if begins and trail else begins))


def _entries(outline: Outline, schema: Schema) -> Iterator[tuple[Token, Token, _Tables]]:
    """The entries of all maps, each with the tables that its pattern may have."""
    for node, clause in _nodes(outline):
        for key, value in node.entries:
            yield key, value, schema.nodes_with(_labels(node, clause, outline))
    for link, _ in _links(outline):
        for key, value in link.pattern.entries:
            yield key, value, schema.rels_of([word.name for word in link.pattern.words])


def _properties(outline: Outline, schema: Schema) -> Iterator[str]:
    """Properties that are in no table, or in none of those that are asked for them."""
    variables = outline.variables()
    for key, _, tables in _entries(outline, schema):
        yield from _property(key.name, tables, schema)
    for variable, name in outline.reads:
        if variable.name not in variables:
            continue
        if name.name == "type" and outline.is_relationship(variable.name) and "type" not in schema.properties():
            yield f"no table has the property type: type({variable.text}) gives the type"
        else:
            yield from _property(name.name, tables_of(variable.name, outline, schema), schema)


def _property(name: str, tables: _Tables, schema: Schema) -> Iterator[str]:
    known = schema.properties()
    own = list(dict.fromkeys(one.name for table in tables for one in table.fields))
    if name not in known:
        yield f"no table has the property {name}{like(name, known)}"
    elif tables and name not in own:
        words = [table.word if isinstance(table, Nodes) else table.type for table in tables]
        listed = ", ".join(own[:_MOST_NAMES])
        others = f": the properties are {listed}" if own else ": there is none"
        yield f"no {' or '.join(list(dict.fromkeys(words))[:3])} has the property {name}{like(name, own) or others}"


def _values(outline: Outline, schema: Schema) -> Iterator[str]:
    """What equals nothing: null, and a value of another kind than the property has."""
    for key, value, tables in _entries(outline, schema):
        if value.upper == "NULL":
            yield f"nothing equals null: write WHERE .. {key.text} IS NULL"
        else:
            yield from _other_kind(key, value, tables)
    for part in outline.parts:
        for at, sign in enumerate(part.tokens[3:-1], 3):
            variable, dot, key = part.tokens[at - 3 : at]
            if dot.text == "." and sign.text in _COMPARISONS and variable.name in outline.variables():
                yield from _other_kind(key, part.tokens[at + 1], tables_of(variable.name, outline, schema))
    texts = [token.text.upper() for token in outline.tokens]
    for at, text in enumerate(texts[:-1]):
        if text in ("=", "<>") and texts[at + 1] == "NULL":
            yield f"nothing equals null: write IS {'NOT ' if text == '<>' else ''}NULL in the place of {text} null"


def _other_kind(key: Token, value: Token, tables: _Tables) -> Iterator[str]:
    """That a property is compared with a literal of another kind, which it never equals."""
    kinds = {one.kind for table in tables for one in table.fields if one.name == key.name}
    own = _kind(value)
    if kinds and own and own not in kinds:
        yield f"{key.text} is of the kind {sorted(kinds)[0]}, and {value.text} is none"


def _kind(value: Token) -> str | None:
    if value.upper in ("TRUE", "FALSE"):
        return "bool"
    return {"string": "string", "number": "int"}.get(value.kind)


def _names(outline: Outline, schema: Schema) -> Iterator[str]:
    """Names of nodes and relationships that are labels and types without their colon."""
    for node, _ in _nodes(outline):
        if node.name is not None and not node.words and node.name.name in schema.labels():
            yield f"({node.name.text}) is a node with this name, of any label: (:{node.name.text}) has the label"
    for link, _ in _links(outline):
        name = link.pattern.name
        if name is not None and not link.pattern.words and name.name in schema.types():
            yield f"[{name.text}] is a relationship with this name, of any type: [:{name.text}] has the type"
