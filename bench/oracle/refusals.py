"""The sixteen refusals of queries in their fixed order, each with its name or number."""

from __future__ import annotations

from . import syntax
from .alternatives import MOST as MOST_ALTERNATIVES
from .errors import Refused
from .names import names_used, variables_of
from .outline import Outline
from .shapes import is_made_of, shape

MOST_PATTERNS = 24
MOST_READS = 64
MOST_COLUMNS = 64
MOST_STEPS = 16
FUNCTIONS = ("type", "coalesce")


def refuse(outline: Outline) -> None:
    """Refuses a query by the first refusal that applies, if one does."""
    for check in (
        unknown_variable,
        variable_conflict,
        relationship_repeated,
        column_repeated,
        nothing_to_return,
        order_out_of_scope,
        ambiguous_order_name,
        unknown_function,
        argument_count,
        too_many_patterns,
        too_many_reads,
        too_many_columns,
        too_many_alternatives,
        trail_length,
        trail_with_optional,
        exists_place,
    ):
        check(outline)


# ---- names


def unknown_variable(outline: Outline) -> None:
    """An expression has a name that it cannot see, or the path of an EXISTS has."""
    for place in outline.places:
        for part in syntax.walk(place.expression):
            for name in names_used(part):
                is_column = isinstance(part, syntax.Name) and name in place.columns
                if name not in place.variables and not is_column:
                    raise Refused(f"UnknownVariable {name}")


def variable_conflict(outline: Outline) -> None:
    """A name is that of a node and of a relationship."""
    kinds: dict[str, str] = {}
    for name, kind in outline.pattern_names():
        if kinds.setdefault(name, kind) != kind:
            raise Refused(f"VariableConflict {name}")


def relationship_repeated(outline: Outline) -> None:
    """The name of a relationship stands twice."""
    met = set()
    for name, kind in outline.pattern_names():
        if kind == "relationship" and name in met:
            raise Refused(f"RelationshipRepeated {name}")
        met.add(name)


def column_repeated(outline: Outline) -> None:
    """Two columns have one name."""
    met = set()
    for column in outline.columns:
        if column.name in met:
            raise Refused(f"ColumnRepeated {column.name}")
        met.add(column.name)


def nothing_to_return(outline: Outline) -> None:
    """`*` stands for no variable."""
    if outline.query.star and not variables_of(outline.clauses):
        raise Refused("NothingToReturn")


# ---- ORDER BY


def order_out_of_scope(outline: Outline) -> None:
    """With DISTINCT, a sort item is not made of columns."""
    if outline.query.distinct:
        columns = {shape(column.expression) for column in outline.columns}
        for number, item in enumerate(outline.query.order, 1):
            if not is_made_of(columns, outline.resolved(item.expression)):
                raise Refused(f"OrderOutOfScope {number}")


def ambiguous_order_name(outline: Outline) -> None:
    """A name in ORDER BY is a variable, and by AS that of a column which is not this variable."""
    variables = variables_of(outline.clauses)
    ambiguous = {
        item.name
        for item in outline.query.items
        if item.is_renamed
        and item.name in variables
        and shape(item.expression) != shape(syntax.Name(item.name))
    }
    for item in outline.query.order:
        for part in syntax.walk(item.expression):
            if isinstance(part, syntax.Name | syntax.Property):
                for name in names_used(part):
                    if name in ambiguous:
                        raise Refused(f"AmbiguousOrderName {name}")


# ---- calls


def unknown_function(outline: Outline) -> None:
    """A call is neither of `type` nor of `coalesce`."""
    for call in outline.calls():
        if call.function.lower() not in FUNCTIONS:
            raise Refused(f"UnknownFunction {call.function}")


def argument_count(outline: Outline) -> None:
    """`type` has not one argument, or `coalesce` none."""
    for call in outline.calls():
        given = len(call.arguments)
        if given == 0 or (call.function.lower() == "type" and given != 1):
            raise Refused(f"ArgumentCount {call.function}")


# ---- numbers


def too_many_patterns(outline: Outline) -> None:
    """There are too many node patterns or relationship patterns."""
    paths = [path for clause in outline.clauses for path in clause.paths] + outline.paths
    nodes = sum(len(path.nodes) for path in paths)
    relationships = sum(len(path.relationships) for path in paths)
    if max(nodes, relationships) > MOST_PATTERNS:
        raise Refused("TooManyPatterns")


def too_many_reads(outline: Outline) -> None:
    """WHERE clauses and maps read too many different properties of variables."""
    reads = {(entry.variable, entry.key) for each in outline.patterns for entry in each.entries}
    for clause in outline.clauses:
        for conjunct in syntax.conjuncts(clause.condition):
            for part in syntax.walk(conjunct):
                if isinstance(part, syntax.Property):
                    reads.add((part.variable, part.key))
    if len(reads) > MOST_READS:
        raise Refused("TooManyReads")


def too_many_columns(outline: Outline) -> None:
    """There are too many columns."""
    if len(outline.columns) > MOST_COLUMNS:
        raise Refused("TooManyColumns")


def too_many_alternatives(outline: Outline) -> None:
    """Core, optional clauses and paths of EXISTS have too many alternatives together."""
    patterns = [outline.core, *outline.optionals, *outline.path_patterns]
    if sum(len(outline.alternatives_of(each)) for each in patterns) > MOST_ALTERNATIVES:
        raise Refused("TooManyAlternatives")


# ---- trails and EXISTS


def trail_length(outline: Outline) -> None:
    """A trail may be empty or too long, or has no length at all."""
    for trail in outline.trails():
        assert trail.trail is not None
        low, high = trail.trail
        if not 1 <= low <= high <= MOST_STEPS:
            raise Refused("TrailLength")


def trail_with_optional(outline: Outline) -> None:
    """There are a trail and an OPTIONAL MATCH."""
    if outline.trails() and outline.query.optionals:
        raise Refused("TrailWithOptional")


def exists_place(outline: Outline) -> None:
    """An EXISTS stands elsewhere than as a whole conjunct of the WHERE of a MATCH clause."""
    for place in outline.places:
        parts = [place.expression]
        if place.may_test_paths:
            conjuncts = syntax.conjuncts(place.expression)
            parts = [part for part in conjuncts if syntax.path_test(part) is None]
        if any(syntax.paths_in(part) for part in parts):
            raise Refused("ExistsPlace")
