#!/usr/bin/env python3
"""Writes crates/gq_cases/data/lanes.cases: each kind of test that columns can decide, over tables of as many rows as a word
of marks and a vector have, one less and one more. What is wanted is worked out here, by the rules of docs/language.md.

  python3 bench/lane_cases.py > crates/gq_cases/data/lanes.cases

All rows of a table are alike but those at the ends of words and vectors, which have the values that tests turn on.
"""
import argparse
from collections.abc import Callable, Iterator, Sequence

Value = bool | int | str | None
Row = tuple[Value, ...]
Truth = bool | None  # None is null
LEAST, GREATEST = -2**63, 2**63 - 1
SIZES = [1, 63, 64, 65, 1023, 1024, 1025, 2047, 2048, 2049]
EDGES = [0, 31, 62, 63, 64, 511, 1022, 1023, 1024, 1500, 2046, 2047, 2048]
COLUMNS = [("m", "bool"), ("v", "int"), ("w", "int"), ("s", "string"), ("t", "string"), ("f", "bool")]
# One after another at the edges; null is None.
SPECIAL = [
    (True, LEAST, GREATEST, "ab", "ab", True),
    (True, None, 0, None, "a", None),
    (True, GREATEST, GREATEST, "zu", "Zu", False),
    (True, 0, None, "\u00fcber", None, True),
    (True, -1, 0, "a'b", "a", False),
    (True, 1, -1, "abzu", "b", None),
    (True, 7, 7, " ", "  ", True),
]
FILLER = (None, 5, 5, "m", "m", False)


def literal(value: Value) -> str:
    """A value as a query has it."""
    if value is None:
        return "null"
    if isinstance(value, bool):
        return "true" if value else "false"
    if isinstance(value, int):
        return str(value)
    return "'" + value.replace("\\", "\\\\").replace("'", "\\'") + "'"


class Column:
    """A property of a row."""

    def __init__(self, name: str) -> None:
        self.text, self.place = f"p.{name}", [c for c, _ in COLUMNS].index(name)

    def value(self, row: Row) -> Value:
        return row[self.place]


class Literal:
    """A value that is the same for each row."""

    def __init__(self, value: Value) -> None:
        self.text, self.is_value = literal(value), value

    def value(self, _row: Row) -> Value:
        return self.is_value


def side(x: Value) -> Column | Literal:
    """A side of a comparison: a property, by a point and its name, or a value."""
    return Column(x[1:]) if isinstance(x, str) and x.startswith(".") else Literal(x)


def compared(op: str, a: Value, b: Value) -> Truth:
    """Of three values: true, false, or null as None."""
    if a is None or b is None:
        return None
    alike = type(a) is type(b)
    if op == "=":
        return alike and a == b
    if op == "<>":
        return not (alike and a == b)
    if not alike:
        return None
    if isinstance(a, str) and isinstance(b, str):
        return ordered(op, (a > b) - (a < b))
    assert isinstance(a, int) and isinstance(b, int)
    return ordered(op, (a > b) - (a < b))


def ordered(op: str, sign: int) -> bool:
    """Whether two values compare so whose difference has this sign."""
    return {"<": sign < 0, "<=": sign <= 0, ">": sign > 0, ">=": sign >= 0}[op]


def both(truths: Sequence[Truth]) -> Truth:
    """AND of several."""
    return False if False in truths else None if None in truths else True


def either(truths: Sequence[Truth]) -> Truth:
    """OR of several."""
    return True if True in truths else None if None in truths else False


class Test:
    """A condition: its text, and what it is of a row."""

    def __init__(self, text: str, truth: Callable[[Row], Truth]) -> None:
        self.text, self.truth = text, truth


def chain(first: Value, *terms: tuple[str, Value]) -> Test:
    """Comparisons one after another."""
    sides = [side(first)] + [side(x) for _, x in terms]
    ops = [op for op, _ in terms]
    text = sides[0].text + "".join(f" {op} {s.text}" for op, s in zip(ops, sides[1:], strict=True))
    compares = list(zip(ops, sides, sides[1:], strict=False))
    return Test(text, lambda r: both([compared(op, a.value(r), b.value(r)) for op, a, b in compares]))


def is_null(x: Value) -> Test:
    """IS NULL."""
    a = side(x)
    return Test(f"{a.text} IS NULL", lambda r: a.value(r) is None)


def is_known(x: Value) -> Test:
    """IS NOT NULL."""
    a = side(x)
    return Test(f"{a.text} IS NOT NULL", lambda r: a.value(r) is not None)


def member(x: Value, *items: Value) -> Test:
    """IN."""
    a = side(x)
    return Test(f"{a.text} IN [{', '.join(literal(i) for i in items)}]",
                lambda r: either([compared("=", a.value(r), i) for i in items]))


def part(word: str, x: Value, what: str) -> Test:
    """A test of a part of a text."""
    tests: dict[str, Callable[[str, str], bool]] = {
        "STARTS WITH": str.startswith,
        "ENDS WITH": str.endswith,
        "CONTAINS": str.__contains__,
    }
    a, has = side(x), tests[word]

    def truth(row: Row) -> Truth:
        text = a.value(row)
        return has(text, what) if isinstance(text, str) else None

    return Test(f"{a.text} {word} {literal(what)}", truth)


def flag(x: Value) -> Test:
    """A property that is a boolean."""
    a = side(x)

    def truth(row: Row) -> Truth:
        value = a.value(row)
        return value if isinstance(value, bool) else None

    return Test(a.text, truth)


def no(t: Test) -> Test:
    """NOT."""
    return Test(f"NOT ({t.text})", lambda r: None if t.truth(r) is None else not t.truth(r))


def all_of(*ts: Test) -> Test:
    """AND."""
    return Test(" AND ".join(f"({t.text})" for t in ts), lambda r: both([t.truth(r) for t in ts]))


def one_of(*ts: Test) -> Test:
    """OR."""
    return Test(" OR ".join(f"({t.text})" for t in ts), lambda r: either([t.truth(r) for t in ts]))


def tests() -> Iterator[Test]:
    """The conditions that are asked."""
    for op in ["=", "<>", "<", "<=", ">", ">="]:
        values: list[Value] = [0, GREATEST, LEAST, "ab", "no text of it", "", True, None]
        for z in values:
            column = ".s" if isinstance(z, str) else ".f" if isinstance(z, bool) else ".v"
            yield chain(column, (op, z))
        firsts: list[tuple[Value, str]] = [(-1, ".v"), ("ab", ".s"), ("no text of it", ".s")]
        for first, other in firsts:
            yield chain(first, (op, other))
        yield chain(".v", (op, ".w"))
        yield chain(".s", (op, ".s"))
        yield chain(".s", (op, ".t"))
        yield chain(".v", (op, ".s"))
    yield chain(-1, ("<=", ".v"), ("<", 1))
    yield chain(1, (">", ".v"), (">=", ".w"))
    for c in [".v", ".s", ".f"]:
        yield is_null(c)
        yield is_known(c)
        yield no(is_null(c))
    yield member(".v", 0, GREATEST)
    yield member(".v", 1, None)
    yield member(".s", "ab", "no text of it")
    yield no(member(".v", 0, 5))
    for word in ["STARTS WITH", "ENDS WITH", "CONTAINS"]:
        for what in ["a", "zu", "", "no text of it", "\u00fc", "'"]:
            yield part(word, ".s", what)
        yield no(part(word, ".s", "a"))
        yield part(word, ".v", "a")
    yield flag(".f")
    yield no(flag(".f"))
    yield all_of(chain(".v", (">=", 0)), no(chain(".s", ("<", "b"))), flag(".f"))
    yield one_of(chain(".v", ("<", 0)), part("STARTS WITH", ".s", "z"), part("CONTAINS", ".s", "zu"))
    yield no(one_of(chain(".v", ("=", 0)), chain(".w", ("=", 0)), flag(".f")))
    yield no(all_of(chain(".v", ("<>", 7)), is_known(".t")))


def rows(size: int) -> list[tuple[int, str, Row]]:
    """The rows as the lines of a file write them: a special row, or so many fillers, each with its keys."""
    at = special = 0
    done: list[tuple[int, str, Row]] = []
    for edge in [*(e for e in EDGES if e < size), size]:
        if edge > at:
            done.append((edge - at, f"n{at}_", FILLER))
        if edge < size:
            done.append((1, f"x{edge}", SPECIAL[special % len(SPECIAL)]))
            special += 1
        at = edge + 1
    return done


def field(value: Value) -> str:
    """A value as a file has it."""
    return "" if value is None else str(value).lower() if isinstance(value, bool) else str(value)


def lines(size: int, spell: Callable[[str, Row], str]) -> Iterator[str]:
    """The rows as a case writes them."""
    for count, key, row in rows(size):
        if count == 1 and key[0] == "x":
            yield "| " + spell(key, row)
        else:
            yield f"|{count} " + spell(key + "#", row)


def case(size: int) -> Iterator[str]:
    """The case of a table of so many rows."""
    header = ",".join(["k:string", *(f"{n}:{kind}" for n, kind in COLUMNS)])
    yield f"case {size} rows, of which the ones at the ends of words and vectors are tested"
    yield "file g.manifest"
    yield "| node Hub hub.csv"
    yield "| node Row row.csv"
    yield "| rel HAS Hub Row many_many has.csv"
    yield "file hub.csv"
    yield "| id:int"
    yield "| 1"
    yield "file row.csv"
    yield "| " + header
    yield from lines(size, lambda key, row: ",".join([key, *map(field, row)]))
    yield "file has.csv"
    yield "| from,to"
    yield from lines(size, lambda key, row: f"1,{key}")
    yield "input"
    wanted: list[str] = []
    for number, test in enumerate(tests()):
        # In turns all rows, and the rows of a list of relationships.
        pattern = "(p:Row)" if number % 2 == 0 else "(h:Hub)-[:HAS]->(p)"
        yield f"| MATCH {pattern} WHERE p.m AND ({test.text}) RETURN p.k ORDER BY p.k;"
        found = sorted(key for count, key, row in rows(size) if row[0] is True and test.truth(row) is True)
        wanted += ["p.k"] + [f"'{k}'" for k in found] + [f"rows {len(found)}"]
        # Without the mark, where no other row passes.
        if test.truth(FILLER) is not True:
            other = "(h:Hub)-[:HAS]->(p)" if number % 2 == 0 else "(p:Row)"
            yield f"| MATCH {other} WHERE {test.text} RETURN p.k ORDER BY p.k;"
            wanted += ["p.k"] + [f"'{k}'" for k in found] + [f"rows {len(found)}"]
    yield from (f"= {line}" for line in wanted)


def main() -> None:
    """Writes the cases."""
    argparse.ArgumentParser(
        prog="bench/lane_cases.py", description=__doc__, formatter_class=argparse.RawDescriptionHelpFormatter
    ).parse_args()
    print("# Each kind of test that columns decide, at the ends of words of marks and of vectors: "
          "bench/lane_cases.py writes this file.")
    for size in SIZES:
        print()
        print("\n".join(case(size)))


if __name__ == "__main__":
    main()
