"""Statements that were made to cost much: small patterns over many tables, and texts as long as a statement may be."""
from collections.abc import Callable, Iterable, Iterator, Sequence
from dataclasses import dataclass

from .catalogues import CROWD, STUDIED

LONGEST = 65_536  # bytes that a statement may have


@dataclass
class Hostile:
    """One statement over one catalogue, and what it may cost. `answered` says that no want of memory may be its reply."""

    kind: str
    name: str
    catalogue: str
    text: str
    milliseconds: int = 500
    megabytes: int = 100
    answered: bool = False
    rows: int = 4_194_304  # how many rows may be kept


def walk(nodes: Iterable[int], arrow: str) -> str:
    return arrow.join(f"(v{node})" for node in nodes)


def match(walks: Iterable[Iterable[int]], arrow: str) -> str:
    return "MATCH " + ", ".join(walk(nodes, arrow) for nodes in walks) + " RETURN 1 LIMIT 0"


def round_trip(count: int) -> list[int]:
    return [*range(count), 0]


def links(count: int, first: int) -> list[list[int]]:
    return [[at, at + 1] for at in range(first, count, 2)]


# Along each pair.
TOURS = {5: [0, 4, 3, 2, 4, 1, 3, 0, 2, 1, 0], 7: [0, 6, 5, 4, 6, 3, 5, 2, 4, 3, 2, 6, 1, 5, 0, 4, 1, 3, 0, 2, 1, 0]}
GRID = [[0, 1, 2, 3], [4, 5, 6, 7], [8, 9, 10, 11], *([at, at + 4, at + 8] for at in range(4))]
CHORDS = [list(range(16)), [0, 8], [4, 12], [2, 10], [15, 0]]
SHUFFLED = [[at, at + 1] for at in (7, 11, 6, 8, 3, 1, 5, 4, 10, 9, 2, 0)]
SHAPES: dict[str, tuple[Sequence[Sequence[int]], str]] = {
    "a cycle of 23": ([round_trip(23)], "both"),
    "a cycle of 12, each second edge first": ([*links(12, 0), *links(11, 1), [11, 0]], "both"),
    "a path of 13, each second edge first": ([*links(12, 0), *links(12, 1)], "both"),
    "a path of 13, its edges in no order": (SHUFFLED, "->"),
    "a grid of 3 by 4": (GRID, "both"),
    "a path of 16 and then chords": (CHORDS, "both"),
    "each pair of 5": ([TOURS[5]], "--"),
    "each pair of 7": ([TOURS[7]], "both"),
    "a path of 24": ([list(range(24))], "->"),
}


def pairs() -> Iterator[Hostile]:
    """75 patterns without labels and types, most of which contradict themselves far apart in the text."""
    for catalogue in STUDIED:
        for name, (walks, directions) in SHAPES.items():
            for arrow in ("->", "--") if directions == "both" else (directions,):
                text = match(walks, "-->" if arrow == "->" else "--")
                yield Hostile("pairs", f"{name}, {arrow}", catalogue, text, answered=True)


def paths() -> Iterator[Hostile]:
    for catalogue in (*STUDIED, "line", "ring", "one type", "star"):
        for arrow in ("-->", "--", "<--"):
            yield Hostile("paths", f"24 nodes, {arrow}", catalogue, match([range(24)], arrow), milliseconds=50, answered=True)
    typed = match([range(24)], "-[:T0]->")
    yield Hostile("paths", "24 nodes, -[:T0]->", "one type", typed, milliseconds=50, answered=True)


def cycles() -> Iterator[Hostile]:
    for catalogue in (*STUDIED, "line", "ring", "one type", "star"):
        yield Hostile("cycles", "23 undirected", catalogue, match([round_trip(23)], "--"))
    for catalogue in ("bipartite", "layers", "line", "ring", "star"):
        yield Hostile("cycles", "21 undirected after one more", catalogue, match([[30, 31], round_trip(21)], "--"))
    for catalogue in ("bipartite", "line"):  # these take all steps that the search may take
        text = match([[30, 31, 32, 33], round_trip(19)], "--")
        yield Hostile("cycles", "19 undirected after three more", catalogue, text, milliseconds=1500)


def filled(front: str, unit: str, back: str = "", between: str = ", ", longest: int = LONGEST) -> str:
    """`unit` between `front` and `back` as often as it fits, with its number for each `#`."""
    units: list[str] = []
    left, at = longest - len(front) - len(back) - 1, 0
    while True:
        one = unit.replace("#", str(at))
        left -= len(one) + len(between)
        if left < 0:
            return front + between.join(units) + back
        units.append(one)
        at += 1


NINE = "MATCH " + ", ".join(["()"] * 9)
MIXED = "-->".join(f"(v{at})" for at in range(15)) + "--" + walk(range(15, 24), "--")  # 512 alternatives over one table


def copies() -> Iterator[Hostile]:
    """Tests that each of 512 alternatives has its own copies of."""
    most = " AND ".join(["1=1"] * 8115)
    yield Hostile("copies", "9 nodes, 8,115 times 1=1", "two", f"{NINE} WHERE {most} RETURN 1")
    for count in (1000, 2700):
        yield Hostile("copies", f"9 nodes, {count:,} times 1=1", "two", f"{NINE} WHERE {' AND '.join(['1=1'] * count)} RETURN 1")
    named = "MATCH " + ", ".join(f"(v{at})" for at in range(9))
    yield Hostile("copies", "9 nodes, properties", "two", filled(f"{named} WHERE ", "v8.x IS NULL", " RETURN 1", " AND "))
    yield Hostile("copies", "a path of 24, a map", "loop", filled(f"MATCH {MIXED[:-1]} {{", "x:1", "}) RETURN 1"))
    late = " AND ".join(["v23.x"] * 3500)
    yield Hostile("copies", "a path of 24, tests of the last", "loop", f"MATCH {MIXED} WHERE {late} RETURN 1")
    yield Hostile("copies", "its plans", "loop", f":plan MATCH {MIXED} WHERE {late} RETURN 1")
    yield Hostile("copies", "9 nodes, a long text", "two", f"{NINE} WHERE 'a' = '{'b' * 8000}' RETURN 1")


def rows() -> Iterator[Hostile]:
    """Items of ORDER BY that are compared with columns, or stand for them."""
    long = "+".join(["1"] * 15000)
    yield Hostile("rows", "DISTINCT, a long column named often", "loop",
                  filled(f"MATCH (a) RETURN DISTINCT {long} AS x ORDER BY ", "x", between=","))
    yield Hostile("rows", "a column of 999 parts named 1,040 times", "loop",
                  f"MATCH (a) RETURN DISTINCT {'+'.join(['1'] * 500)} AS x ORDER BY {','.join(['x'] * 1040)}")
    signs = "MATCH (a) RETURN DISTINCT a," + ",".join("-" * 60 + f"a.x{at}" for at in range(62))
    yield Hostile("rows", "DISTINCT, 62 columns of 60 signs, items that differ at the end", "loop",
                  filled(signs + " ORDER BY ", "-" * 60 + "a.y", between=","))
    sums = "MATCH (a) RETURN DISTINCT a," + ",".join(f"a.x{at}" + "+1" * 250 for at in range(62))
    yield Hostile("rows", "the same with sums", "loop", filled(sums + " ORDER BY ", "a.y" + "+1" * 250, between=","))
    trees = filled("MATCH (a) RETURN DISTINCT a.x,", tree(7) + "+#", between=",", longest=32_000)
    yield Hostile("rows", "the same with deep sums", "loop", filled(trees + " ORDER BY ", tree(7) + "+9#", between=","))
    yield Hostile("rows", "many items", "one type", filled("MATCH (a) RETURN 1 ORDER BY ", "a.x", between=","))


def tree(depth: int) -> str:
    return f"({tree(depth - 1)}+{tree(depth - 1)})" if depth else "1"


def names() -> Iterator[Hostile]:
    yield Hostile("names", "different node patterns", "loop", filled("MATCH ", "(v#)", " RETURN 1"))
    yield Hostile("names", "the same with RETURN *", "loop", filled("MATCH ", "(v#)", " RETURN *"))
    yield Hostile("names", "a long path of names", "loop", filled("MATCH ", "(v#)-[r#]->", "() RETURN 1", ""))
    yield Hostile("names", "clauses", "loop", filled("", "MATCH(a)", " RETURN 1", ""))
    yield Hostile("names", "different properties", "loop", filled("MATCH (a) WHERE ", "a.x#", " RETURN 1", " AND "))
    yield Hostile("names", "columns, and items that name them", "loop",
                  filled(filled("MATCH (a) RETURN ", "1 AS c#", longest=32_000) + " ORDER BY ", "c0"))
    yield Hostile("names", "types", "one type", filled("MATCH ()-[:", "T#", "]->() RETURN 1", "|"))
    yield Hostile("names", "labels", "one type", filled("MATCH (", ":N#", ") RETURN 1", ""))
    yield Hostile("names", "the entries of a map", "one type", filled("MATCH (a {", "x#:1", "}) RETURN 1"))


def texts() -> Iterator[Hostile]:
    yield Hostile("texts", "a sum", "loop", filled("MATCH (a) RETURN ", "1", "", "+"))
    yield Hostile("texts", "a chain of <", "loop", filled("MATCH (a) RETURN ", "1", "", "<"))
    yield Hostile("texts", "chains of < in one another", "loop", "MATCH (a) RETURN " + "1<(" * 60 + "1" + ")<1" * 60)
    yield Hostile("texts", "parentheses", "loop", filled("MATCH (a) RETURN ", "(((((1)))))", "", "+"))
    yield Hostile("texts", "calls", "loop", filled("MATCH (a) RETURN ", "coalesce(1)", "", "+"))
    yield Hostile("texts", "a long list", "loop", filled("MATCH (a) WHERE a.x IN [", "2", "] RETURN 1", ","))
    yield Hostile("texts", "lists", "loop", filled("MATCH (a) WHERE ", "a.x IN [1]", " RETURN 1", " AND "))
    yield Hostile("texts", "opened and not closed", "loop", filled("MATCH (a) RETURN ", "(", between=""))
    yield Hostile("texts", "commas", "loop", filled("MATCH (a) RETURN 1", ",", between=""))
    yield Hostile("texts", "escapes", "loop", filled("MATCH (a) RETURN '", "\\u0041", "'", ""))
    yield Hostile("texts", "CONTAINS of texts that repeat", "loop",
                  f"MATCH (a) RETURN '{'ab' * 21500}' CONTAINS '{'ab' * 10000}b'")
    yield Hostile("texts", "comments", "loop", filled("MATCH (a) ", "/**/", " RETURN 1", ""))
    yield Hostile("texts", "a long name", "loop", f"MATCH (`{'a' * 65000}`) RETURN 1")


def optional() -> Iterator[Hostile]:
    """Clauses after OPTIONAL: many, with long conditions and maps, of many alternatives, and such as contradict themselves."""
    yield Hostile("optional", "clauses", "loop", filled("MATCH(a)", "OPTIONAL MATCH(a)", " RETURN 1", ""))
    yield Hostile("optional", "clauses with conditions", "loop",
                  filled("MATCH(a)", "OPTIONAL MATCH(b#)WHERE b#.x=a.x", " RETURN 1", " "))
    clauses = "".join(f" OPTIONAL MATCH (v{at}) WHERE v{at}.x=v0.x" + " AND 1=1" * 300 for at in range(1, 24))
    yield Hostile("optional", "23 clauses, 300 conjuncts each", "loop", f"MATCH (v0){clauses} RETURN 1", answered=True)
    eight = "MATCH " + ", ".join(["()"] * 8)  # 256 alternatives over two tables
    yield Hostile("optional", "8 nodes, a long condition", "two",
                  filled(f"MATCH (a) OPTIONAL {eight} WHERE ", "1=1", " RETURN 1", " AND "))
    path = "-->".join(["()"] * 14) + "--()" * 7 + "--(b {"  # 256 alternatives over one table
    yield Hostile("optional", "a path of 22, a map", "loop", filled(f"MATCH (a) OPTIONAL MATCH {path}", "x:1", "}) RETURN 1"))
    clauses = "".join(f" OPTIONAL MATCH (v0)--(v{at})" for at in range(1, 4))
    yield Hostile("optional", "3 clauses of 128 alternatives", "complete", f"MATCH (v0:N0){clauses} RETURN 1", answered=True)
    yield Hostile("optional", "its plan", "complete", f":plan MATCH (v0:N0){clauses} RETURN 1", answered=True)
    for catalogue in STUDIED:
        text = f"MATCH (v30) OPTIONAL {match([round_trip(21)], '--')}"
        yield Hostile("optional", "a cycle of 21 undirected", catalogue, text)


def exists() -> Iterator[Hostile]:
    """Tests of paths with long maps: each path has 64 alternatives, which have copies of their own."""
    test = f"exists(({{{','.join(['x:1'] * 1300)}}}))"
    for count in (1, 7):
        text = f"MATCH (a:N0) WHERE {' AND '.join([test] * count)} RETURN 1"
        yield Hostile("exists", f"{count} of 1,300 entries each", "ring", text, answered=count == 1)
    text = f"MATCH (a) WHERE exists((a){'-->()' * 22}) RETURN 1"
    yield Hostile("exists", "a path of 23", "line", text, answered=True)


def kept() -> Iterator[Hostile]:
    """Statements that keep as many wide rows, joined parts, matches of optional clauses and keys of paths as they may."""
    most = 262_144  # a sixteenth of what may be kept without --rows
    product = "MATCH (a:Many), (b:Many) WHERE b.id < 128 "  # as many
    last = f"SKIP {most - 1}"
    properties = ", ".join(f"a.x AS c{at}" for at in range(64))
    sums = ", ".join(f"a.x + {at} AS c{at}" for at in range(64))
    asked = {
        "64 properties": f"{product}RETURN {properties} {last}",
        "64 sums": f"{product}RETURN {sums} {last}",
        "64 sums, ORDER BY": f"{product}RETURN {sums} ORDER BY c0 {last}",
        "64 properties, DISTINCT": f"{product}RETURN DISTINCT b.x AS b, {properties[:properties.rindex(',')]} {last}",
        "two nodes, DISTINCT": f"{product}RETURN DISTINCT a, b {last}",
    }
    walks = [f"(a{at}:Few)-->(b{at})-->(c{at})" for at in range(8)]
    starts = " AND ".join(f"a{at}.id < 10" for at in range(8))  # 255,990 each
    asked["7 joined parts of two relationships"] = f"MATCH {', '.join(walks)} WHERE {starts} RETURN 1 LIMIT 1"
    clauses = "".join(f" OPTIONAL MATCH (a{at}:Few)-->(b{at})-->(c{at} {{id: 1}})" for at in range(7))  # 25,599 each
    asked["7 optional clauses of two relationships"] = f"MATCH (m:Many {{id: 1}}){clauses} RETURN 1 LIMIT 1"
    tests = " AND ".join(f"exists((a)-->(b)-->(c {{x: {at}}})-->({{x: {at}}}))" for at in range(2))
    asked["tests of paths with three nodes of the query"] = f"MATCH (a:Few), (b:Few), (c:Few) WHERE {tests} RETURN 1 LIMIT 1"
    tests = " AND ".join("exists((a)-->(b)-->(c {id: 1}))" for _ in range(3))
    asked["tests of paths that all hold"] = f"MATCH (a:Few), (b:Few), (c:Few {{id: 1}}) WHERE {tests} RETURN 1 LIMIT 1"
    asked["a joined part of too many"] = f"MATCH (m:Many), {walks[0]} RETURN 1 LIMIT 1"
    for name, text in asked.items():
        yield Hostile("kept", name, CROWD, text, milliseconds=60_000, megabytes=2000, rows=most)


KINDS: dict[str, Callable[[], Iterator[Hostile]]] = {
         "pairs": pairs, "paths": paths, "cycles": cycles, "copies": copies, "rows": rows, "names": names, "texts": texts,
         "optional": optional, "exists": exists, "kept": kept}
