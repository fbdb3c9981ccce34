"""Random small graphs, as a manifest and CSV files."""

from __future__ import annotations

import csv
import io
from dataclasses import dataclass, replace
from random import Random

MANIFEST = "g.manifest"
FIRST_FILLER = 1000
WORDS = ("A", "B", "A:C")
INTEGERS = ("", "0", "1", "1", "2", "2", "3", "-1", "007")
GREAT_INTEGERS = ("9223372036854775807", "-9223372036854775808", "4611686018427387904")
TEXTS = ("", "", "a", "b", "ab", "aba", "é", "it's", "a,b", 'so "said"', "two\nlines", "tab\tbed")
FLAGS = ("", "true", "false", "TRUE")


@dataclass(frozen=True)
class Sizes:
    """How many tables of nodes there may be, how many rows the first one has and the later ones; of relationships the types,
    how many tables there are at most, how many rows each has, and how many of them a node. So many fillers, all alike, stand before
    the rows of the first table, and a relationship between each of them and one node before the rows of the first type."""

    node_tables: tuple[int, ...]
    nodes: tuple[int, ...]
    later_nodes: tuple[int, ...]
    types: tuple[str, ...]
    most_tables: int
    relationships: tuple[int, ...]
    multiplicities: tuple[str, ...]
    fillers: tuple[int, ...] = (0,)


SPARSE = Sizes(
    node_tables=(1, 1, 2, 2, 3),
    nodes=(2, 3, 4, 5),
    later_nodes=(0, 1, 2, 3, 3, 4),
    types=("R", "R", "R", "S", "T"),
    most_tables=7,
    relationships=(0, 3, 5, 7, 9),
    multiplicities=("many_many", "many_many", "many_one", "one_many", "one_one"),
)
DENSE = Sizes(
    node_tables=(1, 1, 2),
    nodes=(5, 6, 7, 8),
    later_nodes=(3, 4, 5),
    types=("R", "R", "R", "S"),
    most_tables=4,
    relationships=(9, 12, 16, 24),
    multiplicities=("many_many", "many_many", "many_many", "many_one", "one_many"),
)
# The rows that matter, and the relationships at one node, stand at the ends of pieces of 2,048.
LONG = replace(DENSE, relationships=(5, 7, 9), fillers=(2043, 2044, 2045, 2046, 2047, 2048))


@dataclass(frozen=True)
class NodesMade:
    """A table of nodes that was made: its word, the keys of its fillers and those of its other rows."""

    word: str
    fillers: list[str]
    keys: list[str]


def csv_text(records: list[list[str]]) -> str:
    """Records as a CSV file."""
    text = io.StringIO()
    csv.writer(text, lineterminator="\n").writerows(records)
    return text.getvalue()


def random_graph(random: Random) -> dict[str, str]:
    """The files of a graph, each by its name; the manifest is `g.manifest`. Half of them are sparse, a few have long lists."""
    files: dict[str, str] = {}
    lines = []
    tables = []
    sizes = random.choices((SPARSE, DENSE, LONG), (10, 8, 2))[0]
    for number, word in enumerate(WORDS[: random.choice(sizes.node_tables)]):
        table = nodes_made(random, number, word, sizes)
        name = f"n{number}.csv"
        files[name] = node_file(random, table)
        lines.append(f"node {word} {name}")
        tables.append(table)
    for number, (kind, source, target) in enumerate(relationship_tables(random, tables, sizes)):
        fillers = [] if number else filler_ends(random, tables[0])
        multiplicity = "many_many" if fillers else random.choice(sizes.multiplicities)
        name = f"r{number}.csv"
        records = [*fillers, *random_ends(random, source, target, multiplicity, sizes)]
        files[name] = csv_text([["from", "to", "y:int"], *records])
        lines.append(f"rel {kind} {source.word} {target.word} {multiplicity} {name}")
    files[MANIFEST] = "".join(f"{line}\n" for line in lines)
    return files


def nodes_made(random: Random, number: int, word: str, sizes: Sizes) -> NodesMade:
    """The keys of a table of nodes: integers, or now and then texts."""
    rows = random.choice(sizes.later_nodes if number else sizes.nodes)
    fillers = 0 if number else random.choice(sizes.fillers)
    front = "k" if random.random() < 0.15 else ""
    return NodesMade(
        word,
        [f"{front}{FIRST_FILLER + row}" for row in range(fillers)],
        [f"{front}{10 * number + row}" for row in range(rows)],
    )


def node_file(random: Random, table: NodesMade) -> str:
    """The file of a table of nodes."""
    is_text = any(key.startswith("k") for key in table.keys)
    header = ["id:string" if is_text else "id:int"]
    columns: list[tuple[str, ...]] = []
    for name, kind, cells in (
        ("x", "int", INTEGERS + GREAT_INTEGERS * (random.random() < 0.1)),
        ("s", "string", TEXTS),
        ("f", "bool", FLAGS),
    ):
        if random.random() < 0.9:
            header.append(f"{name}:{kind if random.random() < 0.95 else 'string'}")
            columns.append(cells)
    alike = [random.choice(cells) for cells in columns]
    fillers = [[key, *alike] for key in table.fillers]
    records = [[key, *(random.choice(cells) for cells in columns)] for key in table.keys]
    return csv_text([header, *fillers, *records])


def relationship_tables(
    random: Random, tables: list[NodesMade], sizes: Sizes
) -> list[tuple[str, NodesMade, NodesMade]]:
    """The types of tables of relationships with their ends, each once."""
    found = [] if sizes is SPARSE else [("R", tables[0], tables[0])]
    for _ in range(random.randint(2, sizes.most_tables)):
        table = random.choice(sizes.types), random.choice(tables), random.choice(tables)
        if table not in found:
            found.append(table)
    return found


def filler_ends(random: Random, table: NodesMade) -> list[list[str]]:
    """A relationship for each filler of a table: all from one node, or all to one."""
    hub, is_forward = random.choice(table.keys), random.random() < 0.6
    return [[*((hub, key) if is_forward else (key, hub)), ""] for key in table.fillers]


def random_ends(
    random: Random, source: NodesMade, target: NodesMade, multiplicity: str, sizes: Sizes
) -> list[list[str]]:
    """Relationships of a table, which keep its multiplicity."""
    records = []
    sources, targets = set(), set()
    for _ in range(random.choice(sizes.relationships) if source.keys and target.keys else 0):
        ends = random.choice(source.keys), random.choice(target.keys)
        if multiplicity in ("many_one", "one_one") and ends[0] in sources:
            continue
        if multiplicity in ("one_many", "one_one") and ends[1] in targets:
            continue
        sources.add(ends[0])
        targets.add(ends[1])
        records.append([*ends, random.choice(INTEGERS)])
    return records
