"""The questions about trails, over three kinds of graphs, and the programs that are asked them.

The hand-written C++ and by_networkx.py have a job of each question's name. `reach` asks what can be reached, and has each node once by
DISTINCT; `between` and `to_key` ask for the trails from one node to another, which `to_key` has the trail find by its key.
"""
import csv
import os
import subprocess
from collections import Counter
from dataclasses import dataclass

from .programs import TOP
from .queries import Query, busy
from .session import Floor, Session

PYTHON = os.path.join(TOP, "tools/python")


@dataclass
class Question(Query):
    """A question about trails. `scans` is how many nodes it has looked for by their keys before the trail begins."""
    scans: int = 0


@dataclass
class Kind:
    """A kind of graph: the graph of graphs.py, the kind of the C++, the files, and how a trail is written."""
    graph: str
    floor: str
    nodes: str
    relationships: str
    label: str
    left: str
    right: str
    way: str = "along"

    def trail(self, most: int) -> str:
        """A trail of so many relationships at most."""
        return f"{self.left}*1..{most}{self.right}"


KINDS = {
    "social": Kind("social", "acquaintances", "person.csv", "knows.csv", "Person", "-[:KNOWS", "]->"),
    "imports": Kind("imports", "imports", "module.csv", "imports.csv", "Module", "<-[:IMPORTS", "]-", "against"),
    "hubs": Kind("hubs", "hubs", "place.csv", "leads.csv", "Place", "-[:LEADS", "]->"),
}
SIZES = {"social": 100_000, "imports": 12_000, "hubs": 20_000}
STARTS = 10_000
NAMES = ("key", "to_key", "between_3", "between_4", "between_6", "reach_3", "reach_6", "reach_16", "walks", "starts")


def commonest(path: str, column: int) -> int:
    """The node that most relationships of a file have at this end."""
    with open(path, encoding="utf8") as file:
        lines = csv.reader(file)
        next(lines)
        return int(Counter(line[column] for line in lines).most_common(1)[0][0])


def ends(kind: str, folder: str) -> tuple[int, dict[int, int]]:
    """The node at which trails begin, and the one at which those of each length end.

    In the social graph they lead from a busy person to one whom many know; against imports from the module that most import to the one
    that imports most; and in the chain from the first hub, to a spoke of the second and to the third and the fourth hub."""
    if kind == "hubs":
        return 1, {3: 1002, 4: 2001, 6: 3001}
    if kind == "social":
        start, end = busy(folder), 1
    else:
        path = os.path.join(folder, KINDS[kind].relationships)
        start, end = commonest(path, 1), commonest(path, 0)
    return start, dict.fromkeys((3, 4, 6), end)


def questions(kind: str, folder: str) -> list[Question]:
    """The questions over a graph."""
    one = KINDS[kind]
    start, end = ends(kind, folder)
    first = f"(a:{one.label} {{id: {start}}})"

    def between(most: int) -> Question:
        return Question(f"between_{most}", f"`*1..{most}` between two nodes that are found before",
                        f"MATCH {first}, (b:{one.label} {{id: {end[most]}}}), (a){one.trail(most)}(b) RETURN a.id, b.id",
                        "", "ii", (start, end[most]), scans=2)

    def reach(most: int) -> Question:
        return Question(f"reach_{most}", f"what `*1..{most}` reaches, DISTINCT",
                        f"MATCH {first}{one.trail(most)}(b) RETURN DISTINCT b.id", "", "i", (start,), scans=1)

    return [
        Question("key", "one node by its key, which is a scan", f"MATCH {first} RETURN a.id", "", "i", (start,), scans=1),
        Question("to_key", "`*1..3` to a node by its key",
                 f"MATCH {first}{one.trail(3)}(b:{one.label} {{id: {end[3]}}}) RETURN a.id, b.id", "", "ii", (start, end[3]), scans=1),
        between(3), between(4), between(6), reach(3), reach(6), reach(16),
        Question("walks", "`*1..3` from one node, each a row", f"MATCH {first}{one.trail(3)}(b) RETURN b.id", "", "i", (start,),
                 scans=1),
        Question("starts", f"what `*1..3` reaches from {STARTS:,} nodes, DISTINCT",
                 f"MATCH (a:{one.label}){one.trail(3)}(b) WHERE a.id <= {STARTS} RETURN DISTINCT a.id, b.id", "", "ii", (STARTS,)),
    ]


def has_networkx() -> bool:
    """Whether the Python of the tools has networkx."""
    return subprocess.run([PYTHON, "-c", "import networkx"], stderr=subprocess.DEVNULL, check=False).returncode == 0


class Networkx(Floor):
    """by_networkx.py, with a graph in memory."""

    name = "networkx"

    def __init__(self, kind: str, folder: str, limit: float) -> None:
        one = KINDS[kind]
        script = os.path.join(os.path.dirname(__file__), "by_networkx.py")
        files = [os.path.join(folder, file) for file in (one.nodes, one.relationships)]
        Session.__init__(self, [PYTHON, script, *files, one.way], limit)
