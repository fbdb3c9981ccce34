"""The oracle of bench/oracle gives the answers of docs/language.md, and bench/differ finds a reply that is wrong."""

from __future__ import annotations

import re
import subprocess
import sys
from collections import Counter
from pathlib import Path
from random import Random

from .support import PEOPLE, PROGRAM, TOP, ToolTest

sys.path.append(str(TOP / "bench"))

from oracle.graph import Graph, read_graph  # noqa: E402
from oracle.random_forms import FormWriter  # noqa: E402
from oracle.random_graphs import MANIFEST, random_graph  # noqa: E402
from oracle.replies import Permitted, Settings  # noqa: E402
from oracle.session import Session  # noqa: E402

DIFFER = TOP / "bench/differ"
LANGUAGE = TOP / "docs/language.md"
REFUSAL = re.compile(r"\| `(\w+)(?: NAME| N)?` \|.*\| `(MATCH .*)` \|")

# Queries over examples/people with their rows, as docs/language.md has them.
LISTINGS: dict[str, list[str]] = {
    "MATCH (p:Person) WHERE p.age > 26 RETURN p.name": ["'Ann'"],
    "MATCH (a)-[:KNOWS]->(b), (c)-[:KNOWS]->(b) RETURN a.id, c.id": ["1\t1", "1\t1", "1\t3", "3\t1"],
    "MATCH (a)-[:KNOWS]->(b) RETURN DISTINCT a.id ORDER BY a.id SKIP 1 LIMIT 1": ["2"],
    "MATCH (p:Person) RETURN 1 / 0 LIMIT 0": [],
    "MATCH (a:Person {id: 1})-[:KNOWS*1..2]->(b) RETURN b.id": ["1", "2", "3", "1", "2", "3"],
    "MATCH (a:Person {id: 3})<-[:KNOWS*..2]-(b) RETURN b.id": ["1", "1", "2", "3"],
    "MATCH (a)-[:LIVES_IN]->(c), (a)-[:KNOWS*2]->(b)-[:LIVES_IN]->(c) RETURN a.id, b.id": ["1\t3"],
    "MATCH (p:Person) OPTIONAL MATCH (p)-[:LIVES_IN]->(c) RETURN p.name, c.code": [
        "'Ann'\t'X'",
        "'Bob'\tnull",
        "'Cy'\t'X'",
    ],
    "MATCH (p:Person) OPTIONAL MATCH (p)-[:KNOWS]->(q) WHERE p.id = 1 RETURN p.id, q.id": [
        "1\t2",
        "1\t2",
        "1\t3",
        "2\tnull",
        "3\tnull",
    ],
    "MATCH (n) OPTIONAL MATCH (n:City)<--(p) RETURN n, p.id": [
        "(City 'X')\t1",
        "(City 'X')\t3",
        "(City 'Y')\tnull",
        "(Person 1)\tnull",
        "(Person 2)\tnull",
        "(Person 3)\tnull",
    ],
    "MATCH (c:City) OPTIONAL MATCH (:Person {id: 9}) RETURN *": ["(City 'X')", "(City 'Y')"],
    "MATCH (p:Person {id: 2}) OPTIONAL MATCH (p)-[:LIVES_IN]->(c) WHERE 1 / 0 = 1 RETURN c": ["null"],
    "MATCH (p:Person {id: 1}) OPTIONAL MATCH (p)-[:LIVES_IN]->(c) WHERE 1 / 0 = 1 AND false RETURN c": ["null"],
    "MATCH (p:Person) WHERE NOT exists((p)-[:KNOWS]->()-[:KNOWS]->({id: 1})) RETURN p.name": ["'Bob'", "'Cy'"],
    "MATCH (p:Person) WHERE exists((:City {code: 'Y'})<--()) RETURN p.name": [],
    "MATCH (p:Person) WHERE 1 / (p.age - 30) < 1 AND p.age <> 30 RETURN p.id": ["3"],
}
ARRANGED: dict[str, list[str]] = {
    "MATCH (p:Person) RETURN p.age ORDER BY p.age DESC": ["null", "30", "25"],
    "MATCH (p:Person {id: 1})-[r]->(b) RETURN p.name, r, b ORDER BY r": [
        "'Ann'\t[KNOWS #0]\t(Person 2)",
        "'Ann'\t[KNOWS #2]\t(Person 3)",
        "'Ann'\t[KNOWS #4]\t(Person 2)",
        "'Ann'\t[LIVES_IN #0]\t(City 'X')",
    ],
}
# The number of matches of a pattern, in all of its matches.
COUNTS = {
    "(n)": 5,
    "(a)-[:KNOWS]->(b)": 5,
    "(a)-[:KNOWS]-(b)": 9,
    "(a)-[:KNOWS]->(b)-[:KNOWS]->(c)": 6,
    "(a)-[:KNOWS]->(b) MATCH (b)-[:KNOWS]->(c)": 7,
    "(a)-->(a)": 1,
    "(a:City)<--(b)": 2,
    "(a {id: 1})-[:KNOWS|LIVES_IN]->(b)": 4,
    "(p {id: '1'})": 0,
    "(a)-[:KNOWS*1..16]->(a)": 5,
    "(a)-[:KNOWS]->(b) MATCH (a)-[:KNOWS*1]->(b)": 7,
}
# With `--rows 2`: the only reply, or nothing where rows are permitted.
FEW_ROWS = {
    "MATCH (p:Person) RETURN p.name": "error: TooManyRows 2",
    "MATCH (p:Person) RETURN p.id ORDER BY p.id LIMIT 2": None,
    "MATCH (p:Person) RETURN p.id ORDER BY p.id SKIP 1 LIMIT 2": "error: TooManyRows 2",
    "MATCH (p:Person) RETURN DISTINCT p.age IS NULL AS unknown": None,
    "MATCH (a:City), (b:Person) RETURN 1 LIMIT 2": "error: TooManyRows 2",
    "MATCH (p:Person) WHERE exists((p)-[:KNOWS]->()) RETURN 1 LIMIT 1": "error: TooManyRows 2",
    "MATCH (c:City) OPTIONAL MATCH (c)<-[:LIVES_IN]-(p) RETURN c.code, p.id": "error: TooManyRows 2",
    "MATCH (p {id: 2}) OPTIONAL MATCH (p)-[:KNOWS]->(q) WHERE q.id = 1 RETURN q": "error: TooManyRows 2",
    "MATCH (p {id: 2}) OPTIONAL MATCH (p)-[:KNOWS]->(q {id: 1}) RETURN q": None,
    "MATCH (a:Person), (b:City) RETURN 1 LIMIT 2": None,
}


def people() -> Graph:
    """The graph of examples/people."""
    manifest = (TOP / PEOPLE).read_text(encoding="utf8")
    names = [line.split()[-1] for line in manifest.splitlines()]
    return read_graph(manifest, {name: (TOP / name).read_text(encoding="utf8") for name in names})


def permitted(statement: str, settings: Settings = Settings()) -> Permitted:
    """What the oracle permits to one statement over examples/people."""
    found = Session(people(), settings).permitted(statement.encode())
    assert found is not None
    return found


def reply(statement: str, rows: list[str]) -> list[str]:
    """A reply with these rows, whose columns are called by their source text."""
    columns = statement.split(" RETURN ")[1].removeprefix("DISTINCT ")
    header = re.split(" ORDER BY| SKIP| LIMIT", columns)[0].replace(", ", "\t")
    return ["c" if header == "*" else header, *rows, f"rows {len(rows)}"]


class Oracle(ToolTest):
    def test_listings(self) -> None:
        for statement, rows in (LISTINGS | ARRANGED).items():
            with self.subTest(statement=statement):
                self.assertIsNone(permitted(statement).objection(reply(statement, rows)))
        for statement, rows in LISTINGS.items():
            with self.subTest(statement=statement, reversed=True):
                self.assertIsNone(permitted(statement).objection(reply(statement, rows[::-1])))

    def test_wrong_rows(self) -> None:
        for statement, rows in LISTINGS.items():
            wrong: list[list[str]] = [[*rows, "'Ann'"], ["'Dan'"], rows[1:], [*rows, *rows[-1:]], ["null" for _ in rows]]
            for others in wrong:
                if sorted(others) != sorted(rows):
                    with self.subTest(statement=statement, rows=others):
                        self.assertIsNotNone(permitted(statement).objection(reply(statement, others)))
        for statement, rows in ARRANGED.items():
            with self.subTest(statement=statement):
                self.assertIsNotNone(permitted(statement).objection(reply(statement, rows[::-1])))

    def test_wrong_ends(self) -> None:
        permits = permitted("MATCH (c:City) RETURN c")
        right = ["c", "(City 'X')", "(City 'Y')", "rows 2"]
        self.assertIsNone(permits.objection(right))
        several: tuple[list[str], ...] = (
            ["d", *right[1:]],
            [*right[:-1], "rows 3"],
            right[:-1],
            [],
            ["error: Fault Kind"],
            ["error: TooManyRows 4194304"],
            [*right, "rows 2"],
        )
        for wrong in several:
            with self.subTest(wrong=wrong):
                self.assertIsNotNone(permits.objection(wrong))

    def test_ties(self) -> None:
        """Rows with the same keys stand in any order, also where SKIP and LIMIT cut between them."""
        statement = "MATCH (a)-[:KNOWS]->(b) RETURN a.id, b.id ORDER BY a.id DESC SKIP 1 LIMIT 2"
        for rows, is_right in (
            (["2\t1", "1\t2"], True),
            (["2\t1", "1\t3"], True),
            (["1\t3", "2\t1"], False),
            (["1\t2", "1\t3"], False),
        ):
            with self.subTest(rows=rows):
                objection = permitted(statement).objection(reply(statement, rows))
                self.assertEqual(objection is None, is_right)

    def test_open_replies(self) -> None:
        """One of three outcomes is looked at: `0`, `-1` or the fault."""
        statement = "MATCH (p:Person) RETURN 1 / (p.id - 3) LIMIT 1"
        permits = permitted(statement)
        for lines in (reply(statement, ["0"]), reply(statement, ["-1"]), ["error: Fault DivideByZero"]):
            self.assertIsNone(permits.objection(lines))
        for lines in (reply(statement, ["1"]), reply(statement, []), ["error: Fault Overflow"]):
            self.assertIsNotNone(permits.objection(lines))

    def test_only_faults(self) -> None:
        for statement in (
            "MATCH (p:Person) RETURN 1 / (p.id - 3)",
            "MATCH (p:Person) RETURN 1 / 0 AS x ORDER BY x LIMIT 0",
            "MATCH (p:Person {id: 1}) OPTIONAL MATCH (p)-[:LIVES_IN]->(c) WHERE 1 / 0 = 1 RETURN c",
            "MATCH (p:Person) WHERE 1 / 0 = 1 RETURN p",
        ):
            with self.subTest(statement=statement):
                found = permitted(statement)
                self.assertEqual((found.whole, found.listing), ([["error: Fault DivideByZero"]], None))

    def test_counts(self) -> None:
        for pattern, count in COUNTS.items():
            with self.subTest(pattern=pattern):
                listing = permitted(f"MATCH {pattern} RETURN 1").listing
                self.assertEqual(listing and listing.size, count)

    def test_few_rows(self) -> None:
        for statement, refusal in FEW_ROWS.items():
            with self.subTest(statement=statement):
                found = permitted(statement, Settings(rows=2))
                self.assertEqual(found.whole, [[refusal]] if refusal else [])
                self.assertEqual(found.listing is None, refusal is not None)
        statement = "MATCH (a)-[:KNOWS]->(b), (c)-[:KNOWS]->(b) RETURN a.id, c.id"
        self.assertIsNotNone(permitted(statement, Settings("greedy", 4)).listing)
        self.assertIsNone(permitted(statement, Settings("given", 4)).listing)

    def test_refusals(self) -> None:
        """Each example of a refusal in docs/language.md is refused so."""
        examples = REFUSAL.findall(LANGUAGE.read_text(encoding="utf8"))
        self.assertGreater(len(examples), 11)
        for name, statement in examples:
            with self.subTest(name=name):
                (line,) = permitted(statement).whole[0]
                self.assertEqual(line.split()[:2], ["error:", name])

    def test_places(self) -> None:
        for statement, line in {
            "MATCH (p:Person RETURN p.name": "Syntax at byte 16",
            "MATCH (é) RETURN é.": "Syntax at byte 21",
            "MATCH (p) RETURN 1.5": "Lex at byte 17",
            "MATCH (p) WHERE exists(()-[:R*2]->()) RETURN p": "Syntax at byte 29",
            "MATCH (p) RETURN $y": "UnknownParameter y",
            "MATCH (p) RETURN 1 - 9223372036854775808": "Syntax at byte 21",
        }.items():
            with self.subTest(statement=statement):
                self.assertEqual(permitted(statement).whole, [[f"error: {line}"]])


class Asked(ToolTest):
    def test_forms(self) -> None:
        """No query of the forms that look ahead is refused."""
        random = Random(1)
        for _ in range(200):
            statement = FormWriter(random).query()
            with self.subTest(statement=statement):
                self.assertEqual(permitted(statement).whole, [])

    def test_graphs(self) -> None:
        """Some graphs are small, some have many relationships, and some a table and a list of more than 2,048."""
        graphs = []
        for number in range(60):
            files = random_graph(Random(number))
            graphs.append(read_graph(files[MANIFEST], files))
        long = [graph for graph in graphs if len(graph.all_nodes) > 2_048]
        self.assertTrue(long)
        for graph in long:
            starts = Counter(edge.source for edge in graph.edges)
            ends = Counter(edge.target for edge in graph.edges)
            self.assertGreater(max(*starts.values(), *ends.values()), 2_040)
        self.assertTrue(any(len(graph.edges) < 5 for graph in graphs))
        self.assertTrue(any(30 < len(graph.edges) < 2_000 for graph in graphs))


class Differ(ToolTest):
    def differ(self, *words: str | Path) -> tuple[int, str]:
        """The status of bench/differ and its output."""
        done = subprocess.run([DIFFER, *words], capture_output=True, cwd=self.folder, check=False)
        self.assertEqual(done.stderr, b"")
        return done.returncode, done.stdout.decode()

    def test_program(self) -> None:
        status, output = self.differ(PROGRAM, "--seed", "1", "--rounds", "5")
        self.assertRegex(output, r"\n1[0-9]{2} statements, 0 differ\n$|\n200 statements, 0 differ\n$")
        self.assertEqual(status, 0)

    def test_wrong_program(self) -> None:
        """A program that lists one node for another is found, and all that it was asked is told."""
        lines = ["#!/bin/bash", "set -o pipefail", f'{PROGRAM} "$@" | sed "s/(A 1)/(A 0)/g"']
        wrong = self.write("wrong", "\n".join(lines))
        wrong.chmod(0o755)
        status, output = self.differ(wrong, "--seed", "1", "--rounds", "5")
        self.assertEqual(status, 1)
        self.assertRegex(output, r"DIFFERS seed 1 round [0-4]: the row .* stands where it may not")
        self.assertRegex(output, r"\n[0-9]+ statements, [1-9][0-9]* differ\n$")
        for line in ("file g.manifest", "words --manifest g.manifest", "input", "reply", "permitted"):
            self.assertIn(f"\n{line}", output)

    def test_cases(self) -> None:
        cases = self.write(
            "new.cases",
            "files g.manifest person.csv\ncase right\n| MATCH (p) RETURN p;\n= p\n= (P 1)\n= rows 1\n"
            "case wrong\n| MATCH (p) RETURN p;\n= p\n= (P 2)\n= rows 1\n"
            "case refused load\nfile person.csv\n| id\n= load: BadHeader person.csv\n",
        )
        self.write("g.manifest", "node P person.csv\n")
        self.write("person.csv", "id:int\n1\n")
        status, output = self.differ("--cases", cases)
        self.assertEqual(status, 1)
        self.assertIn("new.cases: wrong (greedy): ", output)
        self.assertTrue(output.endswith("\n2 cases, 1 differ, 1 left out\n"))
        worked = TOP / "crates/gq_cases/data/worked.cases"
        self.assertEqual(self.differ("--cases", worked)[1], "36 cases, 0 differ, 0 left out\n")

    def test_nesting(self) -> None:
        """The 65th construct inside one another is refused, and the 64th is not."""
        for depth, wanted in ((64, ["= c", "= 1", "= rows 1"]), (65, ["= error: Depth at byte 81"])):
            lines = [f"case {depth}", "| MATCH (p) RETURN ~", f"|{depth} (~", "| 1~", f"|{depth} )~", "|  AS c;"]
            cases = self.write("deep.cases", "\n".join(["files g.manifest p.csv", *lines, *wanted]))
            self.write("g.manifest", "node P p.csv\n")
            self.write("p.csv", "id:int\n1\n")
            self.assertEqual(self.differ("--cases", cases), (0, "1 cases, 0 differ, 0 left out\n"))
