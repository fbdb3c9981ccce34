"""Pictures of rows and plans."""

from __future__ import annotations

import re
import subprocess
from unittest import mock
from xml.etree import ElementTree

from graphq_tools.drawing.plans import draw_plan
from graphq_tools.drawing.spent import profiled, read_spent
from graphq_tools.drawing.steps import read_plan

from .support import METRO, PEOPLE, PROGRAM, TOP, ToolTest, needs_program

SVG = "{http://www.w3.org/2000/svg}"


class Draw(ToolTest):
    def dot(self, query: str, *words: str) -> str:
        return self.done("graphq-draw", "--manifest", PEOPLE, "--dot", *words, query, cwd=TOP)

    def test_rows(self) -> None:
        """Ann, 1, knows Bob, 2, by the relationships 0 and 4; the ends of r are drawn though no column has them."""
        query = "MATCH (a {id: 1})-[r:KNOWS]->(b {id: 2}) RETURN r ORDER BY r"
        text = self.dot(query, "--caption", "Person=name", "--caption", "KNOWS=since")
        drawn = [re.sub(r", fillcolor=.*", "", line.strip()) for line in text.splitlines()]
        self.assertEqual(
            [line for line in drawn if re.match(r"n\d", line)],
            [
                'n0 [label="Ann", tooltip="(Person 1)"',
                'n1 [label="Bob", tooltip="(Person 2)"',
                'n0 -> n1 [label="2010", tooltip="[KNOWS #0]"];',
                'n0 -> n1 [label="2012", tooltip="[KNOWS #4]"];',
            ],
        )

    def test_nodes_of_two_tables(self) -> None:
        text = self.dot("MATCH (p)-[r:LIVES_IN]->(c) RETURN p, r, c ORDER BY p")
        self.assertEqual(len(re.findall(r"^  n\d+ \[", text, re.MULTILINE)), 3)
        self.assertEqual(len(re.findall(r"^  n\d+ -> n\d+", text, re.MULTILINE)), 2)
        self.assertIn('label="X", tooltip="(City \'X\')"', text)

    def test_plan_with_a_join(self) -> None:
        lines = [
            "alternative 1",
            "scan a:Person",
            "join on b",
            "  scan c:Person",
            "  join",
            "    scan d:City",
            "  differ #1 #2",
            "keep a.id = 1",
            "alternatives 1",
            "cost 1 6 4",
        ]
        plan = read_plan(lines)
        (steps,) = plan.alternatives
        self.assertEqual(plan.costs, ["6 4"])
        self.assertEqual([step.text for step in steps], ["scan a:Person", "join on b", "keep a.id = 1"])
        self.assertEqual([step.text for step in steps[1].part], ["scan c:Person", "join", "differ #1 #2"])
        self.assertEqual([step.text for step in steps[1].part[1].part], ["scan d:City"])

    def test_plan(self) -> None:
        text = self.dot(":plan MATCH (a)-[:KNOWS]->(b), (c)-[:KNOWS]->(b) RETURN a.id, c.id;", "--order", "given")
        edges = re.findall(r"s(\d) -> s(\d)( \[style=dashed\])?;", text)
        dashed = " [style=dashed]"
        self.assertEqual(edges, [("1", "2", ""), ("2", "3", ""), ("4", "5", ""), ("5", "3", dashed), ("3", "6", "")])

    def test_plan_with_all_that_there_is(self) -> None:
        """Trails stand at the end of each alternative, tests of paths beside, and costs over an alternative."""
        query = ":plan MATCH (a:Person {id: 1})-[:KNOWS*1..2]->(b) WHERE exists((b)-[:KNOWS]->()) RETURN b"
        text = self.dot(query, "--order", "least")
        self.assertRegex(text, r'label="alternative 1, cost [0-9]+"')
        self.assertIn('label="trail #1: from its left end"', text)
        self.assertIn('label="exists 1: 1 alternative"', text)
        text = self.dot(":plan MATCH (p:Person) OPTIONAL MATCH (p)-[:LIVES_IN]->(c) RETURN c")
        self.assertIn('label="OPTIONAL MATCH 1: 1 alternative"', text)

    def test_what_was_spent(self) -> None:
        """docs/language.md has these numbers: the joined part took 3 chunks, the alternative 4 and a column, for 4 rows."""
        query = ":profile MATCH (a)-[:KNOWS]->(b), (c)-[:KNOWS]->(b) RETURN a.id, c.id"
        text = self.dot(query, "--order", "given")
        self.assertIn('label="4 rows", labelloc=t', text)
        self.assertIn('label="alternative 1, 4 chunks, 1 column"', text)
        self.assertIn('s5 -> s3 [style=dashed, label="3 chunks, 0 columns"];', text)
        self.assertNotIn("pipeline", text)

    def test_what_was_spent_before_the_alternatives(self) -> None:
        """Three persons, two of whom know somebody: the path's plan is no alternative of the query, and comes first."""
        text = self.dot("/* all */ : profile MATCH (p:Person) WHERE exists((p)-[:KNOWS]->()) RETURN p")
        self.assertRegex(text, r'label="exists 1: 1 alternative".*\n.*label="pipeline 1: [0-9]+ chunks?, 0 columns"')
        self.assertRegex(text, r'label="alternative 1, 1 chunk, 0 columns"')

    def test_whose_pipeline_it_is(self) -> None:
        """With a LIMIT and a test of a path it cannot be told; without a test the alternatives that were not reached say so."""
        two = [line for number in (1, 2) for line in (f"alternative {number}", "scan a:T", "columns 0")]
        plan = read_plan([*two, "alternatives 2"])
        one = ["pipeline 1 chunks 1 columns 0"]
        spent = read_spent(plan, one, 5, "MATCH (a) RETURN a LIMIT 5")
        self.assertEqual(([*map(len, spent.alternatives)], spent.others), ([1], []))
        self.assertIn('label="alternative 2, not gone through"', draw_plan(plan, spent))
        plan = read_plan([*two, "alternatives 2", "exists 1 alternatives 1"])
        spent = read_spent(plan, one * 2, 5, "MATCH (a) WHERE exists((a)-->()) RETURN a LIMIT 5")
        self.assertEqual((spent.alternatives, len(spent.others)), ([], 2))
        spent = read_spent(plan, one * 3, 5, "MATCH (a) WHERE exists((a)-->()) RETURN a")
        self.assertEqual((len(spent.alternatives), len(spent.others)), (2, 1))

    def test_profile_is_told_from_a_query(self) -> None:
        self.assertEqual(profiled("// why\n :PROFILE MATCH (n) RETURN n"), " MATCH (n) RETURN n")
        self.assertIsNone(profiled("MATCH (n) RETURN n"))
        self.assertIsNone(profiled(":profiles MATCH (n) RETURN n"))

    def test_wide_plan(self) -> None:
        """Of many alternatives six stand beside one another, each over the one six further on."""
        lines = [line for number in range(1, 15) for line in (f"alternative {number}", f"scan a:T{number}")]
        text = draw_plan(read_plan([*lines, "alternatives 14"]))
        self.assertEqual(re.findall(r"(s\d+) -> (s\d+) \[style=invis\];", text)[:2], [("s1", "s7"), ("s2", "s8")])
        self.assertEqual(text.count("style=invis"), 8)

    @needs_program("dot")
    def test_forms(self) -> None:
        for name, front in (("a.png", b"\x89PNG"), ("a.svg", b"<?xml"), ("a.pdf", b"%PDF"), ("a.dot", b"digraph")):
            with self.subTest(name=name):
                words = ("--manifest", PEOPLE, "--out", self.folder / name)
                self.done("graphq-draw", *words, "MATCH (n:City) RETURN n", cwd=TOP)
                self.assertTrue((self.folder / name).read_bytes().startswith(front))

    def test_form_that_there_is_none(self) -> None:
        ended, _, errors = self.tool("graphq-draw", "--manifest", PEOPLE, "--out", "a.jpg", "MATCH (n) RETURN n", cwd=TOP)
        why = "its name ends with none of .svg, .png, .pdf, .dot, and --dot is not there"
        self.assertEqual((ended, errors), (2, f"graphq-draw: --out a.jpg: {why}\n"))

    @needs_program("dot")
    def test_layout_that_does_not_end(self) -> None:
        late = subprocess.TimeoutExpired("dot", 1)
        with mock.patch("graphq_tools.drawing.main.subprocess.run", side_effect=late):
            words = ("--manifest", PEOPLE, "--seconds", "1", "--program", PROGRAM)
            ended, _, errors = self.tool("graphq-draw", *words, "MATCH (n) RETURN n", cwd=TOP)
        self.assertEqual(ended, 5)
        self.assertTrue(errors.startswith("graphq-draw: dot did not end in 1 seconds: --layout sfdp is quicker"), errors)

    def test_control_characters(self) -> None:
        self.write("n.csv", "id:string\n\x1b[31m\x00\n")
        self.write("g.manifest", "node N n.csv\n")
        text = self.done("graphq-draw", "--manifest", "g.manifest", "--dot", "MATCH (n) RETURN n")
        self.assertIn('label="\\\\x1b[31m\\\\x00"', text)

    @needs_program("dot")
    def test_svg(self) -> None:
        query = "MATCH (a:Station)-[t:TRACK {line: 'Ring'}]->(b) RETURN a, t, b"
        words = ("--manifest", METRO, "--caption", "Station=name", "--out", self.folder / "ring.svg")
        self.done("graphq-draw", *words, query, cwd=TOP)
        groups = ElementTree.parse(self.folder / "ring.svg").getroot().iter(f"{SVG}g")
        classes = [group.get("class") for group in groups]
        with (TOP / "examples/metro/track.csv").open() as stream:
            tracks = [line.split(",") for line in stream if line.split(",")[2] == "Ring"]
        self.assertEqual(classes.count("edge"), len(tracks))
        self.assertEqual(classes.count("node"), len({end for track in tracks for end in track[:2]}))

    def test_caption_that_means_something_to_graphviz(self) -> None:
        self.write("n.csv", 'id:int,t:string\n1,"a""b\\N &amp; c\nd"\n')
        self.write("g.manifest", "node N n.csv\n")
        words = ("--manifest", "g.manifest", "--caption", "N=t", "--dot")
        text = self.done("graphq-draw", *words, "MATCH (n) RETURN n")
        self.assertIn('label="a\\"b\\\\N &amp;amp; c\\nd"', text)

    def refuse(self, status: int, line: str, query: str) -> None:
        ended, _, errors = self.tool("graphq-draw", "--manifest", PEOPLE, "--dot", query, cwd=TOP)
        self.assertEqual((ended, errors), (status, f"graphq-draw: {line}\n"))

    def test_refused_query(self) -> None:
        self.refuse(1, "error: UnknownVariable m", "MATCH (n) RETURN m")

    def test_query_that_never_ends(self) -> None:
        self.refuse(1, "error: Lex at byte 17", "MATCH (n) RETURN 'n")

    def test_nothing_to_draw(self) -> None:
        self.refuse(1, "no column of the reply has a node or a relationship", "MATCH (n) RETURN 1")

    def test_no_plan(self) -> None:
        self.refuse(1, "this reply has neither rows nor a plan", ":schema")

    def test_two_queries(self) -> None:
        self.refuse(2, "one query is drawn, and there are 2", "MATCH (n) RETURN n; MATCH (m) RETURN m;")

    def test_no_manifest(self) -> None:
        ended, _, errors = self.tool("graphq-draw", "--manifest", "none", "--dot", "MATCH (n) RETURN n")
        self.assertEqual((ended, errors), (3, "graphq-draw: load: NoFile none\n"))
