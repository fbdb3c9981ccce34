"""The import of an export is the same graph."""

from __future__ import annotations

import shlex
import unittest
from pathlib import Path

from graphq_tools.importing.kuzu_script import RelTable, read_script

from .support import METRO, PEOPLE, TOP, ToolTest, ask, knows_several_labels, listing, needs_module, schema

FORMS = {"kuzu": ["kuzu", "there/schema.cypher"], "neo4j": ["neo4j"]}


class RoundTrip(ToolTest):
    """A graph that goes out and comes back."""

    def there_and_back(self, form: str, manifest: str | Path, cwd: Path) -> None:
        """Exports a graph into `there`, and imports it into `back`."""
        self.done("graphq-export", form, "--manifest", manifest, "--out", self.folder / "there", "--quiet", cwd=cwd)
        words = FORMS[form]
        if form == "neo4j":
            # By their stems, so that the second table of a type stands behind its first: near.csv, near-2.csv.
            files = sorted((self.folder / "there").glob("*.csv"), key=lambda path: path.stem)
            words = [*words, *(f"there/{path.name}" for path in files)]
        self.done("graphq-import", *words, "--out", "back", "--quiet", "--strict")


class RoundTrips(RoundTrip):
    def same(self, form: str, manifest: str) -> None:
        self.there_and_back(form, manifest, TOP)
        self.assertEqual(schema("back/back.manifest", self.folder), schema(manifest))
        text = listing(manifest)
        self.assertTrue(text.startswith("status 0\n"))
        self.assertEqual(listing("back/back.manifest", self.folder), text)

    def test_metro_by_kuzu(self) -> None:
        self.same("kuzu", METRO)

    def test_metro_by_neo4j(self) -> None:
        self.same("neo4j", METRO)

    def test_people_by_kuzu(self) -> None:
        self.same("kuzu", PEOPLE)

    def test_people_by_neo4j(self) -> None:
        self.same("neo4j", PEOPLE)

    def through_csv(self, manifest: str) -> None:
        self.done("graphq-export", "csv", "--manifest", manifest, "--out", self.folder / "there", cwd=TOP)
        command = (self.folder / "there/import.sh").read_text().replace("\\\n", "").splitlines()[-1]
        words = shlex.split(command.replace('"${1:-graph}"', "back"))
        self.done(words[0], *words[1:], cwd=self.folder / "there")
        self.assertEqual(schema("back/back.manifest", self.folder / "there"), schema(manifest))
        self.assertEqual(listing("back/back.manifest", self.folder / "there"), listing(manifest))

    def test_metro_by_csv(self) -> None:
        self.through_csv(METRO)

    def test_people_by_csv(self) -> None:
        self.through_csv(PEOPLE)

    @needs_module("networkx")
    def test_people_by_graphml(self) -> None:
        """networkx brings edges in the order of their sources, so the numbers of relationships are others."""
        self.done("graphq-export", "graphml", "--manifest", PEOPLE, "--out", self.folder / "there", cwd=TOP)
        self.done("graphq-import", "networkx", "there/graph.graphml", "--out", "back", "--strict")
        self.assertEqual(schema("back/back.manifest", self.folder), schema(PEOPLE))
        query = "MATCH (a)-[r]->(b) RETURN type(r) AS t, a.id, a.name, b.id, b.code, r.since ORDER BY t, a.id, b.id, b.code, r.since;"
        self.assertEqual(ask("back/back.manifest", query, self.folder), ask(PEOPLE, query))

    def test_awkward_values(self) -> None:
        """Line ends, quotes, commas, backslashes, blanks at the ends, texts that look like numbers, and null."""
        for form in FORMS:
            with self.subTest(form=form):
                self.setUp()
                text = 'k:string,t:string,n:int,b:bool\n"a ""b"", \'c\'"," x\\\\y\nz ",-5,false\n 1 ,007,,\n'
                self.write("n.csv", text)
                self.write("r.csv", 'from,to,w:string,v:string\n 1 ,"a ""b"", \'c\'","\r\n","x\ry"\n')
                self.write("g.manifest", "node N n.csv\nrel R N N one_one r.csv\n")
                self.there_and_back(form, "g.manifest", self.folder)
                before = listing("g.manifest", self.folder)
                self.assertIn("' 1 '\t'007'\tnull\tnull", before)
                self.assertIn("'\\r\\n'\t'x\\ry'", before)
                self.assertEqual(listing("back/back.manifest", self.folder), before)


def several(test: ToolTest) -> None:
    """A graph with several labels for a table, and several tables for a type."""
    test.write("p.csv", "id:int,name:string\n1,Ann\n2,Bob\n")
    test.write("s.csv", "id:int,school:string\n7,MIT\n")
    test.write("a.csv", "from,to,since:int\n1,2,2010\n1,1,2011\n2,1,2012\n")
    test.write("b.csv", "from,to,how:string\n7,1,well\n")
    test.write(
        "g.manifest",
        "node Person p.csv\nnode Person:Student s.csv\n"
        "rel KNOWS Person Person many_many a.csv\nrel KNOWS Person:Student Person one_one b.csv\n",
    )


class SeveralLabels(RoundTrip):
    def test_files(self) -> None:
        for form in FORMS:
            with self.subTest(form=form):
                self.setUp()
                several(self)
                self.there_and_back(form, "g.manifest", self.folder)
                back = self.folder / "back"
                self.assertEqual(
                    sorted(line.rsplit(" ", 1)[0] for line in (back / "back.manifest").read_text().splitlines()),
                    [
                        "node Person",
                        "node Person:Student",
                        "rel KNOWS Person Person many_many",
                        "rel KNOWS Person:Student Person one_one",
                    ],
                )
                files = sorted(path.read_text() for path in back.glob("*.csv"))
                self.assertEqual(files, sorted((self.folder / f"{name}.csv").read_text() for name in "psab"))

    def test_one_kuzu_table_for_a_type(self) -> None:
        several(self)
        self.done("graphq-export", "kuzu", "--manifest", "g.manifest", "--out", "there")
        rels = [one for one in read_script(self.folder / "there/schema.cypher") if isinstance(one, RelTable)]
        self.assertEqual(len(rels), 1)
        self.assertEqual(rels[0].pairs, [("Person", "Person"), ("Person:Student", "Person")])
        self.assertEqual(rels[0].columns, [("since", "INT64"), ("how", "STRING")])
        self.assertEqual(rels[0].multiplicity, "MANY_MANY")

    @unittest.skipUnless(knows_several_labels(), "the program takes one label for a table")
    def test_rows(self) -> None:
        for form in FORMS:
            with self.subTest(form=form):
                self.setUp()
                several(self)
                self.there_and_back(form, "g.manifest", self.folder)
                self.assertEqual(schema("back/back.manifest", self.folder), schema("g.manifest", self.folder))
                self.assertEqual(listing("back/back.manifest", self.folder), listing("g.manifest", self.folder))
