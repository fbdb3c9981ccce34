"""Mistakes, each with the refusal that graphq has for it, the place of its cause, and the hint that says what to do."""

from __future__ import annotations

import contextlib
import re
import time

from graphq_tools.hints import hint, load_hint, notes, place
from graphq_tools.hints.loads import SAYS
from graphq_tools.hints.table import FUNCTIONS, REFUSALS
from graphq_tools.schema import Schema, read_schema

from .support import METRO, PEOPLE, TOP, ToolTest, ask

LANGUAGE = TOP / "docs/language.md"
PAGE = TOP / "docs/tools/graphq-shell.md"
LOAD_FORMAT = TOP / "docs/load-format.md"

# A statement with ¦ at the place that is shown, what graphq says of it, and words of the hint.
MISTAKES: dict[str, tuple[str, str]] = {
    # What graphq has none of.
    "MATCH (p:Person) RETURN count(¦*)": ("Syntax at byte 30", "return the rows, and how many they are stands below"),
    "MATCH (p:Person) RETURN ¦count(p)": (
        "UnknownFunction count",
        "return the rows, and how many they are stands below",
    ),
    "MATCH (p:Person) ¦WITH p RETURN p": ("Syntax at byte 17", "put the patterns into one MATCH"),
    "¦CREATE (p:Person)": ("Syntax at byte 0", "change the CSV files"),
    "MATCH (p:Person) ¦SET p.age = 3": ("Syntax at byte 17", "change the CSV files"),
    "¦UNWIND [1, 2] AS x RETURN x": ("Syntax at byte 0", "write WHERE n.x IN [1, 2]"),
    "MATCH (p) RETURN CASE ¦WHEN p.age > 3 THEN 1 END": ("Syntax at byte 22", "coalesce(a, b)"),
    "MATCH (p) RETURN CASE ¦p.age WHEN 3 THEN 1 END": ("Syntax at byte 22", "coalesce(a, b)"),
    "MATCH (p) WHERE p.name =¦~ 'A.*' RETURN p": ("Lex at byte 24", "STARTS WITH, ENDS WITH and CONTAINS"),
    "MATCH (p) WHERE p.name ¦!= 'A' RETURN p": ("Lex at byte 23", "written <>"),
    "MATCH (p) WHERE p.age > ¦1.5 RETURN p": ("Lex at byte 24", "graphq-import --scale"),
    "MATCH ¦p = (a)-[:KNOWS]->(b) RETURN p": ("Syntax at byte 6", "name the nodes and relationships"),
    "MATCH (p) WHERE EXISTS ¦{ (p)-->() } RETURN p": ("Syntax at byte 23", "write exists((a)-[:TYPE]->(b))"),
    "MATCH (p) RETURN p LIMIT ¦$n": ("Syntax at byte 25", "a number that is written out"),
    "MATCH (p) RETURN p ¦UNION MATCH (q) RETURN q": ("Syntax at byte 19", "ask two queries"),
    "¦CALL db.labels()": ("Syntax at byte 0", ":schema lists the tables"),
    "¦EXPLAIN MATCH (a) RETURN a": ("Syntax at byte 0", "write  :plan  before the query"),
    "¦SELECT * FROM Person": ("Syntax at byte 0", "MATCH (n:Label) WHERE .. RETURN n.name"),
    "MATCH ¦shortestPath((a)-[:KNOWS*..5]->(b)) RETURN a": ("Syntax at byte 6", "ask for trails *1, then *2"),
    "MATCH (p) RETURN ¦[p.age]": ("Syntax at byte 17", "return several columns"),
    "MATCH (p) RETURN p.¦*": ("Syntax at byte 19", "one by one"),
    "MATCH (p) WHERE p.age ¦BETWEEN 1 AND 4 RETURN p": ("Syntax at byte 22", "write 1 <= n.x <= 9"),
    "MATCH (p) WHERE p.age IN ¦$list RETURN p": ("Syntax at byte 25", "list of literals"),
    "MATCH (p:Person¦|City) RETURN p": ("Syntax at byte 15", "ask twice"),
    "MATCH (p) RETURN p.age ¦^ 2": ("Lex at byte 23", "write n.x * n.x"),
    # Trails.
    "MATCH (a)-[:KNOWS*1..3]-¦(b) RETURN b": ("Syntax at byte 24", "a trail needs an arrow"),
    "MATCH (a)-[:KNOWS*¦]->(b) RETURN b": ("Syntax at byte 18", "a last number, 16 at most"),
    "MATCH (a)-[:KNOWS*2..¦]->(b) RETURN b": ("Syntax at byte 21", "a last number, 16 at most"),
    "MATCH (a)-[r:KNOWS¦*1..2]->(b) RETURN b": ("Syntax at byte 18", "a trail has no name"),
    "MATCH (a)-[¦*1..2]->(b) RETURN b": ("Syntax at byte 11", "exactly one type"),
    "MATCH (a)-[:KNOWS|LIVES_IN¦*1..2]->(b) RETURN b": ("Syntax at byte 26", "exactly one type"),
    "MATCH (a)-[:KNOWS*1..2 ¦{since: 3}]->(b) RETURN b": ("Syntax at byte 23", "a trail has no map"),
    "MATCH (a)-[:KNOWS¦*0..2]->(b) RETURN b": ("TrailLength", "1 to 16 relationships"),
    "MATCH (a)-[:KNOWS*2]->(b) ¦OPTIONAL MATCH (b)-->(c) RETURN c": ("TrailWithOptional", "ask two queries"),
    # Strings, names and signs.
    "MATCH (p) WHERE p.name = ¦'Ann RETURN p": ("Lex at byte 25", "close it with '"),
    "MATCH (p) WHERE p.name = ¦'C:\\dir' RETURN p": ("Lex at byte 25", "write \\\\ for the \\ itself"),
    "MATCH (p {name: ¦‘Ann’}) RETURN p": ("Syntax at byte 16", "typographic quotes"),
    "MATCH (p) WHERE p.name = ¦“Ann” RETURN p": ("UnknownVariable “Ann”", "typographic quotes"),
    "MATCH (a)¦–[:KNOWS]→(b) RETURN a": ("Syntax at byte 9", "write -[:TYPE]-> with - and >"),
    "MATCH (p) WHERE p.age =¦= 3 RETURN p": ("Syntax at byte 23", "one ="),
    "MATCH (p) WHERE p.age > 3 ¦&& p.id < 5 RETURN p": ("Lex at byte 26", "written AND"),
    "MATCH (p) RETURN ¦007": ("Lex at byte 17", "no zero in front"),
    "¦-- all\nMATCH (p) RETURN p": ("Syntax at byte 0", "begins with //"),
    "MATCH (¦order:Person) RETURN 1": ("Syntax at byte 7", "`order`"),
    # Clauses and patterns.
    "MATCH (a:Person) RETURN a\n¦MATCH (b) RETURN b": ("Syntax at byte 26", "ends with ;"),
    "MATCH (p:Person)¦": ("Syntax at byte 16", "ends with RETURN"),
    "MATCH (a) OPTIONAL MATCH (a)-->(b) ¦MATCH (b)-->(c) RETURN c": ("Syntax at byte 35", "all MATCH clauses first"),
    "MATCH (p:Person ¦RETURN p": ("Syntax at byte 16", "a ( before this place has no )"),
    "MATCH ¦p RETURN p": ("Syntax at byte 6", "as in MATCH (p)"),
    "MATCH (a)-¦(b) RETURN b": ("Syntax at byte 10", "written -->, <-- or --"),
    "MATCH (p) WHERE NOT (p)-¦[:KNOWS]->() RETURN p": ("Syntax at byte 24", "stands in exists(..)"),
    "MATCH (p) WHERE p¦:Person RETURN p": ("Syntax at byte 17", "in the pattern of its node"),
    "MATCH (p {age: 1¦+1}) RETURN p": ("Syntax at byte 16", "put the rest into WHERE"),
    "MATCH (p) RETURN p.id, p.age, ¦ORDER BY p.id": ("Syntax at byte 30", "missing after the comma"),
    "MATCH (p) WHERE p.id = 1 AND ¦RETURN p": ("Syntax at byte 29", "a condition or a value is missing"),
    "MATCH (p) RETURN p.name ¦p.age": ("Syntax at byte 24", "a comma is missing"),
    "MATCH (p) RETURN p.name AS ¦'the name'": ("Syntax at byte 27", "in backquotes"),
    "MATCH (p {name ¦= 'Ann'}) RETURN p": ("Syntax at byte 15", "in a map stands a colon"),
    "MATCH (p ¦WHERE p.age > 3) RETURN p": ("Syntax at byte 9", "outside their parentheses"),
    "MATCH (p) WHERE p.age ¦NOT IN [3] RETURN p": ("Syntax at byte 22", "NOT stands before the whole condition"),
    "MATCH (p) WHERE p.name IS ¦'Ann' RETURN p": ("Syntax at byte 26", "NULL or NOT NULL"),
    "MATCH (p) WHERE p.id = 1¦, p.age = 3 RETURN p": ("Syntax at byte 24", "joined by AND"),
    "MATCH (p) WHERE p¦['name'] = 'Ann' RETURN p": ("Syntax at byte 17", "with a dot"),
    "MATCH (p) RETURN p.name ORDER ¦p.name": ("Syntax at byte 30", "after ORDER stands BY"),
    "MATCH (p) RETURN p.name LIMIT 2 ¦OFFSET 1": ("Syntax at byte 32", "SKIP"),
    "MATCH (a)-[:KNOWS]->¦{1,3}(b) RETURN b": ("Syntax at byte 20", "-[:TYPE*1..3]->"),
    "MATCH (a)-[KNOWS¦|LIVES_IN]->(b) RETURN b": ("Syntax at byte 16", "after a colon"),
    "MATCH (a)<-[:KNOWS]-¦>(b) RETURN b": ("Syntax at byte 20", "one head"),
    "MATCH (a)-->¦-->(b) RETURN b": ("Syntax at byte 12", "stands a node"),
    ":plan¦": ("Syntax at byte 5", "stands a query"),
    ":param x¦": ("Syntax at byte 8", "write  :param name value;"),
    "MATCH (p) RETURN p LIMIT 1 ¦SKIP 2": ("Syntax at byte 27", "SKIP stands before LIMIT"),
    # The binder's refusals, with the place of the name.
    "MATCH (person) RETURN ¦preson.name": ("UnknownVariable preson", "; person?"),
    "MATCH (p) WHERE ¦name = 'Ann' RETURN p": ("UnknownVariable name", "as in p.name"),
    "MATCH (p) WHERE ¦Person.name = 'Ann' RETURN p": ("UnknownVariable Person", "as in (n:Person)"),
    "MATCH (a) WHERE ¦b.id = 3 MATCH (b) RETURN b": ("UnknownVariable b", "a later clause"),
    "MATCH (p) RETURN p.age AS a, ¦a + 1": ("UnknownVariable a", "a column"),
    "MATCH (p) WHERE exists((p)-->(¦z)) RETURN p": ("UnknownVariable z", "leave the name out"),
    "MATCH (a)-[¦a]->(b) RETURN b": ("VariableConflict a", "another name"),
    "MATCH (a)-[r]->(b) OPTIONAL MATCH (b)-[¦r]->(c) RETURN a": ("RelationshipRepeated r", "a name of its own"),
    "MATCH (a) RETURN a.id, ¦a.id": ("ColumnRepeated a.id", "by AS"),
    "MATCH ()-->() RETURN ¦*": ("NothingToReturn", "name a node"),
    "MATCH (p) RETURN DISTINCT p.name ORDER BY p.name, ¦p.age": ("OrderOutOfScope 2", "put sort item 2 among them"),
    "MATCH (a)-->(b) RETURN b AS a ORDER BY ¦a.id": ("AmbiguousOrderName a", "call the column something else"),
    "MATCH (p) RETURN ¦size(p.name)": ("UnknownFunction size", "texts have no length"),
    "MATCH (p) RETURN ¦cuont(p)": ("UnknownFunction cuont", "graphq has no aggregates"),
    "MATCH (p) RETURN ¦coalesc(p.name, 'x')": ("UnknownFunction coalesc", "; coalesce?"),
    "MATCH (a) RETURN coalesce(1), ¦coalesce()": ("ArgumentCount coalesce", "one or more"),
    "MATCH (p) WHERE p.id = 1 OR ¦exists((p)-->()) RETURN p": ("ExistsPlace", "for OR ask twice"),
    "MATCH (p) RETURN ¦$x": ("UnknownParameter x", ":param x value;"),
}

# The same for what is refused without a place, and for what depends on the rows; the program is asked with --rows 4.
WITHOUT_PLACE: dict[str, tuple[str, str]] = {
    "MATCH (), (), (), (), (), (a:City), (), (), (), () RETURN a": (
        "TooManyRows 4",
        "nothing connects () with what stands before it",
    ),
    "MATCH (p:Person {id: 2}) OPTIONAL MATCH (p)-[:KNOWS]->(q) RETURN q": (
        "TooManyRows 4",
        "repeat (p:Person {id: 2}) in it",
    ),
    "MATCH (p) OPTIONAL MATCH (p)-[:KNOWS]->(q) RETURN q": ("TooManyRows 4", "give its nodes labels and maps"),
    "MATCH (p) WHERE p.id = 2 OPTIONAL MATCH (p)-[:KNOWS]->(q) RETURN q": ("TooManyRows 4", "repeat (p {id: 2}) in it"),
    "MATCH (p:Person), (c:City) RETURN 1": ("TooManyRows 4", "nothing connects (c:City)"),
    "MATCH (p)-[:KNOWS]->(q) RETURN p": ("TooManyRows 4", "add LIMIT"),
    "MATCH (p:Person) RETURN 6 / (p.id - 1)": ("Fault DivideByZero", "divided by 0 in 6 / (p.id - 1)"),
    "MATCH (p:Person) RETURN p.name, 6 % p.id / 0": ("Fault DivideByZero", "in 6 % p.id / 0: leave such rows out by"),
    "MATCH (p:Person) RETURN 9223372036854775807 + p.id": ("Fault Overflow", "comes of 9223372036854775807 + p.id"),
    "MATCH (p:Person) RETURN p.name + 1": ("Fault Kind", "p.name is a string, and arithmetic is for integers alone"),
    "MATCH (p:Person) RETURN 2 * 3 - 'x'": ("Fault Kind", "no arithmetic with texts, as 'x' in 2 * 3 - 'x'"),
    "MATCH (p:Person) RETURN p + 1": ("Fault Kind", "p is a node"),
    "MATCH (p:Person) RETURN NOT p.name": ("Fault Kind", "p.name is a string and no condition"),
    "MATCH (p:Person) WHERE (p.id = 1 OR p.age) RETURN p": ("Fault Kind", "p.age is an int and no condition"),
    "MATCH (p:Person) RETURN (p.name) + 1": ("Fault Kind", "a text or a node stands where an integer has to"),
    "MATCH (p:Person) WHERE p.age RETURN p": ("Fault Kind", "p.age is an int and no condition"),
    "MATCH (p:Person) RETURN type(p)": ("Fault Kind", "p is a node"),
    f"MATCH (p) RETURN {'(' * 65}1": ("Depth at byte 81", "at most 64 parentheses"),
    "MATCH " + ", ".join(["()"] * 10) + " RETURN 1": ("TooManyAlternatives", "name labels and types, as of ()"),
}


class Hints(ToolTest):
    def refusal(self, statement: str, *words: str) -> str:
        status, text = ask(PEOPLE, statement, words=words)
        self.assertEqual(status, 1, text)
        return text.removesuffix("\n")

    def test_mistakes(self) -> None:
        schema = read_schema(ask(PEOPLE, ":schema")[1].splitlines())
        for marked, (line, wanted) in MISTAKES.items():
            with self.subTest(statement=marked):
                statement, at = _unmarked(marked)
                refusal = self.refusal(statement)
                self.assertEqual(refusal, f"error: {line}")
                self.assertEqual(place(statement, refusal), at)
                said = hint(refusal, statement, schema)
                self.assertIn(wanted, said or "")
                self.assertNotIn("\n", said or "")

    def test_without_place(self) -> None:
        schema = read_schema(ask(PEOPLE, ":schema")[1].splitlines())
        for statement, (line, wanted) in WITHOUT_PLACE.items():
            with self.subTest(statement=statement):
                words = () if line == "TooManyAlternatives" else ("--rows", "4")
                refusal = self.refusal(statement, *words)
                self.assertEqual(refusal, f"error: {line}")
                self.assertIn(wanted, hint(refusal, statement, schema) or "")

    def test_every_refusal_of_the_language_has_a_hint(self) -> None:
        """The table of docs/language.md, and the lines that it has beside."""
        text = LANGUAGE.read_text(encoding="utf-8").partition("### Queries that are refused")[2].partition("###")[0]
        names = [line.split("`")[1].split(" ")[0] for line in text.splitlines() if line.startswith("| `")]
        self.assertEqual(len(names), 16)
        for name in [*names, "Depth", "UnknownParameter", "TooManyParameters", "TooManyRows", "Memory"]:
            self.assertIn(name, REFUSALS)
            self.assertTrue(hint(f"error: {name}", "MATCH (a) RETURN a"))

    def test_memory(self) -> None:
        """What is likely large is named, as for too many rows."""
        for statement, wanted in {
            "MATCH (p {id: 2}) OPTIONAL MATCH (p)-->(q) RETURN q": "repeat (p {id: 2}) in it",
            "MATCH (a:Person), (b:Person) RETURN a, b": "nothing connects (b:Person)",
            "MATCH (p) RETURN p": "name labels and types",
        }.items():
            said = hint("error: Memory", statement) or ""
            self.assertTrue(said.startswith("the statement asks for more work or memory than one may take: "), said)
            self.assertIn(wanted, said)

    def test_what_is_no_refusal(self) -> None:
        for line in ("rows 3", "error: Syntax", "error: Unheard 3", "load: NoFile x", ""):
            self.assertIsNone(hint(line, "MATCH (a) RETURN a"), line)
            self.assertIsNone(place("MATCH (a) RETURN a", line), line)

    def test_any_text(self) -> None:
        """Nothing is said that ends in an error of Python's, whatever the text and the place."""
        for statement, _ in map(_unmarked, MISTAKES):
            for byte in range(0, len(statement.encode()) + 1, 7):
                hint(f"error: Syntax at byte {byte}", statement)
                notes(statement[:byte], Schema())
            for name in ("UnknownVariable", "ColumnRepeated", "OrderOutOfScope", "TrailLength", "TooManyRows"):
                hint(f"error: {name} p", statement)
                place(statement, f"error: {name} p")

    def test_long_statements(self) -> None:
        """Of the longest statements that graphq takes a hint is there at once."""
        begin = time.monotonic()
        for text in (
            "MATCH (p) WHERE " + "p.id = 1 AND " * 5_000 + "p.id = = 2 RETURN p",
            "MATCH " + "(p)-[:KNOWS]->" * 4_000 + "(q) RETURN p.name, ]",
            "MATCH (p) RETURN " + "(" * 60_000,
            "MATCH (p {name: '" + "x" * 60_000 + "'}) RETURN p.*",
            "MATCH (p) RETURN " + "p.id + " * 8_000 + "!",
        ):
            refusal = self.refusal(text)
            self.assertTrue(hint(refusal, text), refusal)
            self.assertIsNotNone(place(text, refusal))
            notes(text, Schema())
        self.assertLess(time.monotonic() - begin, 20)

    def test_functions_are_not_those_of_graphq(self) -> None:
        """Each call that has a hint is one that graphq refuses as unknown."""
        names = [name for name in FUNCTIONS if name != "exists"]
        _, text = ask(PEOPLE, "".join(f"MATCH (a) RETURN {name}(a);" for name in names))
        self.assertEqual(text.splitlines(), [f"error: UnknownFunction {name}" for name in names])


def _unmarked(marked: str) -> tuple[str, int]:
    """A statement without its mark, and where that stood."""
    before, after = marked.split("¦")
    return before + after, len(before)


class Page(ToolTest):
    """The table of mistakes on the page of graphq-shell."""

    ROW = re.compile(r"\| `(?P<typed>.+?)` \| `(?P<refusal>\w+)`, at `(?P<at>.+?)` \| `(?P<hint>.+)` \|\Z")

    def test_each_row(self) -> None:
        schema = read_schema(ask(PEOPLE, ":schema")[1].splitlines())
        text = PAGE.read_text(encoding="utf-8").partition("## Fifteen mistakes")[2].partition("\n\nAll ")[0]
        rows = [row for row in map(self.ROW.match, text.splitlines()) if row]
        self.assertEqual(len(rows), 15)
        for row in rows:
            with self.subTest(typed=row["typed"]):
                status, reply = ask(PEOPLE, row["typed"])
                refusal = reply.removesuffix("\n")
                self.assertEqual((status, refusal.split(" ")[1]), (1, row["refusal"]))
                at = place(row["typed"], refusal)
                self.assertIsNotNone(at)
                self.assertTrue(row["typed"][at:].startswith(row["at"]))
                self.assertEqual(hint(refusal, row["typed"], schema), row["hint"])


class Notes(ToolTest):
    def test_what_no_table_has(self) -> None:
        schema = read_schema(ask(METRO, ":schema")[1].splitlines())
        for statement, wanted in {
            "MATCH (l:Lina) RETURN l": ["no table has the label Lina; Line?"],
            "MATCH (a)-[:TRAC]->(b) RETURN a": ["no table has the type TRAC; TRACK?"],
            "MATCH (s:Station) RETURN s.nmae": ["no table has the property nmae; name?"],
            "MATCH (s:Station {colour: 'red'}) RETURN s": [
                "no Station has the property colour: the properties are code, name, zone, step_free"
            ],
            "MATCH (s:Station)-[:STOPS_AT]->(l:Line) RETURN l": [
                "no STOPS_AT leads from Station to Line, but the other way round: turn the arrow"
            ],
            "MATCH (d:Depot)-[:STOPS_AT]->(l) RETURN l": [
                "no STOPS_AT leads from Depot to any node: it leads from Line to Station"
            ],
            "MATCH (p:Sight:Park)-[:NEAR]->(s) RETURN p": [],
            "MATCH (p:Sight:Line) RETURN p": ["no table has the labels Sight and Line together"],
            "MATCH (Station) RETURN 1": ["(Station) is a node with this name, of any label: (:Station) has the label"],
            "MATCH (a)-[TRACK]->(b) RETURN a": [
                "[TRACK] is a relationship with this name, of any type: [:TRACK] has the type"
            ],
            "MATCH (s:Station {zone: '1'}) RETURN s": ["zone is of the kind int, and '1' is none"],
            "MATCH (s:Station {zone: $z}) RETURN s": [],
            "MATCH (s:Station) WHERE s.code = 'x' AND s.zone > '3' RETURN s": [
                "zone is of the kind int, and '3' is none"
            ],
            "MATCH (s:Station) WHERE s.zone = 3 AND s.step_free = true AND 'x' < s.name RETURN s.zone > 3": [],
            "MATCH (s:Station) WHERE s.step_free = 1 RETURN s": ["step_free is of the kind bool, and 1 is none"],
            "MATCH (s:Station) WHERE s.zone = null RETURN s": [
                "nothing equals null: write IS NULL in the place of = null"
            ],
            "MATCH (a)-[t:TRACK]->(b) RETURN t.type": ["no table has the property type: type(t) gives the type"],
            "MATCH (s:Station)--(l:Line) RETURN s": [],
            "MATCH (l:Line)-[:TRACK*1..3]->(s) RETURN s": [
                "no TRACK leads from Line to any node: it leads from Station to Station"
            ],
            "MATCH (s)<-[:STOPS_AT*1..3]-(l:Line) RETURN s": [],
            "MATCH (l:Line) WHERE exists((l)-[:RUN_BY]->(:Company {nam: 'x'})) RETURN l": [
                "no table has the property nam; name?"
            ],
            "MATCH (a:Station)-[:TRACK*1..3]->(b:Station {zon: 4}) RETURN b": ["no table has the property zon; zone?"],
            # A label of an optional clause or of a test says nothing of the nodes that a MATCH has.
            "MATCH (n) OPTIONAL MATCH (n:Line)-[:RUN_BY]->(c) RETURN n.zone, c.founded": [],
            "MATCH (n) WHERE NOT exists((n:Line)-[:RUN_BY]->()) RETURN n.zone": [],
            "MATCH (n) OPTIONAL MATCH (n:Line) OPTIONAL MATCH (n:Depot {places: 3}) RETURN n": [],
            "MATCH (n:Line) OPTIONAL MATCH (n)-[:HOUSES]->(d:Depot) RETURN d": [
                "no HOUSES leads from Line to Depot, but the other way round: turn the arrow"
            ],
            "MATCH (n:Line) OPTIONAL MATCH (n:Depot)-->(x) RETURN x": [
                "no table has the labels Line and Depot together"
            ],
            ":schema": [],
            ":param x 'Lina'": [],
            "": [],
        }.items():
            with self.subTest(statement=statement):
                self.assertEqual(notes(statement, schema), wanted)

    def test_the_examples_have_none(self) -> None:
        """The questions of the metro all have rows, and nothing is said of them."""
        schema = read_schema(ask(METRO, ":schema")[1].splitlines())
        text = (TOP / "examples/metro/tour.cypher").read_text(encoding="utf-8")
        for statement in text.split(";"):
            self.assertEqual(notes(statement, schema), [], statement)


class Loads(ToolTest):
    PERSON = "id:int,name:string,age:int\n1,Ann,30\n2,Bob,\n"
    KNOWS = "from,to,since:int\n1,2,2010\n"
    MANIFEST = "node Person person.csv\nrel KNOWS Person Person many_many knows.csv\n"

    def hinted(self, wanted_line: str, wanted: str, **files: str) -> None:
        """Holds where the program refuses these files by this line, and the hint says so."""
        for name, text in {
            "person.csv": self.PERSON,
            "knows.csv": self.KNOWS,
            "g.manifest": self.MANIFEST,
            **files,
        }.items():
            self.write(name, text)
        status, output = ask("g.manifest", "", self.folder)
        self.assertEqual((status, output), (3, f"load: {wanted_line}\n"))
        with contextlib.chdir(self.folder):
            said = load_hint(output.removesuffix("\n"), "g.manifest") or ""
        self.assertIn(wanted, said)
        self.assertNotIn("\n", said)

    def test_lines_of_the_manifest(self) -> None:
        node, rel = self.MANIFEST.splitlines()
        for line, text, wanted in (
            ("BadLine line 1", "node Person\n", "'node Person': a line is `node LABELS FILE`"),
            ("BadLine line 1", "id:int,name:string\n1,Ann\n", "this is a CSV file, and graphq-import csv makes"),
            ("BadLine line 1", "node Person my file.csv\n", "the name of a file has no blanks"),
            ("BadLine line 1", "node 1st person.csv\n", "'1st' is no name"),
            ("BadLine line 2", f"{node}\nrel KNOWS Person Person many_mony knows.csv\n", "; many_many?"),
            ("LabelRepeated line 2", f"{node}\n{node}\n", "an earlier line has the nodes Person already"),
            ("LabelRepeated line 1", "node A:A person.csv\n", "a label stands twice in A:A"),
            ("TypeRepeated line 3", f"{node}\n{rel}\n{rel}\n", "KNOWS from Person to Person already"),
            ("NoSuchLabel line 2", f"{node}\nrel KNOWS Person Persn many_many knows.csv\n", "nodes Persn; Person?"),
            ("NoSuchLabel line 1", f"{rel}\n{node}\n", "has to stand before this one"),
            (
                "TooManyTables line 65",
                "".join(f"node A{n} person.csv\n" for n in range(65)),
                "at most 64 tables of nodes",
            ),
        ):
            with self.subTest(text=text[:80]):
                self.hinted(line, wanted, **{"g.manifest": text})

    def test_files(self) -> None:
        self.write("sub/person.csv", self.PERSON)
        self.write("sub/h.manifest", "node Person person.csv\n")
        self.assertEqual(ask("sub/h.manifest", "", self.folder)[1], "load: NoFile person.csv\n")
        with contextlib.chdir(self.folder):
            said = load_hint("load: NoFile person.csv", "sub/h.manifest") or ""
            self.assertIn(f"in which graphq is started, {self.folder.resolve()}: start it in", said)
            self.assertTrue(said.endswith("sub, where the file is"), said)
            self.assertIn("no manifest of this name", load_hint("load: NoFile none", "none") or "")
        self.hinted("NoFile nowhere.csv", "and there is no such file", **{"g.manifest": "node Person nowhere.csv\n"})
        self.hinted("FileTooLong g.manifest", "and a manifest at most 1,048,576", **{"g.manifest": "#" * 1_048_577})

    def test_headers(self) -> None:
        for header, wanted in {
            "": "the file has no header",
            "id,name\n": "the header 'id,name' has no kinds, as in id:int,name:string; graphq-import csv makes",
            "id:int,name\n": "'name' is no field NAME:KIND",
            "id:int,price:float\n": "'price:float' is no field NAME:KIND",
            "id:bool\n": "a key is an int or a string",
            "id:int,id:string\n": "two fields id",
        }.items():
            with self.subTest(header=header):
                self.hinted("BadHeader person.csv", wanted, **{"person.csv": header})
        self.hinted("BadHeader knows.csv", "begins with from,to", **{"knows.csv": "src,dst\n"})
        many = ",".join(f"a{n}:int" for n in range(65))
        self.hinted("TooManyProperties person.csv", "has 65 fields", **{"person.csv": many})

    def test_records(self) -> None:
        head = "id:int,name:string,age:int\n"
        for line, rows, wanted in (
            ("FieldCount person.csv record 2", "1,Ann\n", "'1,Ann' has 2 fields, and the header 3"),
            ("FieldCount person.csv record 2", "1,Ann, Lee,3\n", "with a comma in it stands in double quotes"),
            ("BadField person.csv record 3 column 3", "1,Ann,3\n2,Bob,3x\n", "'3x' in the column age is no int"),
            ("NullKey person.csv record 2", ",Ann,3\n", "the key id is empty in ',Ann,3'"),
            ("KeyRepeated person.csv record 4", "7,a,\n1,b,\n007,c,\n", "the key '007' stands in record 2 already"),
        ):
            with self.subTest(line=line):
                self.hinted(line, wanted, **{"person.csv": head + rows})

    def test_relationships(self) -> None:
        head = "from,to,since:int\n"
        self.hinted(
            "NoSuchNode knows.csv record 2 column 2",
            "'9' in the column to is the key of no Person",
            **{"knows.csv": f"{head}1,9,\n"},
        )
        self.hinted(
            "NoSuchNode knows.csv record 2 column 1", "the column from is empty", **{"knows.csv": f"{head},1,\n"}
        )
        self.hinted(
            "BadField knows.csv record 2 column 1",
            "'Ann' in the column from is no int",
            **{"knows.csv": f"{head}Ann,1,\n"},
        )
        single = self.MANIFEST.replace("many_many", "many_one")
        self.hinted(
            "NotSingle knows.csv record 3",
            "many_one allows '1' one relationship in the column from",
            **{"knows.csv": f"{head}1,2,\n1,1,\n", "g.manifest": single},
        )

    def test_every_refusal_of_the_format_has_a_hint(self) -> None:
        """The sixteen of docs/load-format.md. The one for too many rows wants 16,777,216, and is asked without."""
        text = LOAD_FORMAT.read_text(encoding="utf-8").partition("## Refusals")[2].partition("\n\nLines")[0]
        names = {line.split(" ")[2] for line in text.splitlines() if line.startswith("| `load: ")}
        self.assertEqual(len(names), 16)
        self.assertEqual(set(SAYS), names)
        self.write("person.csv", self.PERSON)
        self.write("g.manifest", "node Person person.csv\n")
        with contextlib.chdir(self.folder):
            said = load_hint("load: TooManyRows person.csv", "g.manifest")
        self.assertEqual(said, "a table has at most 16,777,216 nodes: split it into several")

    def test_what_has_gone(self) -> None:
        """The files may be others by now: nothing is said then, and nothing fails."""
        self.write("g.manifest", "node Person person.csv\n")
        with contextlib.chdir(self.folder):
            self.assertIsNone(load_hint("load: BadField person.csv record 9 column 3", "g.manifest"))
            self.assertIsNone(load_hint("load: Unheard x", "g.manifest"))
            self.assertIsNone(load_hint("error: Syntax at byte 3", "g.manifest"))
