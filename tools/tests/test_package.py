"""The package graphq of Python: rows as values, errors, results that are dropped, and an installation without a network."""

from __future__ import annotations

import os
import signal
import subprocess
import sys
import threading
import tomllib
from pathlib import Path

import graphq
from graphq_tools import packages

from .support import METRO, PEOPLE, PROGRAM, TOOLS, TOP, ToolTest, needs_module

# 35 stations four times over are 1,500,625 rows, which the program is long about.
LONG = "MATCH (a:Station), (b:Station), (c:Station), (d:Station) RETURN a.name, b.name, c.name, d.name"
PERSONS = "MATCH (p:Person) RETURN p.name, p.age ORDER BY p.name"
ROWS: list[tuple[graphq.Value, ...]] = [("Ann", 30), ("Bob", None), ("Cy", 25)]


class PackageTest(ToolTest):
    """A test with a graph that is closed at its end."""

    def open(self, manifest: str | Path, **words: object) -> graphq.Graph:
        graph = graphq.open(TOP / manifest, program=PROGRAM, **words)  # type: ignore[arg-type]
        self.addCleanup(graph.close)
        return graph

    def setUp(self) -> None:
        super().setUp()
        here = os.getcwd()
        os.chdir(TOP)
        self.addCleanup(os.chdir, here)

    def refuse(self, graph: graphq.Graph, text: str, **parameters: None | bool | int | str) -> graphq.QueryError:
        with self.assertRaises(graphq.QueryError) as caught:
            graph.query(text, **parameters)
        return caught.exception


class Values(PackageTest):
    def test_rows(self) -> None:
        graph = self.open(PEOPLE)
        result = graph.query(PERSONS)
        self.assertEqual(result.columns, ["p.name", "p.age"])
        self.assertEqual((list(result), list(result), len(result), result[1]), (ROWS, ROWS, 3, ROWS[1]))
        self.assertEqual((result[-1], result[1:]), (ROWS[2], ROWS[1:]))
        self.assertEqual(result.dicts()[0], {"p.name": "Ann", "p.age": 30})
        self.assertFalse(graph.query("MATCH (x:Nobody) RETURN x"))

    def test_every_kind(self) -> None:
        graph = self.open(PEOPLE)
        query = "MATCH (p:Person {id: 1})-[r:LIVES_IN]->(c) RETURN p, r, c, null AS n, p.age > 3 AS b, -7 AS i, 'x' AS s"
        person, city = graphq.Node("Person", 1), graphq.Node("City", "X")
        self.assertEqual(list(graph.query(query)), [(person, graphq.Rel("LIVES_IN", 0), city, None, True, -7, "x")])
        self.assertEqual((str(person), str(city), str(graphq.Rel("A", 2))), ("(Person 1)", "(City 'X')", "[A #2]"))

    def test_table_of_a_relationship(self) -> None:
        """NEAR has two tables, and the second of them leads from parks."""
        row = next(iter(self.open(METRO).query("MATCH (:Park)-[r:NEAR]->() RETURN r ORDER BY r LIMIT 1")))
        self.assertEqual((row, str(row[0])), ((graphq.Rel("NEAR", 0, 2),), "[NEAR/2 #0]"))

    def test_parameters(self) -> None:
        """Any text goes there and back, whatever it would mean in a query."""
        graph = self.open(PEOPLE)
        texts = ["", "'", '"', "\\", "\\'", "a;b", "// c", "/* d", "\n\r\t\b\f\0\x1b", "' OR true", "日本\U0001f600", "`", "$x"]
        for value in [*texts, None, True, False, 0, -(2**63), 2**63 - 1]:
            with self.subTest(value=value):
                self.assertEqual(list(graph.query("MATCH (c:City {code: 'X'}) RETURN $x", x=value)), [(value,)])
        self.assertEqual(list(graph.query("MATCH (c:City {code: $`a b`}) RETURN c.code", {"a b": "Y"})), [("Y",)])

    def test_parameters_that_are_none(self) -> None:
        graph = self.open(PEOPLE)
        for value, error in ((1.5, TypeError), ([1], TypeError), (2**63, ValueError), ("\ud800", ValueError)):
            with self.subTest(value=value), self.assertRaises(error):
                graph.query("MATCH (c:City) RETURN $x", {"x": value})

    def test_parameters_of_one_query_alone(self) -> None:
        graph = self.open(PEOPLE)
        graph.query("MATCH (c:City) RETURN $x", x=1)
        error = self.refuse(graph, "MATCH (c:City) RETURN $x")
        self.assertEqual((error.refusal, error.position), ("UnknownParameter x", 22))
        self.assertIn("in the call", str(error))

    def test_more_parameters_than_a_session_has(self) -> None:
        graph = self.open(PEOPLE)
        for number in range(0, 600, 100):
            names = {f"p{number + one}": one for one in range(100)}
            text = " AND ".join(f"c.code <> ${name}" for name in names)
            self.assertEqual(len(graph.query(f"MATCH (c:City) WHERE {text} RETURN c", names)), 2)

    def test_schema_plan_and_profile(self) -> None:
        graph = self.open(PEOPLE)
        self.assertEqual([table.word for table in graph.schema.nodes], ["Person", "City"])
        plan = graph.plan("MATCH (p:Person {id: $id})-[:KNOWS]->(q) RETURN q", id=1)
        self.assertEqual(plan.alternatives, [["scan p:Person", "keep p.id = $id", "extend p -[#1:KNOWS]-> q:Person", "columns 1"]])
        profile = graph.profile("MATCH (p:Person {id: $id}) RETURN p.name", id=1)
        self.assertEqual((profile.pipelines, list(profile.result)), ([graphq.Pipeline(1, 1, 1)], [("Ann",)]))

    def test_columns_that_are_called_like_lines(self) -> None:
        graph = self.open(PEOPLE)
        for name in ("error: Memory", "rows 1", "pipeline 1 chunks 1 columns 0", "a\tb"):
            with self.subTest(name=name):
                result = graph.query(f"MATCH (c:City {{code: 'X'}}) RETURN 5 AS `{name}`")
                self.assertEqual((result.columns, list(result)), ([name], [(5,)]))


class Errors(PackageTest):
    def test_place_and_hint(self) -> None:
        graph = self.open(PEOPLE)
        error = self.refuse(graph, "MATCH (p:Person\n  RETURN 'é', p.name")
        self.assertEqual((error.kind, error.position, error.line, error.column), ("Syntax", 18, 2, 3))
        self.assertEqual(str(error).splitlines()[:3], ["Syntax at byte 18", "  RETURN 'é', p.name", "  ^"])
        error = self.refuse(graph, "MATCH (p:Person) RETURN q.name")
        self.assertEqual((error.refusal, error.position), ("UnknownVariable q", 24))
        self.assertIn("count", self.refuse(graph, "MATCH (p) RETURN count(*)").hint or "")

    def test_what_does_not_end(self) -> None:
        graph = self.open(PEOPLE)
        process = graph._connection.process
        for text, byte in (("MATCH (p) RETURN 'p", 17), ("MATCH (p) /* RETURN", 10), ("MATCH (p) RETURN `p", 17)):
            with self.subTest(text=text):
                self.assertEqual(self.refuse(graph, text).refusal, f"Lex at byte {byte}")
        self.assertEqual((list(graph.query(f"{PERSONS} // all")), graph._connection.process), (ROWS, process))

    def test_fault_and_too_many_rows(self) -> None:
        graph = self.open(PEOPLE, rows=2)
        self.assertEqual(self.refuse(graph, "MATCH (c:City) RETURN 1 / 0").refusal, "Fault DivideByZero")
        self.assertEqual(self.refuse(graph, PERSONS).refusal, "TooManyRows 2")

    def test_no_query_or_two(self) -> None:
        graph = self.open(PEOPLE)
        for text in ("", " // a", f"{PERSONS}; {PERSONS}", ":schema", "MATCH (p) RETURN p, '" + "x" * 65_536 + "'"):
            with self.subTest(text=text[:20]), self.assertRaises(ValueError):
                graph.query(text)
        self.assertEqual(list(graph.query(f"{PERSONS} ; // one")), ROWS)

    def test_load(self) -> None:
        self.write("g.manifest", f"node N {self.folder}/n.csv\n")
        self.write("n.csv", "k:int\nx\n")
        with self.assertRaises(graphq.LoadError) as caught:
            self.open(self.folder / "g.manifest")
        self.assertEqual((caught.exception.kind, "x" in (caught.exception.hint or "")), ("BadField", True))

    def test_words(self) -> None:
        with self.assertRaises(ValueError):
            self.open(PEOPLE, order="best")
        with self.assertRaises(ValueError):
            self.open(PEOPLE, rows=0)
        with self.assertRaises(graphq.NotInstalled):
            graphq.open(PEOPLE, program="/nowhere/graphq")

    def test_closed(self) -> None:
        with self.open(PEOPLE) as graph:
            result = graph.query(PERSONS)
            self.assertEqual(len(result), 3)
        self.assertEqual(list(result), ROWS)
        with self.assertRaises(ValueError):
            graph.query(PERSONS)

    def test_program_that_is_killed(self) -> None:
        graph = self.open(METRO)
        rows = graph.stream(f"{LONG} LIMIT 300000")
        process = graph._connection.process
        assert process is not None
        os.kill(process, 9)
        with self.assertRaises(graphq.ProgramEnded):
            list(rows)
        self.assertEqual(len(graph.query("MATCH (l:Line) RETURN l")), 8)


class Streams(PackageTest):
    def test_dropped(self) -> None:
        """A result that is dropped ends nothing else: not the program, and no other result."""
        graph = self.open(METRO)
        process = graph._connection.process
        rows = graph.stream(f"{LONG} LIMIT 300000")
        kept = graph.query(f"{LONG} LIMIT 50000")
        self.assertEqual(len(next(iter(kept))), 4)
        del rows
        self.assertEqual(len(graph.query("MATCH (l:Line) RETURN l")), 8)
        self.assertEqual((len(kept), graph._connection.process), (50000, process))

    def test_as_they_come(self) -> None:
        """The first rows are there long before the last ones, and a stream keeps none."""
        graph = self.open(METRO)
        rows = graph.stream(f"{LONG} LIMIT 300000")
        self.assertEqual(sum(1 for _ in zip(rows, range(1000), strict=False)), 1000)
        self.assertLess(len(rows._reply.kept), 100_000)
        self.assertEqual(next(rows.dicts()).keys(), set(rows.columns))

    def test_two_at_a_time(self) -> None:
        graph = self.open(PEOPLE)
        pairs = zip(graph.query(PERSONS), graph.query(PERSONS), graph.stream(PERSONS), strict=True)
        self.assertEqual(list(pairs), [(row, row, row) for row in ROWS])

    def test_threads(self) -> None:
        graph = self.open(PEOPLE)
        found: list[list[tuple[graphq.Value, ...]]] = []
        threads = [threading.Thread(target=lambda: found.append(list(graph.query(PERSONS)))) for _ in range(8)]
        for thread in threads:
            thread.start()
        for thread in threads:
            thread.join()
        self.assertEqual(found, [ROWS] * 8)

    def test_stop(self) -> None:
        graph = self.open(METRO)
        timer = threading.Timer(0.1, graph.stop)
        timer.start()
        with self.assertRaises(graphq.ProgramEnded):
            graph.query(f"{LONG.replace('RETURN', 'MATCH (e:Station), (f:Station) RETURN')} ORDER BY a.name, f.name LIMIT 1")
        timer.join()
        self.assertEqual(len(graph.query("MATCH (l:Line) RETURN l")), 8)

    def test_interrupted(self) -> None:
        """Ctrl-C ends the wait and the statement; rows that were open do not look whole, and the graph goes on."""
        graph = self.open(METRO)
        long = f"{LONG.replace('RETURN', 'MATCH (e:Station), (f:Station) RETURN')} ORDER BY a.name, f.name LIMIT 1"
        reply, _ = graph._ask("", long, {})
        timer = threading.Timer(0.1, os.kill, (os.getpid(), signal.SIGINT))
        timer.start()
        with self.assertRaises(KeyboardInterrupt):
            next(reply)
        timer.join()
        with self.assertRaises(graphq.ProgramEnded):
            next(reply)
        self.assertEqual(len(graph.query("MATCH (l:Line) RETURN l")), 8)

    def test_ended_with_the_graph(self) -> None:
        """Nobody closes this graph, and its program ends with it."""
        graph = graphq.open(PEOPLE, program=PROGRAM)
        process = graph._connection.process
        del graph
        self.assertFalse(Path(f"/proc/{process}").exists())


class Conversions(PackageTest):
    @needs_module("pandas")
    def test_pandas(self) -> None:
        frame = self.open(PEOPLE).query("MATCH (p:Person) RETURN p, p.name, p.age, p.age > 26 AS old ORDER BY p.id").to_pandas()
        self.assertEqual([str(kind) for kind in frame.dtypes], ["object", "object", "Int64", "boolean"])
        self.assertEqual(frame["p.age"].sum(), 55)
        self.assertEqual(list(frame["old"].fillna(False)), [True, False, False])
        self.assertEqual(frame["p"][0], graphq.Node("Person", 1))
        self.assertEqual(self.open(PEOPLE).query("MATCH (x:Nobody) RETURN x.a").to_pandas().shape, (0, 1))

    @needs_module("pyarrow")
    def test_arrow(self) -> None:
        table = self.open(PEOPLE).query("MATCH (p:Person) RETURN p, p.age ORDER BY p.id").to_arrow()
        self.assertEqual(table.to_pydict(), {"p": ["(Person 1)", "(Person 2)", "(Person 3)"], "p.age": [30, None, 25]})

    @needs_module("networkx")
    def test_networkx(self) -> None:
        network = self.open(PEOPLE).query("MATCH (p)-[r:KNOWS]->(q {id: 2}) RETURN r").to_networkx()
        ann, bob = graphq.Node("Person", 1), graphq.Node("Person", 2)
        first, last = graphq.Rel("KNOWS", 0), graphq.Rel("KNOWS", 4)
        self.assertEqual(sorted(network.edges(keys=True), key=str), [(ann, bob, first), (ann, bob, last)])
        self.assertEqual(network.edges[ann, bob, last], {"since": 2012, "type": "KNOWS"})
        self.assertEqual(network.nodes[bob], {"id": 2, "name": "Bob", "age": None, "label": "Person"})

    def test_notebook(self) -> None:
        graph = self.open(METRO)
        shown = graph.query("MATCH (s:Station) RETURN s, s.zone, s.step_free, '<&\\n' AS x ORDER BY s.name")._repr_html_()
        self.assertEqual((shown.count("<tr>"), "the first 20 rows" in shown), (21, True))
        self.assertIn("&lt;&amp;", shown)
        self.assertIn("<i>null</i>", shown)
        self.assertIn("<p>8 rows</p>", graph.query("MATCH (l:Line) RETURN l")._repr_html_())
        self.assertTrue(graph.plan("MATCH (l:Line) RETURN l")._repr_html_().startswith("<pre>alternative 1\n"))


class Installed(ToolTest):
    @needs_module("pip")
    def test_without_a_network(self) -> None:
        """pip finds all it wants here; what it installs has its own program, and stands on nothing of the clone."""
        words = ("--quiet", "--no-index", "--no-deps", "--disable-pip-version-check", "--root-user-action=ignore")
        command = [sys.executable, "-m", "pip", "install", *words, "--target", str(self.folder / "there"), str(TOOLS)]
        done = subprocess.run(command, capture_output=True, check=False, cwd=self.folder)
        self.assertEqual((done.returncode, done.stderr.decode()), (0, ""))
        self.write("n.csv", "k:int\n7\n")
        self.write("g.manifest", "node N n.csv\n")
        script = "import graphq; print(graphq.__file__, *graphq.open('g.manifest').query('MATCH (n) RETURN n.k'))"
        environment = {**os.environ, "PYTHONPATH": str(self.folder / "there")}
        if (self.folder / "there/graphq/bin/graphq").exists():
            del environment["GRAPHQ"]
        done = subprocess.run(
            [sys.executable, "-c", script], capture_output=True, check=False, cwd=self.folder, env=environment
        )
        self.assertEqual(done.stdout.decode(), f"{self.folder}/there/graphq/__init__.py (7,)\n", done.stderr.decode())
        tool = self.folder / "there/bin/graphq-import"
        done = subprocess.run([sys.executable, tool, "--help"], capture_output=True, check=False, env=environment)
        self.assertEqual((done.returncode, done.stdout[:20]), (0, b"usage: graphq-import"))

    def test_one_place_for_dependencies(self) -> None:
        with open(TOOLS / "pyproject.toml", "rb") as stream:
            project = tomllib.load(stream)["project"]
        wanted = {*packages.MODULES, *packages.OPTIONAL_MODULES}
        self.assertTrue(packages.LEFT_OUT <= {*packages.OPTIONAL_MODULES.values(), *packages.TEST_PROGRAMS.values()})
        self.assertEqual({one for extra in packages.EXTRAS.values() for one in extra}, wanted)
        self.assertEqual((project["dynamic"], "optional-dependencies" in project), (["optional-dependencies"], False))
        self.assertEqual((project["version"], project["dependencies"]), (graphq.__version__, []))
        text = (TOP / "docs/tools/README.md").read_text(encoding="utf-8")
        self.assertIn(f"apt-get install --no-install-recommends {' '.join(packages.wanted())}\n", text)
