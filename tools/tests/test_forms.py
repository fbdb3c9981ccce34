"""The same small graph in each form, as docs/tools/README.md imports and asks it."""

from __future__ import annotations

from .support import TOP, ToolTest, ask, needs_module

FORMS = TOP / "examples/forms"
QUESTION = (
    "MATCH (r)-[:FOLLOWS]->(f)-[:BORROWED]->(b)<-[:BORROWED]-(r) "
    "RETURN r.name, f.name, b.title ORDER BY r.name, f.name, b.title;"
)
# Ada and Ben have Dune in common, Ada and Cleo Solaris; Dan has no book of Cleo's, whom he follows.
ROWS = ["'Ada'\t'Ben'\t'Dune'", "'Ada'\t'Cleo'\t'Solaris'", "'Ben'\t'Ada'\t'Dune'", "'Cleo'\t'Ada'\t'Solaris'"]


class Forms(ToolTest):
    def answers(self, *words: object) -> None:
        self.done("graphq-import", *map(str, words), "--out", "library")
        status, text = ask("library/library.manifest", QUESTION, self.folder)
        self.assertEqual((status, text.splitlines()[1:]), (0, [*ROWS, "rows 4"]))

    def test_neo4j(self) -> None:
        self.answers("neo4j", *sorted((FORMS / "neo4j").glob("*.csv")))

    def test_kuzu(self) -> None:
        self.answers("kuzu", FORMS / "kuzu/schema.cypher")

    @needs_module("networkx")
    def test_graphml(self) -> None:
        self.answers("networkx", FORMS / "library.graphml")

    def test_edges(self) -> None:
        """1 and 2 follow each other, and so do 1 and 3."""
        self.done("graphq-import", "edges", str(FORMS / "follows.txt"), "--out", "library", "--type", "FOLLOWS")
        query = "MATCH (a)-[:FOLLOWS]->(b)-[:FOLLOWS]->(a) WHERE a.id < b.id RETURN a.id, b.id ORDER BY b.id;"
        text = ask("library/library.manifest", query, self.folder)
        self.assertEqual(text, (0, "a.id\tb.id\n1\t2\n1\t3\nrows 2\n"))
