"""Edge lists as SNAP's collection has them."""

from __future__ import annotations

import gzip

from .support import ToolTest, ask

SNAP = "# Directed graph\r\n# FromNodeId\tToNodeId\r\n0\t4\r\n0\t5\r\n4\t0\r\n\r\n007\t4\r\n"


class EdgesImport(ToolTest):
    def test_graph(self) -> None:
        self.write("soc.txt", SNAP)
        output = self.done("graphq-import", "edges", "soc.txt", "--out", "g", "--label", "User", "--type", "TRUSTS")
        self.assertEqual(output.splitlines()[:2], ["node User 4 id:int", "rel TRUSTS User User many_many 4"])
        text = ask("g/g.manifest", "MATCH (a)-[:TRUSTS]->(b {id: 4}) RETURN a.id ORDER BY a.id;", self.folder)
        self.assertEqual(text, (0, "a.id\n0\n7\nrows 2\n"))

    def test_columns(self) -> None:
        self.folder.joinpath("e.txt.gz").write_bytes(gzip.compress(b"a b 0.25 -1\na c 1.5 2\n"))
        words = ("--columns", "weight:decimal,sign:int", "--scale", "weight=2")
        output = self.done("graphq-import", "edges", "e.txt.gz", "--out", "g", *words)
        self.assertEqual(
            output.splitlines()[:2], ["node Node 3 id:string", "rel LINK Node Node many_many 2 weight:int sign:int"]
        )
        self.assertEqual(
            (self.folder / "g/link.csv").read_text(), "from,to,weight:int,sign:int\na,b,25,-1\na,c,150,2\n"
        )

    def test_a_third_column_without_a_name(self) -> None:
        self.write("e.txt", "# a\n1 2\n1 3 9\n")
        hint = "name what stands after the ids, as in --columns weight:int"
        line = f"e.txt line 3 (LINK): it has 3 columns, and 2 are wanted: {hint}"
        self.refused(3, line, "graphq-import", "edges", "e.txt", "--out", "g")

    def test_no_integer(self) -> None:
        self.write("e.txt", "1 2 x\n")
        line = "e.txt line 1 (LINK): 'x' is no integer"
        self.refused(3, line, "graphq-import", "edges", "e.txt", "--out", "g", "--columns", "w:int")

    def test_no_edge(self) -> None:
        self.write("e.txt", "# nothing\n")
        self.refused(3, "e.txt line 1: there is no edge in it", "graphq-import", "edges", "e.txt", "--out", "g")

    def test_no_gzip(self) -> None:
        self.write("e.txt.gz", "1 2\n")
        status, _, errors = self.tool("graphq-import", "edges", "e.txt.gz", "--out", "g")
        self.assertEqual(status, 3)
        self.assertTrue(errors.startswith("graphq-import: e.txt.gz line 1: it is not what gzip writes"), errors)

    def test_columns_word(self) -> None:
        self.write("e.txt", "1 2 x\n")
        self.assertEqual(self.tool("graphq-import", "edges", "e.txt", "--out", "g", "--columns", "w:float32")[0], 2)
