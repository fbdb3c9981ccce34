"""GraphML, GEXF, GML and node-link JSON."""

from __future__ import annotations

from .support import ToolTest, ask, needs_module

GRAPHML = """\
<?xml version="1.0" encoding="UTF-8"?>
<graphml xmlns="http://graphml.graphdrawing.org/xmlns">
  <key id="labels" for="node" attr.name="labels" attr.type="string"/>
  <key id="a" for="node" attr.name="age" attr.type="int"/>
  <key id="n" for="node" attr.name="full name" attr.type="string"/>
  <key id="t" for="edge" attr.name="type" attr.type="string"/>
  <key id="w" for="edge" attr.name="weight" attr.type="double"/>
  <graph edgedefault="directed">
    <node id="1"><data key="labels">:Person</data><data key="a">30</data><data key="n">Ann</data></node>
    <node id="2"><data key="labels">:Person</data><data key="n">Bob</data></node>
    <node id="x"><data key="labels">:City</data><data key="n">Xanten</data></node>
    <edge source="1" target="2"><data key="t">KNOWS</data><data key="w">0.5</data></edge>
    <edge source="1" target="x"><data key="t">LIVES_IN</data></edge>
  </graph>
</graphml>
"""
GEXF = """\
<?xml version="1.0" encoding="UTF-8"?>
<gexf xmlns="http://www.gexf.net/1.2draft" version="1.2">
  <graph mode="static" defaultedgetype="undirected">
    <attributes class="node"><attribute id="0" title="Modularity Class" type="integer"/></attributes>
    <nodes>
      <node id="0" label="Myriel"><attvalues><attvalue for="0" value="3"/></attvalues></node>
      <node id="1" label="Napoleon"/>
    </nodes>
    <edges><edge id="0" source="0" target="1" weight="2"/></edges>
  </graph>
</gexf>
"""
GML = """\
graph [
  directed 1
  node [ id 1 label "same" size 4 ]
  node [ id 2 label "same" size 5 ]
  edge [ source 1 target 2 value 7 ]
  edge [ source 2 target 1 value 8 ]
]
"""
NODE_LINK = """\
{"directed": true, "multigraph": true, "graph": {},
 "nodes": [{"id": "a", "labels": ["Person", "Admin"], "ok": true, "n": 1},
           {"id": "b", "labels": ["Person"], "ok": null, "n": "one"}],
 "links": [{"source": "a", "target": "b", "key": 0, "type": "SEES"},
           {"source": "a", "target": "b", "key": 1, "type": "SEES"}]}
"""


@needs_module("networkx")
class NetworkxImport(ToolTest):
    def run_import(self, name: str, text: str, *words: str) -> list[str]:
        self.write(name, text)
        return self.done("graphq-import", "networkx", name, "--out", "g", *words).splitlines()

    def test_graphml(self) -> None:
        output = self.run_import("g.graphml", GRAPHML)
        self.assertEqual(
            output,
            [
                "node Person 2 id:int age:int full_name:string",
                "node City 1 id:string full_name:string",
                "rel KNOWS Person Person many_many 1 weight:string",
                "rel LIVES_IN Person City many_many 1",
                "the property 'full name' is called full_name",
                "KNOWS.weight: decimal, as its text",
                "ask it: graphq-shell --manifest g/g.manifest",
            ],
        )
        text = ask("g/g.manifest", "MATCH (a {age: 30})-[r]->(b) RETURN b.full_name, r.weight ORDER BY r;", self.folder)
        self.assertEqual(text, (0, "b.full_name\tr.weight\n'Bob'\t'0.5'\n'Xanten'\tnull\nrows 2\n"))

    def test_gexf(self) -> None:
        output = self.run_import("g.gexf", GEXF)
        self.assertEqual(output[0].split()[:4], ["node", "Node", "2", "id:int"])
        self.assertEqual(set(output[0].split()[4:]), {"label:string", "Modularity_Class:int"})
        self.assertTrue(output[1].startswith("rel LINK Node Node many_many 1"), output[1])
        self.assertIn(
            "the graph is undirected: each edge is one relationship, so ask with --, and not with -->; "
            "--both writes it in both directions",
            output,
        )

    def test_gml_with_one_label_for_two_nodes(self) -> None:
        output = self.run_import("g.gml", GML, "--label", "Thing", "--type", "TO")
        self.assertEqual(
            output[:2], ["node Thing 2 id:int label:string size:int", "rel TO Thing Thing many_many 2 value:int"]
        )

    def test_node_link_json(self) -> None:
        output = self.run_import("g.json", NODE_LINK)
        self.assertEqual(
            output[:3],
            [
                "node Person:Admin 1 id:string ok:bool n:string",
                "node Person 1 id:string n:string",
                "rel SEES Person:Admin Person many_many 2",
            ],
        )
        self.assertIn("Person.n: int and string, as its text", output)

    def test_node_link_json_with_edges(self) -> None:
        text = NODE_LINK.replace('"links"', '"edges"')
        self.assertEqual(self.run_import("g.json", text)[2], "rel SEES Person:Admin Person many_many 2")

    def refuse(self, name: str, text: str, line: str, *words: str) -> None:
        self.write(name, text)
        self.refused(3, line, "graphq-import", "networkx", name, "--out", "g", *words)

    def test_bad_xml(self) -> None:
        text = GRAPHML.replace('</node>\n    <node id="2">', '\n    <node id="2">')
        self.refuse("g.graphml", text, "g.graphml line 14: mismatched tag: line 14, column 4")

    def test_bad_json(self) -> None:
        self.refuse("g.json", '{"nodes": [\n1 2]}', "g.json line 2: Expecting ',' delimiter")

    def test_bad_gml(self) -> None:
        self.write("g.gml", "graph [\n  node [ id 1 ]\n")
        status, _, errors = self.tool("graphq-import", "networkx", "g.gml", "--out", "g")
        self.assertEqual(status, 3)
        self.assertTrue(errors.startswith("graphq-import: g.gml line 3: "), errors)

    def test_no_node_link(self) -> None:
        self.refuse("g.json", "[1]", "g.json: it is no node-link JSON: there is no list of nodes")

    def test_json_of_another_form(self) -> None:
        no = "g.json: it is no node-link JSON"
        for text, line in {
            '{"nodes": [1], "links": []}': f"{no}: a node is no object with an id",
            '{"nodes": [{"id": 1}], "links": [{"source": 1}]}': f"{no}: a link is no object with a source and a target",
            '{"nodes": [{"id": 1}, {"id": 1}], "links": []}': "g.json: two nodes have the id 1",
        }.items():
            with self.subTest(text=text):
                self.refuse("g.json", text, line)

    def test_not_utf_8(self) -> None:
        for name in ("g.json", "g.gml"):
            self.write(name, b"{\n\xff}")
            self.refused(3, f"{name} line 2: it is not UTF-8", "graphq-import", "networkx", name, "--out", "g")

    def test_edge_repeated_in_gml(self) -> None:
        """The place that networkx names is that of an edge and not of a line."""
        text = "graph [ node [ id 1 ] edge [ source 1 target 1 ] edge [ source 1 target 1 ] ]"
        self.write("g.gml", text)
        status, _, errors = self.tool("graphq-import", "networkx", "g.gml", "--out", "g")
        self.assertEqual(status, 3)
        self.assertTrue(errors.startswith("graphq-import: g.gml: edge #1 (1--1) is duplicated"), errors)
        self.assertEqual(errors.count("\n"), 1)

    def test_list(self) -> None:
        text = NODE_LINK.replace('"n": 1', '"n": [1, 2]')
        ways = "take its text by --text n, or leave it out by --drop n"
        line = f"the property 'n' is a list, which graphq cannot hold: {ways}"
        self.refuse("g.json", text, line)
        self.done("graphq-import", "networkx", "g.json", "--out", "g", "--text", "n")
        self.assertIn('"[1, 2]"', (self.folder / "g/person-admin.csv").read_text())

    def test_end_without_a_node(self) -> None:
        """networkx makes the node that an edge names; it has no label, and gets the one of nodes without."""
        text = NODE_LINK.replace('"target": "b", "key": 1', '"target": "z", "key": 1')
        self.assertIn("node Node 1 id:string", self.run_import("g.json", text))

    def test_other_suffix(self) -> None:
        self.refuse("g.dot", "digraph {}", "g.dot: its name ends with none of .graphml, .gexf, .gml, .json")
