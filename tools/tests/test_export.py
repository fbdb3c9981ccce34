"""The files that are exported for Kùzu, neo4j-admin and GraphFrames, and the graphs that are refused."""

from __future__ import annotations

from .support import PEOPLE, TOP, ToolTest, needs_module
from .test_round_trips import several


class Exports(ToolTest):
    def text(self, name: str) -> str:
        return (self.folder / "there" / name).read_text()

    def people(self, form: str) -> None:
        self.done("graphq-export", form, "--manifest", PEOPLE, "--out", self.folder / "there", cwd=TOP)

    def test_kuzu(self) -> None:
        self.people("kuzu")
        self.assertEqual(
            self.text("schema.cypher").splitlines(),
            [
                "CREATE NODE TABLE `Person`(`id` INT64, `name` STRING, `age` INT64, PRIMARY KEY(`id`));",
                "CREATE NODE TABLE `City`(`code` STRING, `pop` INT64, PRIMARY KEY(`code`));",
                "CREATE REL TABLE `KNOWS`(FROM `Person` TO `Person`, `since` INT64, MANY_MANY);",
                "CREATE REL TABLE `LIVES_IN`(FROM `Person` TO `City`, MANY_ONE);",
                "COPY `Person` FROM 'person.csv' (HEADER=true, ESCAPE='\"');",
                "COPY `City` FROM 'city.csv' (HEADER=true, ESCAPE='\"');",
                "COPY `KNOWS` FROM 'knows.csv' (HEADER=true, ESCAPE='\"');",
                "COPY `LIVES_IN` FROM 'lives_in.csv' (HEADER=true, ESCAPE='\"');",
            ],
        )
        self.assertEqual(self.text("person.csv"), "id,name,age\n1,Ann,30\n2,Bob,\n3,Cy,25\n")

    def test_neo4j(self) -> None:
        self.people("neo4j")
        header = ":ID(Person),id:long,name:string,age:long,:LABEL\n"
        self.assertEqual(self.text("person.csv"), f"{header}1,1,Ann,30,Person\n2,2,Bob,,Person\n3,3,Cy,25,Person\n")
        self.assertEqual(self.text("city.csv"), "code:ID(City),pop:long,:LABEL\nX,100,City\nY,,City\n")
        self.assertEqual(
            self.text("lives_in.csv"), ":START_ID(Person),:END_ID(City),:TYPE\n1,X,LIVES_IN\n3,X,LIVES_IN\n"
        )
        files = ["--nodes=person.csv", "--nodes=city.csv", "--relationships=knows.csv", "--relationships=lives_in.csv"]
        for file in files:
            self.assertIn(file, self.text("import.sh"))

    def test_labels_for_neo4j(self) -> None:
        several(self)
        self.done("graphq-export", "neo4j", "--manifest", "g.manifest", "--out", "there")
        header = ":ID(Person:Student),id:long,school:string,:LABEL\n"
        self.assertEqual(self.text("person-student.csv"), f"{header}7,7,MIT,Person;Student\n")
        self.assertEqual(self.text("knows_2.csv").splitlines()[1], "7,1,well,KNOWS")
        self.assertEqual(self.text("constraints.cypher"), "")

    def test_graphframes(self) -> None:
        """The two tables share no property but id, which gives way to the id of the vertex."""
        several(self)
        self.done("graphq-export", "graphframes", "--manifest", "g.manifest", "--out", "there")
        vertices = [
            "id,labels,id_2,name,school",
            "Person/1,Person,1,Ann,",
            "Person/2,Person,2,Bob,",
            "Person:Student/7,Person:Student,7,,MIT",
        ]
        edges = [
            "src,dst,relationship,since,how",
            "Person/1,Person/2,KNOWS,2010,",
            "Person/1,Person/1,KNOWS,2011,",
            "Person/2,Person/1,KNOWS,2012,",
            "Person:Student/7,Person/1,KNOWS,,well",
        ]
        self.assertEqual(self.text("vertices.csv").splitlines(), vertices)
        self.assertEqual(self.text("edges.csv").splitlines(), edges)
        script = self.text("load.py")
        compile(script, "load.py", "exec")
        self.assertIn('    StructField("id_2", LongType()),\n    StructField("name", StringType()),\n', script)


class KuzuNames(ToolTest):
    def test_type_that_is_called_like_a_table_of_nodes(self) -> None:
        """In Kùzu a name is one table's."""
        self.write("n.csv", "id:int\n1\n")
        self.write("r.csv", "from,to\n1,1\n")
        self.write("g.manifest", "node Part n.csv\nrel PART Part Part many_many r.csv\n")
        notes = self.done("graphq-export", "kuzu", "--manifest", "g.manifest", "--out", "kuzu").splitlines()
        self.assertEqual(notes[1], "a name is one table's in Kuzu: the type `PART` is called `PART_2`")
        script = (self.folder / "kuzu/schema.cypher").read_text()
        self.assertIn("CREATE REL TABLE `PART_2`(FROM `Part` TO `Part`, MANY_MANY);", script)
        self.assertIn("COPY `PART_2` FROM ", script)


class Refusals(ToolTest):
    def refuse(self, line: str, manifest: str, rows: str = "id:int\n1\n") -> None:
        self.write("g.manifest", manifest)
        self.write("n.csv", rows)
        self.refused(3, line, "graphq-export", "sqlite", "--manifest", "g.manifest", "--out", "g")

    def test_line(self) -> None:
        why = "it is neither `node LABELS FILE` nor `rel TYPE FROM TO MULTIPLICITY FILE`"
        self.refuse(f"g.manifest line 3: {why}", "# a\n\nnode N\n")

    def test_unknown_end(self) -> None:
        self.refuse("g.manifest line 2: no line above has the nodes M", "node N n.csv\nrel R N M many_one n.csv\n")

    def test_label_twice(self) -> None:
        self.refuse("g.manifest line 1: N:N is not one to 8 labels joined by colons", "node N:N n.csv\n")

    def test_table_twice(self) -> None:
        self.refuse("g.manifest line 2: a line above has the nodes N already", "node N n.csv\nnode N n.csv\n")
        self.write("r.csv", "from,to\n")
        lines = "rel R N N many_many r.csv\n" * 2
        self.refuse("g.manifest line 3: a line above has R from N to N already", f"node N n.csv\n{lines}")

    def test_field_twice(self) -> None:
        self.refuse("n.csv line 1: there are two fields x", "node N n.csv\n", "id:int,x:int,x:bool\n")

    def test_header(self) -> None:
        why = "'id:float' is no field NAME:KIND with a KIND of int, string, bool"
        self.refuse(f"n.csv line 1: {why}", "node N n.csv\n", "id:float\n1\n")

    def test_field(self) -> None:
        self.refuse("n.csv line 3: '1x' is no int", "node N n.csv\n", "id:int\n1\n1x\n")

    def test_field_count(self) -> None:
        self.refuse("n.csv line 2: it has 2 fields, and the header has 1", "node N n.csv\n", "id:int\n1,2\n")

    def test_no_file(self) -> None:
        self.refuse("x.csv: there is no file of this name", "node N x.csv\n")


class GraphML(ToolTest):
    """GraphML by networkx, with texts that XML writes in its own way."""

    @needs_module("networkx")
    def test_awkward_texts(self) -> None:
        import networkx

        self.write("a.csv", 'k:string,t:string,b:bool\n"x<&>""y","a\r\nb\t]]>",true\n1,,\n')
        self.write("b.csv", "k:int,t:int\n1,7\n")
        self.write("r.csv", 'from,to,w:int\n"x<&>""y",1,-5\n')
        self.write("g.manifest", "node A:C a.csv\nnode B b.csv\nrel R A:C B many_many r.csv\n")
        self.done("graphq-export", "graphml", "--manifest", "g.manifest", "--out", "o")
        graph = networkx.read_graphml(self.folder / "o/graph.graphml")
        # The key 1 is one of both tables, so the ids have the labels in front.
        self.assertEqual(sorted(graph), ["A:C/1", 'A:C/x<&>"y', "B/1"])
        node = {"labels": "A:C", "k": 'x<&>"y', "t": "a\r\nb\t]]>", "b": True}
        self.assertEqual(graph.nodes['A:C/x<&>"y'], node)
        self.assertEqual(graph.nodes["B/1"], {"labels": "B", "k": 1, "t": 7})
        self.assertEqual(list(graph.edges(data=True)), [('A:C/x<&>"y', "B/1", {"type": "R", "w": -5})])

    def test_what_xml_cannot_hold(self) -> None:
        self.write("n.csv", "k:string\na\x01\n")
        self.write("g.manifest", "node N n.csv\n")
        ended, _, errors = self.tool("graphq-export", "graphml", "--manifest", "g.manifest", "--out", "o")
        self.assertEqual((ended, errors), (3, "graphq-export: GraphML holds no text with the character U+0001\n"))
