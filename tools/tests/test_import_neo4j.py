"""CSV files with the headers of neo4j-admin."""

from __future__ import annotations

import gzip
import unittest
from unittest import mock

from .support import ToolTest, ask, knows_several_labels

PERSONS = """\
personId:ID(Person),name,age:int,born:date,:LABEL
1,Ann,30,1990-01-02,Person
2,Bob,,,Person
3,"Cy ""the 3rd"", esq.",25,2000-05-06,Person
"""
CITIES = "code:ID(City)|pop:long|big:boolean|note:IGNORE\nX|1000|true|a\nY||false|b\n"
KNOWS = (
    ":START_ID(Person),:END_ID(Person),since:int,:TYPE\n1,2,2010,KNOWS\n1,3,,KNOWS\n1,2,2012,KNOWS\n2,1,2010,LIKES\n"
)


class Neo4jImport(ToolTest):
    def test_graph(self) -> None:
        self.write("persons.csv", PERSONS)
        self.write("knows.csv", KNOWS)
        output = self.done("graphq-import", "neo4j", "persons.csv", "knows.csv", "--out", "g")
        self.assertEqual(
            output.splitlines(),
            [
                "node Person 3 personId:int name:string age:int born:string",
                "rel KNOWS Person Person many_many 3 since:int",
                "rel LIKES Person Person many_many 1 since:int",
                "Person.born: date, as its text",
                "ask it: graphq-shell --manifest g/g.manifest",
            ],
        )
        query = "MATCH (a)-[r:KNOWS]->(b) RETURN a.personId, b.name, r.since, b.born, r ORDER BY r;"
        status, text = ask("g/g.manifest", query, self.folder)
        self.assertEqual(status, 0)
        self.assertEqual(
            text.splitlines()[1:],
            [
                "1\t'Bob'\t2010\tnull\t[KNOWS #0]",
                "1\t'Cy \"the 3rd\", esq.'\tnull\t'2000-05-06'\t[KNOWS #1]",
                "1\t'Bob'\t2012\tnull\t[KNOWS #2]",
                "rows 3",
            ],
        )

    def test_words_of_neo4j_admin(self) -> None:
        """Labels and types on the command line, a header of its own, another delimiter, a compressed file."""
        self.write("header.csv", "id:ID|name\n")
        self.write("one.csv", "a|Ann\n")
        self.folder.joinpath("two.csv.gz").write_bytes(gzip.compress(b"b|Bob\n"))
        self.write("rels.csv", ":START_ID|:END_ID\na|b\n")
        nodes, rels = ("--nodes=Person=header.csv,one.csv,two.csv.gz", "--relationships=KNOWS=rels.csv")
        output = self.done("graphq-import", "neo4j", nodes, rels, "--delimiter", "|", "--out", "g")
        lines = output.splitlines()
        self.assertEqual(lines[:2], ["node Person 2 id:string name:string", "rel KNOWS Person Person many_many 1"])

    def test_ignored_column_and_booleans(self) -> None:
        self.write("city.csv", CITIES)
        output = self.done("graphq-import", "neo4j", "--nodes", "City=city.csv", "--delimiter=|", "--out", "g")
        self.assertEqual(output.splitlines()[0], "node City 2 code:string pop:int big:bool")

    def test_id_without_a_name_that_stands_again(self) -> None:
        """An id without a name is no property of its own where a property repeats it in each row."""
        self.write("a.csv", ":ID,name,id:long,:LABEL\n7,x,7,A\n8,y,8,A\n")
        self.write("b.csv", ":ID(b),id:long,:LABEL\n7,7,B\n8,9,B\n")
        output = self.done("graphq-import", "neo4j", "a.csv", "b.csv", "--out", "g")
        self.assertEqual(output.splitlines()[:2], ["node A 2 id:int name:string", "node B 2 id_2:int id:int"])

    def test_one_table_for_each_set_of_labels(self) -> None:
        """Labels in any order are one set; a property that a table never has is left out of it; ends tell the pair."""
        self.write(
            "n.csv", "id:ID,age:int,school,:LABEL\n1,30,,Person\n7,,MIT,Person;Student\n8,,Yale,Student;Person\n"
        )
        self.write("r.csv", ":START_ID,:END_ID,:TYPE\n7,1,KNOWS\n8,1,KNOWS\n1,7,KNOWS\n")
        output = self.done("graphq-import", "neo4j", "n.csv", "r.csv", "--out", "g", "--strict")
        self.assertEqual(
            output.splitlines()[:4],
            [
                "node Person 1 id:int age:int",
                "node Person:Student 2 id:int school:string",
                "rel KNOWS Person:Student Person many_one 2",
                "rel KNOWS Person Person:Student one_one 1",
            ],
        )
        self.assertEqual((self.folder / "g/person-student.csv").read_text(), "id:int,school:string\n7,MIT\n8,Yale\n")
        self.assertEqual((self.folder / "g/knows_1.csv").read_text(), "from,to\n7,1\n8,1\n")
        self.assertEqual((self.folder / "g/knows_2.csv").read_text(), "from,to\n1,7\n")

    @unittest.skipUnless(knows_several_labels(), "the program takes one label for a table")
    def test_several_labels_are_asked(self) -> None:
        self.write("n.csv", "id:ID,:LABEL\n1,Person\n7,Person;Student\n")
        self.write("r.csv", ":START_ID,:END_ID,:TYPE\n7,1,KNOWS\n1,7,KNOWS\n")
        self.done("graphq-import", "neo4j", "n.csv", "r.csv", "--out", "g")
        text = ask("g/g.manifest", "MATCH (a:Student)-[r:KNOWS]->(b:Person) RETURN a, b;", self.folder)
        self.assertEqual(text, (0, "a\tb\n(Person:Student 7)\t(Person 1)\nrows 1\n"))

    def test_key_and_property_that_differ_in_case(self) -> None:
        """Names respect case, so a key keeps its name beside such a property, and loses it to one of the same name."""
        self.write("n.csv", "id:ID,ID:int\na,1\n")
        files = ("--nodes=N=n.csv", "--nodes=M=m.csv", "--nodes=M=l.csv")
        output = self.done("graphq-import", "neo4j", *files[:1], "--out", "g").splitlines()
        self.assertEqual(output[0], "node N 1 id:string ID:int")
        self.write("m.csv", "id:ID(M),x\na,1\n")
        self.write("l.csv", "k:ID(L),id:int\nb,1\n")
        output = self.done("graphq-import", "neo4j", *files[1:], "--out", "h").splitlines()
        self.assertEqual(output[0], "node M 2 id_2:string x:string id:int")
        self.assertIn("M: the key is called id_2, since id is a property", output)

    def test_scaled_values(self) -> None:
        """-1.5 in hundredths is -150; 1970-01-11 is day 10; 01:00 at +01:00 on 1970-01-01 is the zero of time."""
        self.write("n.csv", "id:ID,price:double,day:date,at:datetime\na,-1.5,1970-01-11,1970-01-01T01:00:00+01:00\n")
        words = ("--scale", "price=2", "--dates", "integer", "--out", "g")
        output = self.done("graphq-import", "neo4j", "--nodes", "N=n.csv", *words)
        self.assertEqual(output.splitlines()[0], "node N 1 id:string price:int day:int at:int")
        self.assertEqual((self.folder / "g/n.csv").read_text(), "id:string,price:int,day:int,at:int\na,-150,10,0\n")

    def test_names_are_made_plain(self) -> None:
        self.write("n.csv", "id:ID,full name,2nd,:LABEL\na,x,y,My Label\n")
        output = self.done("graphq-import", "neo4j", "n.csv", "--out", "g").splitlines()
        self.assertEqual(output[0], "node My_Label 1 id:string full_name:string _2nd:string")
        self.assertIn("the property 'full name' is called full_name", output)
        self.assertIn("the label 'My Label' is called My_Label", output)

    def test_kinds_of_two_files(self) -> None:
        """What is an integer in one file and a text in another is a text."""
        self.write("a.csv", "id:ID,x:int\na,1\n")
        self.write("b.csv", "id:ID,x:string\nb,y\n")
        output = self.done("graphq-import", "neo4j", "--nodes", "N=a.csv", "--nodes", "N=b.csv", "--out", "g")
        self.assertEqual(output.splitlines()[0], "node N 2 id:string x:string")
        self.assertIn("N.x: int in one file and string in another, as its text", output)

    def test_option_for_no_property(self) -> None:
        self.write("a.csv", "id:ID,x:double\na,1.5\n")
        output = self.done("graphq-import", "neo4j", "a.csv", "--out", "g", "--scale", "y=2")
        self.assertIn("y: there is no such property to scale, drop or take the text of", output.splitlines())

    def test_rename_and_drop(self) -> None:
        self.write("a.csv", "id:ID,a b,a-b,tags:int[]\nk,1,2,3\n")
        words = ("--rename", "a-b=c", "--drop", "tags", "--out", "g")
        output = self.done("graphq-import", "neo4j", "--nodes", "N=a.csv", *words).splitlines()
        self.assertEqual(output[0], "node N 1 id:string a_b:string c:string")
        self.assertIn("tags: left out, as asked", output)


class Neo4jLabels(ToolTest):
    """More sets of labels than a graph has tables, by one label for a table and the others as properties."""

    ROWS = "id:ID,x,:LABEL\n1,a,Person;Admin\n2,b,Person\n3,c,Robot;Person;Admin\n4,d,Admin\n"

    def nodes(self, *words: str) -> tuple[list[str], dict[str, str]]:
        self.setUp()
        self.write("n.csv", self.ROWS)
        output = self.done("graphq-import", "neo4j", "n.csv", "--out", "g", *words).splitlines()
        files = {path.name: path.read_text() for path in (self.folder / "g").glob("*.csv")}
        return [line for line in output if line.startswith("node ")], files

    def test_first(self) -> None:
        lines, files = self.nodes("--labels", "first")
        self.assertEqual(
            lines,
            [
                "node Person 2 id:int x:string Admin:bool",
                "node Robot 1 id:int x:string Person:bool Admin:bool",
                "node Admin 1 id:int x:string",
            ],
        )
        self.assertEqual(files["person.csv"], "id:int,x:string,Admin:bool\n1,a,true\n2,b,false\n")

    def test_most(self) -> None:
        """Three of the four have Person, and as many Admin: then the first that a node has."""
        lines, files = self.nodes("--labels", "most")
        self.assertEqual(lines, ["node Person 3 id:int x:string Admin:bool Robot:bool", "node Admin 1 id:int x:string"])
        wanted = "id:int,x:string,Admin:bool,Robot:bool\n1,a,true,false\n2,b,false,false\n3,c,true,true\n"
        self.assertEqual(files["person.csv"], wanted)

    def test_names(self) -> None:
        """A node without any of them has the label that --label says."""
        lines, files = self.nodes("--labels", "Robot,Person", "--label", "Thing")
        self.assertEqual(
            lines,
            [
                "node Person 2 id:int x:string Admin:bool",
                "node Robot:Person 1 id:int x:string Admin:bool",
                "node Thing 1 id:int x:string Admin:bool",
            ],
        )
        self.assertEqual(files["thing.csv"], "id:int,x:string,Admin:bool\n4,d,true\n")

    def test_label_that_is_called_like_a_property(self) -> None:
        self.ROWS = "id:ID,Admin,:LABEL\n1,a,Person;Admin\n"
        lines, _ = self.nodes("--labels", "first")
        self.assertEqual(lines, ["node Person 1 id:int Admin:string Admin_2:bool"])

    def test_many_sets(self) -> None:
        """Hundreds of sets of labels are one table, and graphq loads and asks it."""
        self.ROWS = "id:ID,:LABEL\n" + "".join(
            f"{number},N;{';'.join(f'L{bit}' for bit in range(8) if number >> bit & 1)}\n" for number in range(200)
        )
        lines, _ = self.nodes("--labels", "N")
        self.assertEqual(len(lines), 1)
        query = "MATCH (n:N) WHERE n.L0 AND n.L7 AND NOT n.L6 RETURN n.id ORDER BY n.id LIMIT 2;"
        self.assertEqual(ask("g/g.manifest", query, self.folder)[1], "n.id\n129\n131\nrows 2\n")


class Neo4jRefusals(ToolTest):
    """Each refusal names the file and the line."""

    def check(self, text: str, line: str, rels: str = "") -> None:
        self.write("n.csv", text)
        self.write("r.csv", rels or ":START_ID,:END_ID,:TYPE\n")
        words = ("--nodes", "N=n.csv", "--relationships", "R=r.csv", "--out", "g")
        self.refused(3, line, "graphq-import", "neo4j", *words)

    def test_no_integer(self) -> None:
        self.check("id:ID,age:int\na,3\nb,3x\n", "n.csv line 3 (N): '3x' is no integer")

    def test_large_integer(self) -> None:
        self.check(
            "id:ID,n:long\na,9223372036854775808\n", "n.csv line 2 (N): 9223372036854775808 has more than 64 signed bits"
        )

    def test_line_of_a_record_after_line_ends(self) -> None:
        self.check('id:ID,t,ok:boolean\na,"x\ny",true\nb,,maybe\n', "n.csv line 4 (N): 'maybe' is neither true nor false")

    def test_two_units(self) -> None:
        """12.5 in hundredths and the integer 7 cannot stand in one column; --scale scales both."""
        self.write("a.csv", "id:ID,x:double\na,12.5\n")
        self.write("b.csv", "id:ID,x:int\nb,7\n")
        files = ("--nodes", "N=a.csv", "--nodes", "N=b.csv", "--out", "g")
        why = "x would have values of two units: times 100 in one file, and int in another"
        self.refused(3, f"b.csv line 2 (N): {why}", "graphq-import", "neo4j", *files, "--decimals", "2")
        status, _, _ = self.tool("graphq-import", "neo4j", *files, "--scale", "x=2")
        self.assertEqual((status, (self.folder / "g/n.csv").read_text()), (0, "id:string,x:int\na,1250\nb,700\n"))

    def test_two_names_that_become_one(self) -> None:
        why = "the property 'a-b' and 'a b' would both be called a_b: rename one, as in --rename 'a-b=a_b_2'"
        self.check("id:ID,a b,a-b\nk,1,2\n", f"n.csv line 1: {why}")

    def test_property_without_a_name(self) -> None:
        why = "the property '' gives no name: rename it, as in --rename '=name'"
        self.check("id:ID,:int\nk,1\n", f"n.csv line 1: {why}")

    def test_file_that_is_too_long(self) -> None:
        """Its header has 16 bytes, and each row 11."""
        self.write("n.csv", "id:ID,x\n1,abcdefgh\n2,abcdefgh\n")
        with mock.patch("graphq_tools.importing.spool.MOST_FILE_BYTES", 37):
            line = "n.csv: it would have 38 bytes, and graphq takes 37"
            self.refused(3, line, "graphq-import", "neo4j", "--nodes", "N=n.csv", "--out", "g")

    def test_id_repeated(self) -> None:
        self.check("id:ID\na\na\n", "n.csv line 3 (N): the id 'a' is there already")

    def test_all_of_a_file_at_once(self) -> None:
        """What is wrong with the nodes is said together, in the order of the lines, and the relationships come after it."""
        self.write("n.csv", "id:ID,age:int,:LABEL\na,x,A\nb,1,B\nb,2,B\nc\n")
        self.write("r.csv", ":START_ID,:END_ID\nx,y\n")
        status, _, errors = self.tool("graphq-import", "neo4j", "n.csv", "r.csv", "--out", "g")
        self.assertEqual(
            (status, errors.splitlines()),
            (
                3,
                [
                    "graphq-import: n.csv line 2 (A): 'x' is no integer",
                    "graphq-import: n.csv line 4 (B): the id 'b' is there already",
                    "graphq-import: n.csv line 5: it has 1 fields, and the header has 3",
                ],
            ),
        )

    def test_no_more_than_twenty(self) -> None:
        self.write("n.csv", "id:ID,n:int\n" + "".join(f"{number},x\n" for number in range(30)))
        status, _, errors = self.tool("graphq-import", "neo4j", "n.csv", "--out", "g")
        lines = errors.splitlines()
        self.assertEqual((status, len(lines)), (3, 21))
        self.assertEqual(lines[19], "graphq-import: n.csv line 21 (Node): 'x' is no integer")
        self.assertEqual(lines[20], "graphq-import: these are the first 20 refusals, and there may be more")

    def test_id_empty(self) -> None:
        self.check("id:ID,x\n,1\n", "n.csv line 2 (N): the id is empty")

    def test_no_id(self) -> None:
        self.check("x,y\n1,2\n", "n.csv line 1: the header has no field :ID")
        self.check("x,y\n", "n.csv line 1: the header has no field :ID")

    def test_field_count(self) -> None:
        self.check("id:ID,x\na\n", "n.csv line 2 (N): it has 1 fields, and the header has 2")

    def test_list(self) -> None:
        self.check(
            "id:ID,tags:string[]\na,x;y\n",
            "n.csv line 1: tags is of the kind string[], which graphq cannot hold: "
            "take its text by --text tags, or leave it out by --drop tags",
        )

    def test_no_such_node(self) -> None:
        self.check("id:ID\na\n", "r.csv line 2 (R): no node has the id 'b'", ":START_ID,:END_ID\na,b\n")

    def test_no_such_node_in_a_space(self) -> None:
        self.check(
            "id:ID(P)\na\n", "r.csv line 2 (R): no node has the id 'a' in the id space Q", ":START_ID(P),:END_ID(Q)\na,a\n"
        )

    def test_not_utf_8(self) -> None:
        self.write("n.csv", b"id:ID\na\n\xff\n")
        self.refused(3, "n.csv line 3: it is not UTF-8", "graphq-import", "neo4j", "n.csv", "--out", "g")

    def test_open_quote(self) -> None:
        self.check('id:ID\na\n"b\n', "n.csv line 3: it is no CSV: unexpected end of data")

    def test_too_many_properties(self) -> None:
        header = ",".join(f"p{number}" for number in range(65))
        self.check(
            f"id:ID,{header}\na{',' * 65}\n", "n.csv line 2 (N): p64 is the property after the 64 that a table has at most"
        )

    def test_too_many_sets_of_labels(self) -> None:
        rows = "".join(f"{number},L{number}\n" for number in range(65))
        self.write("n.csv", f"id:ID,:LABEL\n{rows}")
        line = (
            "n.csv line 66 (L64): L64 is the set of labels after the 64 of a graph: --labels first, most or NAME,.. "
            "keeps one label or those named as tables, and makes the others boolean properties"
        )
        self.refused(3, line, "graphq-import", "neo4j", "n.csv", "--out", "g")

    def test_no_file(self) -> None:
        line = "n.csv: there is no file of this name"
        self.refused(3, line, "graphq-import", "neo4j", "n.csv", "--out", "g")

    def test_folder_for_a_file(self) -> None:
        status, _, errors = self.tool("graphq-import", "neo4j", "--nodes", ".", "--out", "g")
        self.assertEqual((status, errors), (4, "graphq-import: .: Is a directory\n"))

    def test_folder_that_is_full(self) -> None:
        self.write("n.csv", "id:ID\na\n")
        self.write("g/there", "")
        status, _, errors = self.tool("graphq-import", "neo4j", "n.csv", "--out", "g")
        self.assertEqual((status, errors), (5, "graphq-import: --out g: it is there already and not empty\n"))

    def test_words(self) -> None:
        several: tuple[list[str], ...] = (
            [],
            ["neo4j"],
            ["neo4j", "--out", "g", "--delimiter", "ab"],
            ["neo4j", "--out", "a b"],
            ["neo4j", "--out", "a\udcff"],
            ["neo4j", "--out", "g", ","],
            ["neo4j", "--out", "g", "--nodes", "A="],
            ["neo4j", "--out", "g", "--relationships", ""],
        )
        for words in several:
            with self.subTest(words=words):
                self.assertEqual(self.tool("graphq-import", *words)[0], 2)

    def test_decimals_beyond_reason(self) -> None:
        """Neither an exponent without end nor digits that a rounding would lose are taken for another number."""
        long = "0." + "0" * 40 + "1"
        for text, why in {
            "1e999999999": "1e999999999 with 2 digits after the point has more than 64 signed bits",
            "9" * 5000: f"{'9' * 40} with 2 digits after the point has more than 64 signed bits",
            f"1{long[1:]}": f"1.{'0' * 38} has more than 2 digits after the point",
            "1e-999999999": "1e-999999999 has more than 2 digits after the point",
            "sNaN": "'sNaN' is no finite number",
        }.items():
            with self.subTest(text=text[:20]):
                self.write("n.csv", f"id:ID,x:double\na,{text}\n")
                words = ("n.csv", "--out", "g", "--decimals", "2")
                self.refused(3, f"n.csv line 2 (Node): {why}", "graphq-import", "neo4j", *words)

    def test_line_end_in_an_id(self) -> None:
        """A refusal is one line, whatever it quotes."""
        self.check("id:ID\na\n", "r.csv line 2 (R): no node has the id 'b\\n'", ':START_ID,:END_ID\na,"b\n"\n')

    def test_label_that_is_longer_than_a_name_of_a_file(self) -> None:
        self.write("n.csv", f"id:ID,:LABEL\na,{'L' * 300}\nb,{'L' * 301}\n")
        self.done("graphq-import", "neo4j", "n.csv", "--out", "g")
        self.assertEqual(ask("g/g.manifest", "MATCH (n) RETURN n.id ORDER BY n.id;", self.folder)[0], 0)
