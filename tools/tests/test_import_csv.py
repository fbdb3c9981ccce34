"""Plain CSV files of any header."""

from __future__ import annotations

import contextlib
import csv
import io
import random
from unittest import mock

from graphq_tools.importing import naturals
from graphq_tools.importing.blocks import Blocks, Form
from graphq_tools.importing.quoted import QuotedText

from .support import ToolTest, ask

PEOPLE = 'id,full name,age,vip,born\n1,Ann,30,true,1990-01-02\n2,"Bob, B",,FALSE,\n3,Cy,-5,,2000-05-06\n'
KNOWS = "src;dst;w;since\n1;2;0.5;2010\n3;1;1.25;2011\n"


class CsvImport(ToolTest):
    def test_graph(self) -> None:
        """Kinds are guessed from all values; separators are found; the two first columns are not the ends."""
        self.write("people.csv", PEOPLE)
        self.write("knows.csv", "note;to;from\nx;2;1\n;1;3\n")
        words = ("--node", "Person=people.csv:id", "--rel", "KNOWS=knows.csv:Person.from>Person.to")
        output = self.done("graphq-import", "csv", *words, "--out", "g")
        self.assertEqual(
            output.splitlines()[:3],
            [
                "node Person 3 id:int full_name:string age:int vip:bool born:string",
                "rel KNOWS Person Person many_many 2 note:string",
                "the property 'full name' is called full_name",
            ],
        )
        query = "MATCH (a)-[r]->(b) RETURN a.full_name, a.age, a.vip, r.note, b.full_name ORDER BY r;"
        self.assertEqual(
            ask("g/g.manifest", query, self.folder)[1].splitlines()[1:],
            ["'Ann'\t30\ttrue\t'x'\t'Bob, B'", "'Cy'\t-5\tnull\tnull\t'Ann'", "rows 2"],
        )

    def test_kinds(self) -> None:
        """One value decides: zeros in front, a decimal, 64 bits, a sign, and a key that is a text."""
        for values, kind in (
            (("1", "", "-2"), "int"),
            (("0", "0", "0"), "int"),
            (("1", "02", "3"), "string"),
            (("1", "2.5", ""), "string"),
            (("9223372036854775807", "-9223372036854775808"), "int"),
            (("9223372036854775808", "1"), "string"),
            (("1", "+2"), "string"),
            (("-", "1"), "string"),
            (("-0", "1"), "string"),
            (("1-2", "1"), "string"),
            (("true", "False", ""), "bool"),
            (("true", "1"), "string"),
            (("", ""), "string"),
            (("1", "x"), "string"),
            (('"1\n2"', "3"), "string"),
        ):
            with self.subTest(values=values):
                self.setUp()
                self.write("n.csv", "k,v\n" + "".join(f"{row},{value}\n" for row, value in enumerate(values)))
                output = self.done("graphq-import", "csv", "--node", "N=n.csv", "--out", "g")
                self.assertEqual(output.splitlines()[0], f"node N {len(values)} k:int v:{kind}")
                self.assertEqual(ask("g/g.manifest", ":schema;", self.folder)[0], 0)

    def test_kind_that_changes_between_blocks(self) -> None:
        self.write("n.csv", "k,v\n" + "".join(f"{row},{row}\n" for row in range(100)) + "x,y\n")
        with mock.patch("graphq_tools.importing.blocks.BLOCK_BYTES", 64):
            output = self.done("graphq-import", "csv", "--node", "N=n.csv", "--out", "g")
        self.assertEqual(output.splitlines()[0], "node N 101 k:string v:string")
        self.assertEqual(ask("g/g.manifest", "MATCH (n {k: '99'}) RETURN n.v;", self.folder)[1], "n.v\n'99'\nrows 1\n")

    def test_blocks_that_cut_quoted_fields(self) -> None:
        """Line ends, quotes and commas inside fields, wherever a block ends; CR LF and LF; blank lines and comments."""
        rows = [(f"{row}", f'a "{row}"\r\n, #b\n%c', f"{row % 7}") for row in range(60)]
        quoted = (f'{key},"{text}",{n}\n' for key, text, n in ((k, t.replace('"', '""'), n) for k, t, n in rows))
        self.write("n.csv", "# of us\r\n\r\nk,t,n\r\n" + "\r\n# none\n".join(quoted))
        for size in (7, 64, 1 << 20):
            with self.subTest(size=size), mock.patch("graphq_tools.importing.blocks.BLOCK_BYTES", size):
                self.done("graphq-import", "csv", "--node", "N=n.csv", "--out", f"g{size}")
                text = ask(f"g{size}/g{size}.manifest", "MATCH (n) RETURN n.k, n.t, n.n ORDER BY n.k;", self.folder)[1]
                wanted = [f"{row}\t'a \"{row}\"\\r\\n, #b\\n%c'\t{row % 7}" for row in range(60)]
                self.assertEqual(text.splitlines()[1:], [*wanted, "rows 60"])

    def test_key_in_another_column(self) -> None:
        self.write("n.csv", "name\tcode\nAnn\tx1\nBob\tx2\n")
        output = self.done("graphq-import", "csv", "--node", "N=n.csv:code", "--out", "g")
        self.assertEqual(output.splitlines()[0], "node N 2 code:string name:string")
        self.assertEqual((self.folder / "g/n.csv").read_text(), "code:string,name:string\nx1,Ann\nx2,Bob\n")

    def test_standard_input(self) -> None:
        """Edges alone: their nodes are those that they name, and numbers stand in their order."""
        status, output, _ = self.call(
            "graphq-import", "csv", "--rel", "LINK=-", "--out", "g", text="% a\n% b\na|b|w\n3|1|5\n1|2|6\n"
        )
        self.assertEqual((status, output.splitlines()[:2]), (0, ["node Node 3 id:int", "rel LINK Node Node many_many 2 w:int"]))
        self.assertEqual((self.folder / "g/node.csv").read_text(), "id:int\n1\n2\n3\n")
        self.assertEqual((self.folder / "g/link.csv").read_text(), "from,to,w:int\n3,1,5\n1,2,6\n")

    def test_nodes_of_ends(self) -> None:
        """A label without a file is for nodes that relationships name; their keys may be texts with commas."""
        self.write("p.csv", "id,name\n1,Ann\n2,Bob\n")
        self.write("lives.csv", 'who,city\n1,"Ulm, Danube"\n2,Bonn\n')
        words = ("--node", "Person=p.csv", "--node", "City=:name", "--rel", "IN=lives.csv:Person.who>City.city")
        output = self.done("graphq-import", "csv", *words, "--out", "g")
        self.assertEqual(output.splitlines()[1], "node City 2 name:string")
        text = ask("g/g.manifest", "MATCH (p)-[:IN]->(c) RETURN p.name, c.name ORDER BY c.name;", self.folder)[1]
        self.assertEqual(text, "p.name\tc.name\n'Bob'\t'Bonn'\n'Ann'\t'Ulm, Danube'\nrows 2\n")

    def test_relationships_of_a_file_of_nodes(self) -> None:
        """A column of a file of nodes that has keys of others gives a relationship to each row that has one."""
        self.write("e.csv", "id,name,boss\n1,Ann,\n2,Bob,1\n3,Cy,2\n")
        words = ("--node", "P=e.csv", "--rel", "UNDER=e.csv:P.id>P.boss")
        output = self.done("graphq-import", "csv", *words, "--out", "g")
        self.assertIn("rel UNDER P P many_many 2", output)
        self.assertIn("UNDER: a row of e.csv without an end, and so without a relationship", output)
        self.assertEqual((self.folder / "g/under.csv").read_text(), "from,to\n2,1\n3,2\n")

    def test_several_labels_and_files(self) -> None:
        self.write("a.csv", "id,x\n1,p\n")
        self.write("b.csv", "id,x\n2,q\n")
        self.write("r.csv", "a,b\n1,2\n")
        words = ("--node", "A:B=a.csv", "--node", "A:B=b.csv", "--rel", "R=r.csv:A:B.a>A:B.b")
        output = self.done("graphq-import", "csv", *words, "--out", "g")
        self.assertEqual(output.splitlines()[:2], ["node A:B 2 id:int x:string", "rel R A:B A:B many_many 1"])

    def test_both_directions(self) -> None:
        """The other direction follows each edge, a self-loop comes once, and trails lead both ways."""
        self.write("r.csv", "a,b,w\n1,2,5\n2,2,6\n2,3,7\n")
        output = self.done("graphq-import", "csv", "--rel", "R=r.csv", "--both", "--out", "g")
        self.assertEqual(output.splitlines()[1], "rel R Node Node many_many 5 w:int")
        self.assertEqual((self.folder / "g/r.csv").read_text(), "from,to,w:int\n1,2,5\n2,1,5\n2,2,6\n2,3,7\n3,2,7\n")
        text = ask("g/g.manifest", "MATCH (a {id: 3})-[:R*2]->(b) RETURN b.id ORDER BY b.id;", self.folder)[1]
        self.assertEqual(text, "b.id\n1\n2\n3\nrows 3\n")

    def test_strictest_multiplicity(self) -> None:
        """In both directions each end of an edge is a source and a target, so that a path of two edges is many_many."""
        for words, many in ((("--strict",), "one_one"), (("--strict", "--both"), "many_many"), ((), "many_many")):
            with self.subTest(words=words):
                self.setUp()
                self.write("r.csv", "a,b\n1,2\n2,3\n")
                output = self.done("graphq-import", "csv", "--rel", "R=r.csv", "--out", "g", *words)
                self.assertEqual(output.splitlines()[1], f"rel R Node Node {many} {4 if '--both' in words else 2}")
                self.assertEqual(ask("g/g.manifest", ":schema;", self.folder)[0], 0)

    def test_both_directions_between_two_tables(self) -> None:
        self.write("p.csv", "id\n1\n2\n")
        self.write("c.csv", "code\nX\n")
        self.write("r.csv", "p,c\n1,X\n2,X\n")
        words = ("--node", "P=p.csv", "--node", "C=c.csv", "--rel", "IN=r.csv:P.p>C.c", "--both", "--strict")
        output = self.done("graphq-import", "csv", *words, "--out", "g")
        self.assertEqual(output.splitlines()[2:4], ["rel IN P C many_one 2", "rel IN C P one_many 2"])
        text = ask("g/g.manifest", "MATCH (:P {id: 1})-[:IN*2]->(b) RETURN b.id ORDER BY b.id;", self.folder)[1]
        self.assertEqual(text, "b.id\n1\n2\nrows 2\n")

    def test_decimals_and_dates(self) -> None:
        self.write("people.csv", PEOPLE)
        self.write("knows.csv", KNOWS)
        words = ("--node", "P=people.csv", "--rel", "K=knows.csv:P.src>P.dst")
        output = self.done("graphq-import", "csv", *words, "--out", "g")
        note = "K.w: decimals, as their texts: --scale w=2 makes integers of those with two digits after the point"
        self.assertIn(note, output)
        self.done("graphq-import", "csv", *words, "--out", "h", "--scale", "w=2", "--dates", "integer")
        self.assertEqual((self.folder / "h/k.csv").read_text(), "from,to,w:int,since:int\n1,2,50,2010\n3,1,125,2011\n")
        self.assertEqual((self.folder / "h/p.csv").read_text().splitlines()[1], "1,Ann,30,true,7306")

    def test_drop_and_text(self) -> None:
        self.write("people.csv", PEOPLE)
        words = ("--drop", "born", "--text", "age", "--rename", "full name=name", "--out", "g")
        output = self.done("graphq-import", "csv", "--node", "P=people.csv", *words)
        self.assertEqual(output.splitlines()[0], "node P 3 id:int name:string age:string vip:bool")

    def test_column_without_a_name(self) -> None:
        self.write("n.csv", ",x\n0,a\n1,b\n")
        output = self.done("graphq-import", "csv", "--node", "N=n.csv", "--out", "g")
        self.assertEqual(output.splitlines()[0], "node N 2 column_1:int x:string")

    def test_comments_among_rows(self) -> None:
        self.write("n.csv", "k,x\na,1\n#b,2\n")
        output = self.done("graphq-import", "csv", "--node", "N=n.csv", "--out", "g")
        note = "n.csv: a line among the rows taken for comments; --comments '' takes them for rows"
        self.assertEqual(output.splitlines()[:2], ["node N 1 k:string x:int", note])
        output = self.done("graphq-import", "csv", "--node", "N=n.csv", "--out", "h", "--comments", "")
        self.assertEqual(output.splitlines()[0], "node N 2 k:string x:int")

    def test_keys_that_are_no_small_numbers(self) -> None:
        """A key beyond the marks, and then a text; ends are found in both."""
        self.write("n.csv", "k\n1\n99999999999\nx\n")
        self.write("r.csv", "a,b\n99999999999,1\nx,99999999999\n")
        words = ("--node", "N=n.csv", "--rel", "R=r.csv")
        with mock.patch("graphq_tools.importing.blocks.BLOCK_BYTES", 2):
            output = self.done("graphq-import", "csv", *words, "--out", "g")
        self.assertEqual(output.splitlines()[:2], ["node N 3 k:string", "rel R N N many_many 2"])


class CsvRefusals(ToolTest):
    def several(self, lines: list[str], *words: str) -> None:
        status, _, errors = self.tool("graphq-import", "csv", *words, "--out", "g")
        self.assertEqual((status, errors.splitlines()), (3, [f"graphq-import: {line}" for line in lines]))

    def test_all_of_a_file_at_once(self) -> None:
        self.write("n.csv", "# us\nk,x\na,1\n\na,2\nb\n,3\n%\nc,4,5\nb,1\na,1\n")
        for size in (4, 1 << 20):
            with self.subTest(size=size), mock.patch("graphq_tools.importing.blocks.BLOCK_BYTES", size):
                self.several(
                    [
                        "n.csv line 5 (N): the key 'a' is there already",
                        "n.csv line 6 (N): it has 1 fields, and the header has 2",
                        "n.csv line 7 (N): the key is empty",
                        "n.csv line 9 (N): it has 3 fields, and the header has 2",
                        "n.csv line 11 (N): the key 'a' is there already",
                    ],
                    "--node",
                    "N=n.csv",
                )

    def test_ends(self) -> None:
        self.write("n.csv", "k,x\n1,\n2,\n")
        self.write("r.csv", 'a,b\n1,2\n3,1\n"x\ny",1\n1,\n2,01\n')
        self.several(
            [
                "r.csv line 3 (R): no N has the key '3'",
                "r.csv line 4 (R): no N has the key 'x\\ny'",
                "r.csv line 6 (R): an end is empty",
                "r.csv line 7 (R): no N has the key '01'",
            ],
            "--node",
            "N=n.csv",
            "--rel",
            "R=r.csv",
        )

    def test_twenty_at_most(self) -> None:
        self.write("n.csv", "k\n" + "a\n" * 40)
        status, _, errors = self.tool("graphq-import", "csv", "--node", "N=n.csv", "--out", "g")
        self.assertEqual((status, len(errors.splitlines())), (3, 21))
        self.assertIn("line 22 (N)", errors)

    def test_values(self) -> None:
        self.write("n.csv", "k,price\na,1.25\nb,1.2345\nc,x\n")
        self.several(
            [
                "n.csv line 3 (N): 1.2345 has more than 2 digits after the point",
                "n.csv line 4 (N): 'x' is no decimal number",
            ],
            "--node",
            "N=n.csv",
            "--scale",
            "price=2",
        )

    def test_no_csv(self) -> None:
        self.write("n.csv", 'k,x\na,1\nb,"2\n')
        self.several(["n.csv line 3 (N): it is no CSV: unexpected end of data"], "--node", "N=n.csv")

    def test_not_utf_8(self) -> None:
        self.write("n.csv", b"k,x\na,1\nb,\xff\n")
        self.several(["n.csv line 3: it is not UTF-8"], "--node", "N=n.csv")

    def test_no_header(self) -> None:
        self.write("n.csv", "# nothing\n\n")
        self.several(["n.csv line 1: there is no header"], "--node", "N=n.csv")

    def test_no_column(self) -> None:
        self.write("n.csv", "k,x\na,1\n")
        self.several(["n.csv line 1 (N): there is no column id: k, x"], "--node", "N=n.csv:id")

    def test_two_columns_of_a_name(self) -> None:
        self.write("n.csv", "k,x,x\na,1,2\n")
        self.several(["n.csv line 1: there are two columns x"], "--node", "N=n.csv")

    def test_words(self) -> None:
        self.write("n.csv", "k,x\na,1\n")
        for words in (
            (),
            ("--node", "=n.csv"),
            ("--node", "A:A=n.csv"),
            ("--rel", "R"),
            ("--node", "A=n.csv", "--node", "B=n.csv", "--rel", "R=n.csv"),
            ("--node", "A=n.csv", "--rel", "R=n.csv:A.k"),
            ("--node", "A=n.csv", "--rel", "R=n.csv:A.k>B.x"),
            ("--node", "A=n.csv", "--delimiter", "ab"),
        ):
            with self.subTest(words=words):
                self.assertEqual(self.tool("graphq-import", "csv", *words, "--out", "g")[0], 2)
                self.assertFalse((self.folder / "g").exists())


class Cutting(ToolTest):
    """What is cut as whole texts is what Python's CSV reader reads."""

    PARTS = ("a", '"', '""', ",", ";", "\n", "7", " ", "é", "#", "")

    def records(self, text: str, delimiter: str, by_reader: bool) -> tuple[list[list[list[str]]], list[tuple[int, str]], int]:
        """The columns of a file's blocks, what cannot be taken of it, and how many blocks with quotes were cut."""
        blocks = Blocks(self.write("n.csv", text), Form(delimiter))
        with contextlib.ExitStack() as stack:
            if by_reader:
                stack.enter_context(mock.patch.object(Blocks, "_cut_quoted", return_value=None))
            found = list(blocks.read())
        columns = [[list(block.column(place)) for place in range(block.width)] for block in found]
        for block, own in zip(found, columns, strict=True):
            self.assertEqual([list(column) for column in block.columns], own)
            if block.raw is not None:
                rows = filter(None, csv.reader(io.StringIO(block.raw.decode(), newline="")))
                self.assertEqual([list(column) for column in zip(*rows, strict=True)], own)
        bad = [(one.number, one.why) for one in blocks.bad]
        return columns, bad, sum(isinstance(block.source, QuotedText) for block in found)

    def test_quoted_fields(self) -> None:
        chance = random.Random(5)
        cut = 0
        for number in range(300):
            delimiter, width = chance.choice(",;\t|"), chance.randrange(1, 4)
            text = io.StringIO()
            quoting = csv.QUOTE_ALL if number % 2 else csv.QUOTE_MINIMAL
            write = csv.writer(text, delimiter=delimiter, quoting=quoting, lineterminator="\n").writerow
            write([f"h{place}" for place in range(width)])
            for _ in range(chance.randrange(5)):
                write(["".join(chance.choices(self.PARTS, k=chance.randrange(5))) for _ in range(width)])
            whole = text.getvalue()
            head = whole.index("\n") + 1
            # Some have a sign too many.
            at = chance.randrange(head, len(whole) + 1)
            broken = whole[:at] + chance.choice(["", "", '"', delimiter, "z", "\n"]) + whole[at:]
            with self.subTest(text=broken, delimiter=delimiter):
                columns, bad, count = self.records(broken, delimiter, by_reader=False)
                self.assertEqual((columns, bad), self.records(broken, delimiter, by_reader=True)[:2])
                cut += count
        self.assertGreater(cut, 100)

    def test_natural_numbers(self) -> None:
        """With numpy and without it numbers are the same, and what is no natural number is none."""
        many = [str(number * number) for number in range(50_000)]
        for values in (
            many,
            [*many, "0"],
            [*many, "01"],
            [*many, ""],
            ["", *many],
            [*many[:9], "", *many],
            [*many, "-1"],
            [*many, "99999999999999999999"],
            [*many, "9223372036854775807"],
            [*many, "1\n2"],
        ):
            found = []
            for least in (1, 1 << 40):
                with mock.patch("graphq_tools.importing.arrays.MANY_BYTES", least):
                    numbers = naturals.naturals(values)
                    found.append(None if numbers is None else list(map(int, numbers)))
            plain = all(map(str.isdecimal, values)) and all(str(int(value)) == value for value in values)
            self.assertEqual(found, [list(map(int, values)) if plain else None] * 2)
