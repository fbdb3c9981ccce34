"""Scripts of Kùzu with their CSV files."""

from __future__ import annotations

from .support import ToolTest, ask

SCRIPT = """\
// People and cities.
CREATE NODE TABLE IF NOT EXISTS User (name STRING, age INT64 DEFAULT 0, height DOUBLE, PRIMARY KEY (name));
CREATE NODE TABLE City(id INT64 PRIMARY KEY, name STRING, founded DATE);
CREATE REL TABLE Follows(FROM User TO User, since INT64);
CREATE REL TABLE LivesIn(FROM User TO City, MANY_ONE);
COPY User FROM 'user.csv';
COPY City FROM "city.csv" (HEADER=true, DELIM='|');
COPY Follows FROM ['follows-1.csv', 'follows-2.csv'];
COPY LivesIn FROM 'lives.csv';
"""


class KuzuImport(ToolTest):
    def setUp(self) -> None:
        super().setUp()
        self.write("k/schema.cypher", SCRIPT)
        self.write("k/user.csv", "Adam,30,1.75\nKarissa,40,1.6\nZhang,,\n")
        self.write("k/city.csv", "id|name|founded\n10|Waterloo|1857-01-01\n20|Kitchener|\n")
        self.write("k/follows-1.csv", "from,to,since\nAdam,Karissa,2020\nAdam,Zhang,2020\n")
        self.write("k/follows-2.csv", "Karissa,Zhang,2021\n")
        self.write("k/lives.csv", "Adam,10\nKarissa,10\nZhang,20\n")

    def test_graph(self) -> None:
        output = self.done("graphq-import", "kuzu", "k/schema.cypher", "--out", "g", "--scale", "height=2")
        self.assertEqual(
            output.splitlines(),
            [
                "node User 3 name:string age:int height:int",
                "node City 2 id:int name:string founded:string",
                "rel Follows User User many_many 3 since:int",
                "rel LivesIn User City many_one 3",
                "User.height: DOUBLE, as an integer: times 100",
                "City.founded: DATE, as its text",
                "ask it: graphq-shell --manifest g/g.manifest",
            ],
        )
        query = "MATCH (a)-[:LivesIn]->(c {id: 10}) RETURN a, a.height, c.founded ORDER BY a.name;"
        text = "a\ta.height\tc.founded\n(User 'Adam')\t175\t'1857-01-01'\n(User 'Karissa')\t160\t'1857-01-01'\nrows 2\n"
        self.assertEqual(ask("g/g.manifest", query, self.folder), (0, text))

    def test_dates_as_integers(self) -> None:
        """From 1857-01-01 to 1970-01-01 there are 113 years, 27 of them leap years: 41,272 days."""
        self.done("graphq-import", "kuzu", "k/schema.cypher", "--out", "g", "--dates", "integer")
        text = (self.folder / "g/city.csv").read_text()
        self.assertEqual(text, "id:int,name:string,founded:int\n10,Waterloo,-41272\n20,Kitchener,\n")

    def test_strictest_multiplicity(self) -> None:
        """The data of LivesIn keep one_one where each city has one user, and the script says many_one."""
        self.write("k/lives.csv", "Adam,10\nZhang,20\n")
        output = self.done("graphq-import", "kuzu", "k/schema.cypher", "--out", "g", "--strict")
        self.assertIn("rel LivesIn User City one_one 2", output.splitlines())
        output = self.done("graphq-import", "kuzu", "k/schema.cypher", "--out", "h")
        self.assertIn("rel LivesIn User City many_one 2", output.splitlines())

    def test_serial_keys_and_pairs(self) -> None:
        self.write(
            "k/schema.cypher",
            "CREATE NODE TABLE A(id SERIAL, x STRING, PRIMARY KEY(id)); CREATE NODE TABLE B(k STRING PRIMARY KEY);\n"
            "CREATE REL TABLE R(FROM A TO A, FROM A TO B, w INT64);\n"
            "COPY A FROM 'a.csv'; COPY B FROM 'b.csv'; COPY R FROM 'aa.csv' (from='A', to='A');\n"
            "COPY R FROM 'ab.csv' (from='A', to='B')",
        )
        for name, text in (("a", "p\nq\n"), ("b", "z\n"), ("aa", "0,1,5\n"), ("ab", "1,z,\n")):
            self.write(f"k/{name}.csv", text)
        output = self.done("graphq-import", "kuzu", "k/schema.cypher", "--out", "g").splitlines()
        self.assertEqual(
            output[:4],
            ["node A 2 id:int x:string", "node B 1 k:string", "rel R A A many_many 1 w:int", "rel R A B many_many 1"],
        )
        self.assertEqual((self.folder / "g/a.csv").read_text(), "id:int,x:string\n0,p\n1,q\n")

    def refuse(self, line: str) -> None:
        status, _, errors = self.tool("graphq-import", "kuzu", "k/schema.cypher", "--out", "g")
        self.assertEqual((status, errors), (3, f"graphq-import: {line}\n"))

    def test_multiplicity_that_is_broken(self) -> None:
        self.write("k/lives.csv", "Adam,10\nAdam,20\n")
        self.refuse("k/lives.csv line 2 (LivesIn): LivesIn is many_one, and there is a relationship from Adam already")

    def test_no_integer(self) -> None:
        self.write("k/user.csv", "Adam,thirty,1\n")
        self.refuse("k/user.csv line 1 (User): 'thirty' is no integer")

    def test_no_such_node(self) -> None:
        self.write("k/follows-2.csv", "Karissa,Nobody,2021\n")
        self.refuse("k/follows-2.csv line 1 (Follows): no node has the id 'Nobody' in the id space User")

    def test_key_repeated(self) -> None:
        self.write("k/city.csv", "id|name|founded\n10|a|\n010|b|\n")
        self.refuse("k/city.csv line 3 (City): the id '10' is there already, in the id space City")

    def test_too_many_digits(self) -> None:
        self.write("k/user.csv", "Adam,1,1.755\n")
        status, _, errors = self.tool("graphq-import", "kuzu", "k/schema.cypher", "--out", "g", "--decimals", "2")
        self.assertEqual(
            (status, errors), (3, "graphq-import: k/user.csv line 1 (User): 1.755 has more than 2 digits after the point\n")
        )

    def script(self, text: str, line: str) -> None:
        self.write("k/schema.cypher", text)
        status, _, errors = self.tool("graphq-import", "kuzu", "k/schema.cypher", "--out", "g")
        self.assertEqual((status, errors), (3, f"graphq-import: k/schema.cypher {line}\n"))

    def test_other_statement(self) -> None:
        why = "CREATE NODE TABLE, CREATE REL TABLE or COPY is wanted; no other statement is taken"
        self.script("CREATE NODE TABLE A(k STRING PRIMARY KEY);\nMATCH (a) RETURN a;\n", f"line 2: {why}")

    def test_list_type(self) -> None:
        ways = "take its text by --text tags, or leave it out by --drop tags"
        why = f"tags is of the kind STRING[], which graphq cannot hold: {ways}"
        self.script("\n\nCREATE NODE TABLE A(k STRING PRIMARY KEY, tags STRING[]);", f"line 3: {why}")

    def test_no_file(self) -> None:
        self.script(
            "CREATE NODE TABLE A(k STRING PRIMARY KEY);\nCOPY A FROM 'none.csv';", "line 2: there is no file none.csv"
        )

    def test_no_key(self) -> None:
        self.script("CREATE NODE TABLE A(k STRING);", "line 1: the table A has no PRIMARY KEY among its columns")

    def test_options_of_copy(self) -> None:
        table = "CREATE NODE TABLE A(k STRING PRIMARY KEY, x STRING);\n"
        for option, why in {
            "DELIM='ab'": "DELIM is one character, and not 'ab'",
            "QUOTE=''": "QUOTE is one character, and not ''",
            "SKIP=x": "SKIP is a number of records, and not 'x'",
            "HEADER=maybe": "HEADER is true or false, and not 'maybe'",
        }.items():
            with self.subTest(option=option):
                self.script(f"{table}COPY A FROM 'a.csv' ({option});", f"line 2: {why}")
        self.write("k/schema.cypher", f"{table}COPY A FROM 'a.csv' (IGNORE_ERRORS=true);")
        status, _, errors = self.tool("graphq-import", "kuzu", "k/schema.cypher", "--out", "g")
        self.assertEqual(status, 3)
        self.assertIn("k/schema.cypher line 2: COPY has the option IGNORE_ERRORS, and is taken with DELIM, ", errors)

    def test_what_stands_twice(self) -> None:
        table = "CREATE NODE TABLE A(k STRING PRIMARY KEY);"
        self.script(f"{table}\n{table}", "line 2: there is a table A already")
        self.script(f"{table}\nCREATE REL TABLE A(FROM A TO A);", "line 2: there is a table A already")
        self.script("CREATE NODE TABLE A(k STRING PRIMARY KEY, k INT64);", "line 1: the table A has the column k twice")
        pairs = "FROM A TO A, FROM A TO A"
        self.script(f"{table}\nCREATE REL TABLE R({pairs});", "line 2: the table R has a pair of FROM and TO twice")
        self.script(f"{table}\nCOPY A(k, k) FROM 'a.csv';", "line 2: COPY names the column k twice")

    def test_unknown_end(self) -> None:
        self.script("CREATE REL TABLE R(FROM A TO A);", "line 1: there is no table A of nodes above")
