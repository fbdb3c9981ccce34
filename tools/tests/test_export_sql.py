"""The SQL of the metro gives in sqlite3 the rows that graphq gives: each question stands in SQL in tests/metro."""

from __future__ import annotations

import os
import shutil
import sqlite3
import subprocess
import tempfile
import unittest
from collections.abc import Iterator
from contextlib import contextmanager
from pathlib import Path

from graphq_tools.replies import Refused, Rows, read_reply, value_of

from .support import METRO, TOP, ToolTest, ask, needs_program

QUESTIONS = TOP / "examples/metro/questions"
SQL = TOP / "tools/tests/metro"


def question_of_the_page() -> str:
    """The question as docs/beyond-one-machine.md has it in SQL."""
    lines = (TOP / "docs/beyond-one-machine.md").read_text().splitlines()
    begin = next(number for number, line in enumerate(lines) if line.startswith("    SELECT "))
    end = next(number for number in range(begin, len(lines)) if lines[number].endswith(";"))
    return "\n".join(lines[begin : end + 1])


def answer_of_the_page() -> list[str]:
    """Its answer, as it stands beside the question of the metro, with a bar between the values."""
    lines = (QUESTIONS / "04-changes.expected").read_text().splitlines()[1:-1]
    return [line.replace("'", "").replace("\t", "|") for line in lines]


def shown(value: object) -> str | int | None:
    """A value in the form that both sides have: SQL has no booleans, nodes or relationships of its own."""
    if isinstance(value, bool):
        return "true" if value else "false"
    return value if value is None or isinstance(value, int) else str(value)


class Sqlite(ToolTest):
    def setUp(self) -> None:
        super().setUp()
        self.done("graphq-export", "sqlite", "--manifest", METRO, "--out", self.folder / "sql", cwd=TOP)
        self.database = sqlite3.connect(":memory:")
        self.addCleanup(self.database.close)
        self.database.execute("PRAGMA foreign_keys = ON")
        self.database.executescript((self.folder / "sql/graph.sql").read_text())

    def test_there_are_nineteen_questions(self) -> None:
        names = sorted(path.stem for path in QUESTIONS.glob("*.cypher"))
        self.assertEqual(names, sorted(path.stem for path in SQL.glob("*.sql")))
        self.assertEqual(len(names), 19)

    def test_questions(self) -> None:
        for question in sorted(QUESTIONS.glob("*.cypher")):
            with self.subTest(question=question.stem):
                rows = self.database.execute((SQL / f"{question.stem}.sql").read_text()).fetchall()
                reply = read_reply(ask(METRO, question.read_text())[1].splitlines())
                if isinstance(reply, Refused):
                    self.assertEqual(reply.line, "error: Fault DivideByZero")
                    self.assertEqual(rows, [("Ferry",)])
                else:
                    assert isinstance(reply, Rows)
                    self.assertEqual([tuple(shown(value_of(cell)) for cell in row) for row in reply.rows], rows)

    def test_question_of_the_page(self) -> None:
        rows = self.database.execute(question_of_the_page()).fetchall()
        self.assertEqual(["|".join(row) for row in rows], answer_of_the_page())

    def test_constraints(self) -> None:
        """HOUSES is one_many: a line has one depot at most. A key is unique, and a relationship has its ends."""
        for statement in (
            "INSERT INTO HOUSES VALUES (100, 2, 'Harbour')",
            "INSERT INTO Company VALUES (1, 'x', 1)",
            "INSERT INTO RUN_BY VALUES (100, 'Nowhere', 1, 1)",
        ):
            with self.subTest(statement=statement), self.assertRaises(sqlite3.IntegrityError):
                self.database.execute(statement)


AWKWARD_NODES = 'id:string,Text:string,text:int,on:bool\n"a\'b","x\\y\nz\t",-9223372036854775808,TRUE\nc,,007,\n'


class Awkward(ToolTest):
    """Texts and names that SQL would read in another way."""

    def setUp(self) -> None:
        super().setUp()
        self.write("n.csv", AWKWARD_NODES)
        self.write("r.csv", "from,to,source:string,number:int\na'b,c,s,5\n")
        self.write("g.manifest", "node Order n.csv\nrel GROUP Order Order one_one r.csv\n")

    def test_sqlite(self) -> None:
        notes = self.done("graphq-export", "sqlite", "--manifest", "g.manifest", "--out", "sql")
        self.assertEqual(
            notes.splitlines()[1:],
            [
                "Order.text is the column text_2",
                "GROUP.source is the column source_2",
                "GROUP.number is the column number_2",
            ],
        )
        database = sqlite3.connect(":memory:")
        self.addCleanup(database.close)
        database.executescript((self.folder / "sql/graph.sql").read_text())
        rows = database.execute('SELECT * FROM "Order"').fetchall()
        self.assertEqual(rows, [("a'b", "x\\y\nz\t", -(2**63), 1), ("c", None, 7, None)])
        self.assertEqual(database.execute('SELECT * FROM "GROUP"').fetchall(), [(0, "a'b", "c", "s", 5)])

    @needs_program("sqlite3")
    def test_texts_through_the_shell_of_sqlite(self) -> None:
        texts = ["a\nb", "a\r\nb", "a\rb", "\r", "a\0b", "it's\r\n;\n.quit\n--", "\\", "\ufeff"]
        quoted = [text.replace('"', '""') for text in texts]
        self.write("n.csv", "".join(f'"{text}"\n' for text in ["t:string", *quoted]))
        self.write("g.manifest", "node N n.csv\n")
        self.done("graphq-export", "sqlite", "--manifest", "g.manifest", "--out", "sql")
        script = (self.folder / "sql/graph.sql").read_bytes()
        done = subprocess.run(["sqlite3", "g.db"], input=script, capture_output=True, cwd=self.folder, check=False)
        self.assertEqual((done.returncode, done.stderr), (0, b""))
        database = sqlite3.connect(self.folder / "g.db")
        self.addCleanup(database.close)
        self.assertEqual([row[0] for row in database.execute("SELECT t FROM N ORDER BY rowid")], texts)

    def test_postgresql_is_copied(self) -> None:
        self.done("graphq-export", "postgresql", "--manifest", "g.manifest", "--out", "sql")
        text = (self.folder / "sql/graph.sql").read_text()
        self.assertIn("FROM stdin;\na'b\tx\\\\y\\nz\\t\t-9223372036854775808\ttrue\nc\t\\N\t7\t\\N\n\\.\n", text)


@contextmanager
def postgresql() -> Iterator[list[str]]:
    """A server of its own on a socket in a folder; gives the words of psql."""
    programs = sorted(Path("/usr/lib/postgresql").glob("*/bin"))[-1]
    with tempfile.TemporaryDirectory() as folder:
        root = Path(folder)
        root.chmod(0o777)
        as_user = ["runuser", "-u", "postgres", "--"]
        data = root / "data"
        start = f"-c listen_addresses= -c unix_socket_directories={folder} -c fsync=off"
        for command in (
            [programs / "initdb", "-D", data, "-A", "trust", "--no-sync"],
            [programs / "pg_ctl", "-D", data, "-o", start, "-l", root / "log", "-w", "start"],
        ):
            done = subprocess.run([*as_user, *map(str, command)], capture_output=True, check=False)
            if done.returncode:
                raise unittest.SkipTest("the server of the package postgresql does not start here")
        try:
            yield [*as_user, "psql", "-h", folder, "-qAt", "-v", "ON_ERROR_STOP=1"]
        finally:
            stop = [str(programs / "pg_ctl"), "-D", str(data), "-m", "immediate", "stop"]
            subprocess.run([*as_user, *stop], capture_output=True, check=False)


def has_postgresql() -> bool:
    """Whether a server can be started here."""
    there = list(Path("/usr/lib/postgresql").glob("*/bin/initdb")) and shutil.which("psql") and shutil.which("runuser")
    return bool(there) and os.geteuid() == 0


@unittest.skipUnless(has_postgresql(), "the package postgresql is missing, or nobody is root")
class Postgresql(ToolTest):
    def test_metro_and_awkward_texts(self) -> None:
        self.write("n.csv", AWKWARD_NODES)
        self.write("g.manifest", "node Order n.csv\n")
        self.done("graphq-export", "postgresql", "--manifest", "g.manifest", "--out", "one")
        self.done("graphq-export", "postgresql", "--manifest", METRO, "--out", self.folder / "two", cwd=TOP)
        with postgresql() as psql:
            answers = []
            for text in (
                (self.folder / "one/graph.sql").read_text(),
                (self.folder / "two/graph.sql").read_text(),
                """SELECT "Text", text_2, "on" FROM "Order" ORDER BY id;""",
                """SELECT sum(minutes), count(*) FROM "TRACK";""",
                """SELECT name FROM "Station" WHERE zone = 4 ORDER BY name COLLATE "C";""",
                question_of_the_page(),
            ):
                done = subprocess.run(psql, input=text.encode(), capture_output=True, cwd="/", check=False)
                self.assertEqual(done.stderr.decode(), "")
                answers.append(done.stdout.decode())
        with (TOP / "examples/metro/track.csv").open() as stream:
            minutes = [line.rstrip("\n").split(",")[3] for line in list(stream)[1:]]
        total = sum(int(minute) for minute in minutes if minute)
        self.assertEqual(answers[2], f"x\\y\nz\t|{-(2**63)}|t\n|7|\n")
        self.assertEqual(answers[3], f"{total}|44\n")
        self.assertEqual(answers[4].splitlines(), ["Airport", "Beach", "Lakeside", "Land's End", "Village"])
        self.assertEqual(answers[5].splitlines(), answer_of_the_page())
