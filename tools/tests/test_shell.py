"""The shell: statements, tables, carets, completion, and a session at a terminal of its own."""

from __future__ import annotations

import contextlib
import fcntl
import io
import json
import os
import pty
import re
import select
import subprocess
import tempfile
import termios
import time
import unittest
from pathlib import Path

from graphq_tools.model import Field
from graphq_tools.replies import Node, Other, Relationship, Rows, read_reply, value_of
from graphq_tools.schema import Nodes, Rels, Schema, read_schema
from graphq_tools.session import Session
from graphq_tools.shell.commands import HELP
from graphq_tools.shell.completion import completions
from graphq_tools.shell.lines import PipedLines, prompt_for
from graphq_tools.shell.loop import Settings, Shell
from graphq_tools.statements import is_blank, split
from graphq_tools.text_table import aligned, caret, visible

from .support import METRO, PEOPLE, PROGRAM, TOOLS, TOP, ToolTest, ask, needs_module


class Statements(unittest.TestCase):
    def test_split(self) -> None:
        for text, wanted in {
            "a;b": (["a"], "b"),
            "a ';' b; c": (["a ';' b"], " c"),
            'a ";\\";" b;': (['a ";\\";" b'], ""),
            "`;`;x // ;\n y;": (["`;`", "x // ;\n y"], ""),
            "a /* ; */;": (["a /* ; */"], ""),
            "a ' ;": ([], "a ' ;"),
            "a; b /* ;": (["a"], " b /* ;"),
            "a // ;": ([], "a // ;"),
            ";;": (["", ""], ""),
        }.items():
            with self.subTest(text=text):
                self.assertEqual(split(text), wanted)

    def test_split_as_the_program(self) -> None:
        """The program has as many replies as the shell has statements that are not blank."""
        text = "RETURN ';'; // ; \n MATCH (a) RETURN `;`;/* ; */ ; x;' \\' ; ';y"
        statements, rest = split(text)
        count = sum(not is_blank(one) for one in [*statements, rest])
        self.assertEqual(len(ask(PEOPLE, text)[1].splitlines()), count)

    def test_blank(self) -> None:
        for text in ("", " \n\t", "// a\n", "// a", "/* ; */ // b\n "):
            self.assertTrue(is_blank(text), text)
        for text in ("a", "// a\nb", "/", "/* */ a", "/* open"):
            self.assertFalse(is_blank(text), text)


class Replies(unittest.TestCase):
    def test_values(self) -> None:
        for text, value in {
            "null": None,
            "true": True,
            "-12": -12,
            "'a\\tb\\'\\\\n'": "a\tb'\\n",
            "(Person:Student 7)": Node("Person:Student", 7),
            "(S 'a b)')": Node("S", "a b)"),
            "[KNOWS #4]": Relationship("KNOWS", 1, 4, "[KNOWS #4]"),
            "[KNOWS/2 #0]": Relationship("KNOWS", 2, 0, "[KNOWS/2 #0]"),
            "[1, 2]": Other("[1, 2]"),
        }.items():
            with self.subTest(text=text):
                self.assertEqual(value_of(text), value)
                self.assertIs(type(value_of(text)), type(value))

    def test_reply_without_rows(self) -> None:
        self.assertEqual(read_reply(["a\tb", "rows 0"]), Rows(["a", "b"], []))

    def test_profile(self) -> None:
        spent = ["pipeline 1 chunks 3 columns 0", "pipeline 2 chunks 4 columns 1"]
        self.assertEqual(read_reply([*spent, "a\tb", "1\t2", "rows 1"]), Rows(["a", "b"], [["1", "2"]], spent))
        self.assertEqual(read_reply([spent[0], "rows 0"]), Rows([spent[0]], []))
        self.assertEqual(read_reply([spent[1], "1", "rows 1"]), Rows([spent[1]], [["1"]]))


class Tables(unittest.TestCase):
    def test_aligned(self) -> None:
        rows = [["'Zürich'", "7"], ["'京都'", "-120"], ["null", "null"]]
        self.assertEqual(
            aligned(["name", "n"], rows),
            ["name     |    n", "---------+-----", "'Zürich' |    7", "'京都'   | -120", "null     | null"],
        )

    def test_caret(self) -> None:
        """Byte 9 of the second statement is the `)`: é has two bytes, and 京 takes two columns."""
        self.assertEqual(caret("\nx 'é京' )\ny", "error: Syntax at byte 11"), ["x 'é京' )", "        ^"])
        self.assertEqual(caret("\tx", "error: Lex at byte 1"), ["\tx", "\t^"])
        self.assertEqual(caret("a", "error: Syntax at byte 1"), ["a", " ^"])
        self.assertEqual(caret("a", "error: UnknownVariable a"), [])


class Completion(unittest.TestCase):
    SCHEMA = Schema(
        [
            Nodes("Station", 35, (Field("code", "string"), Field("name", "string"), Field("zone", "int"))),
            Nodes("Line", 8, (Field("name", "string"), Field("opened", "int"))),
        ],
        [
            Rels("TRACK", "Station", "Station", "many_many", 44, (Field("minutes", "int"),)),
            Rels("STOPS_AT", "Line", "Station", "many_many", 44, (Field("place", "int"),)),
        ],
    )

    def test_schema(self) -> None:
        lines = [
            "node A:B 3 id:int x:string",
            "node B 1 id:int",
            "rel R A:B B many_one 4 y:bool",
            "rel R B B one_one 0",
        ]
        schema = read_schema(lines)
        names = (schema.labels(), schema.types(), schema.properties())
        self.assertEqual(names, (["A", "B"], ["R"], ["id", "x", "y"]))
        self.assertEqual([table.rows for table in schema.nodes], [3, 1])
        self.assertEqual([(table.source, table.target) for table in schema.rels], [("A:B", "B"), ("B", "B")])

    def test_places(self) -> None:
        for before, wanted in {
            "MATCH (s:St": ["Station"],
            "MATCH (:": ["Station", "Line"],
            "MATCH (s)-[:T": ["TRACK"],
            "MATCH (s)-[t:TRACK|": ["TRACK", "STOPS_AT"],
            "MATCH (s) RETURN s.n": ["name"],
            "MATCH (s {z": ["zone"],
            "MAT": ["MATCH"],
            "mat": ["match"],
            "MATCH (s)\nWHE": ["WHERE"],
            "MATCH (s) OP": ["OPTIONAL"],
            "MATCH (s) RETURN s.name, co": ["contains", "coalesce("],
            "MATCH (l:Line) RETURN l.": ["name", "opened"],
            "MATCH (l:Line)-[r:STOPS_AT]->(s:Station)\nWHERE r.": ["place"],
            "MATCH (l:Line)-[r:STOPS_AT|TRACK]->(s) WHERE r.": ["minutes", "place"],
            "MATCH (n) RETURN n.": ["code", "name", "zone", "opened"],
            "MATCH (n) RETURN other.o": ["opened"],
            "MATCH (:Line {o": ["opened"],
            "MATCH (l:Line {name: 'Ring', ": ["name", "opened"],
            "MATCH (a)-[t:TRACK {": ["minutes"],
            "MATCH (s:Station {zone: $": ["zone", "line_name"],
            "MATCH (s:Station {zone: $z": ["zone"],
            ":param ": ["zone", "line_name"],
            ":sch": [":schema"],
            ":p": [":plan ", ":profile ", ":param ", ":params"],
            ".t": [".timing "],
            ".mode j": ["json"],
            ".pager ": ["on", "off"],
            "": [],
        }.items():
            with self.subTest(before=before):
                found = completions(before, self.SCHEMA, {"zone": "4", "line_name": "'Ring'"})
                self.assertEqual([text for text, _ in found], wanted)

    def test_files(self) -> None:
        with tempfile.TemporaryDirectory() as folder:
            Path(folder, "a b.cypher").touch()
            Path(folder, "answers").mkdir()
            typed = f"{folder}/a"
            wanted = [(f"{folder}/a b.cypher", len(typed)), (f"{folder}/answers/", len(typed))]
            self.assertEqual(completions(f".read {typed}", self.SCHEMA), wanted)


class Prompts(unittest.TestCase):
    def test_what_is_waited_for(self) -> None:
        for before, wanted in {
            "": "graphq> ",
            "// a comment\n": "graphq> ",
            "MATCH (a)\n": "until ; ...> ",
            "MATCH (a {name: 'x\n": "until ' ...> ",
            "RETURN \"it's; \n": 'until " ...> ',
            "MATCH (`a;\n": "until ` ...> ",
            "/* ; 'x'\n": "until */ ...> ",
            "MATCH (a) RETURN 'x;y'\n": "until ; ...> ",
        }.items():
            with self.subTest(before=before):
                self.assertEqual(prompt_for(before), wanted)


class Piped(ToolTest):
    def test_what_never_ends(self) -> None:
        """A string or a comment that is open at the end: graphq's refusal, and no waiting for more."""
        for text, wanted in {"MATCH (a) RETURN 'x;": "Lex at byte 17", " /* open": "Lex at byte 1"}.items():
            with self.subTest(text=text):
                status, output, errors = self.tool("graphq-shell", "--manifest", PEOPLE, text=text, cwd=TOP)
                refusal, said = output.splitlines()[-2:]
                self.assertEqual((status, refusal, errors), (1, f"error: {wanted}", ""))
                self.assertIn("that begins here does not end", said)

    def test_bytes_that_are_no_text(self) -> None:
        """What is no UTF-8 goes to graphq as it is, and the session goes on behind it."""
        done = subprocess.run(
            [TOOLS / "graphq-shell", "--manifest", PEOPLE, "--mode", "plain"],
            input=b"MATCH (a) RETURN '\xff';MATCH (p {id: 2}) RETURN p.name;",
            capture_output=True,
            cwd=TOP,
            check=False,
        )
        shown = [
            b"MATCH (a) RETURN '\\xff'",
            b"                  ^",
            b"hint: the byte here is no UTF-8: write the text in UTF-8",
        ]
        self.assertEqual((done.returncode, done.stderr.splitlines()), (1, shown))
        self.assertEqual(done.stdout.splitlines(), [b"error: Lex at byte 18", b"p.name", b"'Bob'", b"rows 1"])

    def test_tables_carets_and_status(self) -> None:
        text = (
            "MATCH (p:Person)\nRETURN p.name AS n, p.age ORDER BY p.id;\nMATCH (p:Person\n  RETURN p;\n"
            ".mode csv\nMATCH (p {id: 2}) RETURN p, p.name, p.age"
        )
        status, output, _ = self.tool("graphq-shell", "--manifest", TOP / PEOPLE, text=text, cwd=TOP)
        self.assertEqual(status, 1)
        self.assertEqual(
            output.splitlines(),
            [
                "n     | p.age",
                "------+------",
                "'Ann' |    30",
                "'Bob' |  null",
                "'Cy'  |    25",
                "(3 rows)",
                "  RETURN p",
                "  ^",
                "error: Syntax at byte 19",
                "hint: a ( before this place has no )",
                "p,p.name,p.age",
                "(Person 2),Bob,",
            ],
        )

    def test_plain_is_what_the_program_writes(self) -> None:
        text = (TOP / "examples/metro/tour.cypher").read_text()
        _, output, _ = self.tool("graphq-shell", "--manifest", METRO, "--mode", "plain", text=text, cwd=TOP)
        self.assertEqual(output, ask(METRO, text)[1])

    def test_places_at_the_end(self) -> None:
        """They are those of the program, whatever stands after the last word: white space there counts."""
        for text in (
            "MATCH (p)",
            "MATCH (p)\n",
            "MATCH (p);",
            "MATCH (p) // end\n;",
            "MATCH (p) ;\n",
            "\n\nMATCH (p)\n\n",
        ):
            with self.subTest(text=text):
                _, output, _ = self.tool("graphq-shell", "--manifest", METRO, "--mode", "plain", text=text, cwd=TOP)
                self.assertEqual(output, ask(METRO, text)[1])
                self.write("f", text)
                read = f".read {self.folder}/f"
                _, output, _ = self.tool("graphq-shell", "--manifest", METRO, "--mode", "plain", text=read, cwd=TOP)
                self.assertEqual(output, ask(METRO, text)[1])

    def test_load_that_is_refused(self) -> None:
        status, _, errors = self.tool("graphq-shell", "--manifest", "none")
        line, said = errors.splitlines()
        self.assertEqual((status, line), (3, "graphq-shell: load: NoFile none"))
        self.assertTrue(said.startswith("hint: there is no manifest of this name"), said)

    def test_long_statement(self) -> None:
        text = f"MATCH (a) RETURN '{'x' * 65_536}';MATCH (p {{id: 1}}) RETURN p.id;"
        status, output, _ = self.tool("graphq-shell", "--manifest", PEOPLE, text=text, cwd=TOP)
        self.assertEqual(status, 1)
        self.assertEqual(output.splitlines()[0], "a statement has at most 65,536 bytes")
        self.assertEqual(output.splitlines()[-1], "(1 row)")

    def test_other_commands(self) -> None:
        self.write("s.cypher", "MATCH (p {id: 1}) RETURN p.name;")
        text = f".read {self.folder}/s.cypher\n.nothing\n.mode loud\n.quit\n:schema;\n"
        status, output, _ = self.tool("graphq-shell", "--manifest", PEOPLE, "--mode", "csv", text=text, cwd=TOP)
        wanted = [
            "p.name",
            "Ann",
            ".nothing: there is no such command; .help has them",
            ".mode is one of table, plain, csv, json, markdown",
        ]
        self.assertEqual((status, output.splitlines()), (1, wanted))


class Commands(ToolTest):
    """What the shell does itself."""

    def asked(self, text: str, *words: str, manifest: str = PEOPLE) -> tuple[int, list[str], str]:
        status, output, errors = self.tool("graphq-shell", "--manifest", manifest, *words, text=text, cwd=TOP)
        return status, output.splitlines(), errors

    def test_json(self) -> None:
        text = "MATCH (p:Person {id: 1})-[r:LIVES_IN]->(c) RETURN p, r, c, p.name AS n, p.age > 3 AS b, null AS x;"
        status, output, errors = self.asked(text, "--mode", "json")
        wanted = {
            "p": {"labels": ["Person"], "key": 1},
            "r": {"type": "LIVES_IN", "table": 1, "number": 0},
            "c": {"labels": ["City"], "key": "X"},
            "n": "Ann",
            "b": True,
            "x": None,
        }
        self.assertEqual((status, json.loads("\n".join(output)), errors), (0, [wanted], ""))
        for query, rows in {"MATCH (p:Person) RETURN p.id": 3, "MATCH (x:Person {id: 9}) RETURN x": 0}.items():
            self.assertEqual(len(json.loads("\n".join(self.asked(query, "--mode", "json")[1]))), rows)

    def test_markdown(self) -> None:
        _, output, _ = self.asked("MATCH (p:Person) RETURN p.name AS `a|b`, p.age ORDER BY p.id", "--mode", "markdown")
        rows = ["| a\\|b | p.age |", "| --- | ---: |", "| 'Ann' | 30 |", "| 'Bob' | null |", "| 'Cy' | 25 |"]
        self.assertEqual(output, rows)

    def test_output(self) -> None:
        text = (
            f".output {self.folder}/a.csv\n.mode csv\nMATCH (p {{id: 2}}) RETURN p.name;\nMATCH (a) RETURN b;\n"
            f".output\nMATCH (p {{id: 1}}) RETURN p.name;\n.output {self.folder}/none/a\n.output {self.folder}\n"
        )
        status, output, errors = self.asked(text)
        wanted = ["error: UnknownVariable b", "p.name", "Ann"]
        wanted += [f".output {self.folder}/none/a: there is no such folder", f".output {self.folder}: it is a folder"]
        self.assertEqual((status, output), (1, wanted))
        self.assertIn("no pattern has the name b", errors)
        self.assertEqual((self.folder / "a.csv").read_text(), "p.name\nBob\n")

    def test_read(self) -> None:
        """A file may have commands, another file, and a last statement without its end."""
        self.write("inner", "MATCH (p {id: 2}) RETURN p.name;\n.mode plain\n")
        self.write("outer", f".mode csv\n.read {self.folder}/inner\nMATCH (p {{id: 1}})\nRETURN p.name")
        self.write("round", f".read {self.folder}/round\n")
        self.write("bytes", b"\xff")
        names = ("outer", "none", "bytes", "round")
        status, output, _ = self.asked(
            "".join(f".read {self.folder}/{name}\n" for name in names) + f".read {self.folder}\n.read"
        )
        wanted = ["p.name", "Bob", "p.name", "'Ann'", "rows 1"]
        wanted += [f".read {self.folder}/none: there is no file of this name"]
        wanted += [f".read {self.folder}/bytes: the file is not UTF-8"]
        wanted += [f".read {self.folder}/round: 16 files read one another already"]
        wanted += [f".read {self.folder}: it is a folder", ".read needs the name of a file"]
        self.assertEqual((status, output), (1, wanted))

    def test_words_without_an_end(self) -> None:
        """What everybody types is what is meant, with a ; or without one."""
        for typed in ("exit", "quit", ":exit;", ".quit", "exit;"):
            self.assertEqual(self.asked(f"{typed}\nMATCH (a) RETURN b;"), (0, [], ""), typed)
        for typed in ("help", "?", ":help", ".help", "HELP;"):
            self.assertEqual(self.asked(f"{typed}\n")[1], HELP.splitlines(), typed)
        for typed in (":schema\n", ":schema;\n", ".schema\n", ":schema"):
            self.assertEqual(self.asked(typed)[1], ask(PEOPLE, ":schema;")[1].splitlines(), typed)
        _, output, _ = self.asked(":param x 1;:param `a b` 'c\\'d e';:param x $x;\n:params\n")
        self.assertEqual(output[3:], [":param x 1;", ":param `a b` 'c\\'d e';"])

    def test_control_characters(self) -> None:
        """In tables they cannot move a terminal; csv and json have them as they are."""
        self.write("n.csv", "id:int,t:string\n1,a\x1b[2Jb\x07\u009bc\u202ed\n".encode())
        self.write("g.manifest", f"node N {self.folder}/n.csv\n")
        query = "MATCH (n) RETURN n.t;"
        manifest = str(self.folder / "g.manifest")
        self.assertEqual(self.asked(query, manifest=manifest)[1][2], "'a\\x1b[2Jb\\x07\\x9bc\\u202ed'")
        shown = self.asked(query, "--mode", "markdown", manifest=manifest)[1][2]
        self.assertEqual(shown, "| 'a\\x1b[2Jb\\x07\\x9bc\\u202ed' |")
        raw = "a\x1b[2Jb\x07\u009bc\u202ed"
        self.assertEqual(self.asked(query, "--mode", "csv", manifest=manifest)[1][1], raw)
        self.assertEqual(
            json.loads("\n".join(self.asked(query, "--mode", "json", manifest=manifest)[1])), [{"n.t": raw}]
        )
        self.assertEqual(visible("é京\u200d"), "é京\u200d")

    def test_memory(self) -> None:
        """The status is the program's, and so is the line on which of the two wants it was; the session goes on."""
        sorted_by = ", ".join(["t"] * 18)
        big = f"MATCH (p:Person) RETURN '{'x' * 60_000}' AS t ORDER BY {sorted_by};"
        status, output, errors = self.asked(
            f":param i 1;\n{big}\nMATCH (p {{id: $i}}) RETURN p.name;\n", "--mode", "csv"
        )
        self.assertEqual((status, output), (6, ["param i 1", "error: Memory", "p.name", "Ann"]))
        told, said = errors.splitlines()
        self.assertEqual(said, "graphq: a statement asks for more work, or more memory, than one statement may take")
        self.assertTrue(told.startswith("hint: the statement asks for more work or memory than one may take"), told)

    def test_files_that_become_others(self) -> None:
        """Where the graph is loaded again and refused, it is said with its hint, and the next statement tries again."""
        self.write("n.csv", "id:int\n1\n")
        self.write("g.manifest", f"node N {self.folder}/n.csv\n")
        manifest = str(self.folder / "g.manifest")
        session = Session(PROGRAM, ["--manifest", manifest])
        shell = Shell(session, manifest, PipedLines(), False, Settings())
        with contextlib.redirect_stdout(io.StringIO()) as shown:
            shell.answer("MATCH (n) RETURN n.id")
            self.write("n.csv", "id:int\n1\n1\n")
            session.stop()
            shell.answer("MATCH (n) RETURN n.id")
            self.write("n.csv", "id:int\n7\n")
            shell.answer("MATCH (n) RETURN n.id")
            session.stop()
        lines = shown.getvalue().splitlines()
        self.assertEqual(lines[4], f"load: KeyRepeated {self.folder}/n.csv record 3")
        self.assertEqual(lines[5], "graphq ended with status 3")
        self.assertEqual(lines[6], "hint: the key '1' stands in record 2 already: keys of a table differ")
        self.assertEqual(lines[9].strip(), "7")

    def test_hints(self) -> None:
        """They stand with the answers where somebody reads these, and aside where a program does."""
        text = "MATCH (l:Lina) RETURN l;MATCH (a) RETURN b;"
        note, why = "hint: no table has the label Lina", "hint: no pattern has the name b: the names are a"
        status, output, errors = self.asked(text)
        self.assertEqual((status, errors), (1, ""))
        self.assertEqual([line for line in output if line.startswith("hint")], [note, why])
        for mode in ("csv", "json", "plain"):
            status, output, errors = self.asked(text, "--mode", mode)
            self.assertEqual([line for line in output if line.startswith("hint")], [], mode)
            self.assertEqual([line for line in errors.splitlines() if line.startswith("hint")], [note, why], mode)


class Terminal:
    """A shell at a pseudo-terminal."""

    def __init__(self, test: ToolTest, *words: str, more: dict[str, str] | None = None) -> None:
        # Nobody here answers where the cursor stands, which prompt_toolkit would ask.
        own = {"TERM": "xterm", "PROMPT_TOOLKIT_NO_CPR": "1", "PAGER": "cat", "XDG_STATE_HOME": str(test.folder)}
        environment = {**os.environ, **own, **(more or {})}
        try:
            self._end, other = pty.openpty()
        except OSError as error:
            raise unittest.SkipTest("this machine has no pseudo-terminals") from error
        termios.tcsetwinsize(other, (40, 160))
        self._seen = ""
        self.process = subprocess.Popen(
            [TOOLS / "graphq-shell", *words],
            stdin=other,
            stdout=other,
            stderr=other,
            cwd=TOP,
            env=environment,
            start_new_session=True,
            preexec_fn=lambda: fcntl.ioctl(0, termios.TIOCSCTTY, 0),
        )
        os.close(other)
        test.addCleanup(self.close)

    def close(self) -> None:
        self.process.kill()
        self.process.wait()
        os.close(self._end)

    def until(self, wanted: str, seconds: float = 60) -> str:
        """Waits for a text; gives what came up to it."""
        end = time.monotonic() + seconds
        while wanted not in self._seen:
            if not select.select([self._end], [], [], max(0, end - time.monotonic()))[0]:
                raise AssertionError(f"{wanted!r} did not come, but {self._seen!r}")
            try:
                self._seen += re.sub(r"\x1b\[[0-9;?]*[A-Za-z]", "", os.read(self._end, 65_536).decode(errors="replace"))
            except OSError as error:
                raise AssertionError(f"the shell ended after {self._seen!r}") from error
        came, _, self._seen = self._seen.partition(wanted)
        return came

    def type(self, text: str) -> None:
        os.write(self._end, text.encode())


@needs_module("prompt_toolkit")
class AtTerminal(ToolTest):
    def test_answer_stop_and_go_on(self) -> None:
        """Six patterns over 35 stations have 1,838,265,625 matches, which keep the program busy until Ctrl-C."""
        terminal = Terminal(self, "--manifest", METRO)
        terminal.until("6 labels and 6 types")
        terminal.until("graphq>")
        terminal.type("MATCH (s:Stat\t")
        terminal.until("Station")
        terminal.type(" {code: 'CEN'})\r")
        terminal.until("...>")
        terminal.type("RETURN s.name;\r")
        terminal.until("'Central'")
        terminal.until("(1 row)")
        terminal.until("time ")
        terminal.until("graphq>")
        # A statement of several lines is recalled whole, and is edited as a whole.
        terminal.type("\x1b[A")
        terminal.until("{code: 'CEN'})")
        terminal.until("RETURN s.name;")
        terminal.type("\r")
        terminal.until("(1 row)")
        terminal.until("graphq>")
        terminal.type(":param code 'CAS';\r")
        terminal.until("param code 'CAS'")
        terminal.until("graphq>")
        nodes = ", ".join(f"(n{number}:Station)" for number in range(6))
        terminal.type(f"MATCH {nodes} WHERE n0.zone + n1.zone + n2.zone + n3.zone + n4.zone + n5.zone = 99 RETURN 1;\r")
        # It says how long it has been, from its second second on.
        terminal.until("| answering ")
        terminal.until(" s; Ctrl-C stops it")
        terminal.type("\x03")
        terminal.until("stopped after")
        terminal.until("graphq>")
        # The program is another one now, and knows the parameter all the same.
        terminal.type("MATCH (s:Station {code: $code}) RETURN s.name;\r")
        terminal.until("'Castle'")
        terminal.until("time ")
        terminal.until("graphq>")
        terminal.type("\x04")
        self.assertEqual(terminal.process.wait(60), 0)
        history = (self.folder / "graphq/history").read_text()
        self.assertIn("+MATCH (s:Station {code: 'CEN'})\n+RETURN s.name;", history)

    def test_stopped_while_typing(self) -> None:
        terminal = Terminal(self, "--manifest", PEOPLE)
        terminal.until("graphq>")
        terminal.type("MATCH (p)\r")
        terminal.until("until ; ...>")
        terminal.type("WHERE p.name = '\r")
        terminal.until("until ' ...>")
        terminal.type("\x03")
        terminal.until("graphq>")
        terminal.type("MATCH (p:Person {id: 2}) RETURN p.name;\r")
        terminal.until("'Bob'")
        terminal.until("time ")
        terminal.until("graphq>")
        for typed, wanted in (
            (":schema\r", "LIVES_IN Person City"),
            (":params\r", "no parameter has a value"),
            ("help\r", "A statement ends with ;"),
            ("?\r", "A statement ends with ;"),
            ("MATCH (l:Persn) RETURN l;\r", "hint: no table has the label Persn; Person?"),
        ):
            terminal.type(typed)
            terminal.until(wanted)
            terminal.until("graphq>")
        terminal.type("exit\r")
        self.assertEqual(terminal.process.wait(60), 0)

    def test_no_memory(self) -> None:
        """The program's word on it comes at once, and the session goes on with its parameters."""
        columns = ", ".join(["t"] * 18)
        big = self.write("big", f"MATCH (p:Person) RETURN '{'x' * 60_000}' AS t ORDER BY {columns}")
        terminal = Terminal(self, "--manifest", PEOPLE)
        terminal.until("graphq>")
        terminal.type(":param i 3;\r")
        terminal.until("param i 3")
        terminal.until("graphq>")
        terminal.type(f".read {big}\r")
        terminal.until("error: Memory")
        terminal.until("graphq: a statement asks for more work, or more memory, than one statement may take")
        terminal.until("hint: the statement asks for more work or memory than one may take")
        terminal.until("graphq>")
        terminal.type("MATCH (p:Person {id: $i}) RETURN p.name;\r")
        terminal.until("'Cy'")


class ByReadline(ToolTest):
    def test_no_place_for_a_history(self) -> None:
        for without in (True, False):
            with self.subTest(without=without):
                self.write("without/prompt_toolkit.py", "raise ImportError\n")
                more = {"XDG_STATE_HOME": "/dev/null", "TERM": "dumb"}
                more |= {"PYTHONPATH": str(self.folder / "without")} if without else {}
                terminal = Terminal(self, "--manifest", PEOPLE, more=more)
                terminal.until("graphq>")
                time.sleep(0.5)
                terminal.type("MATCH (p:Person {id: 2}) RETURN p.name;\r")
                terminal.until("'Bob'")

    def test_completion_history_and_stop(self) -> None:
        """Without prompt_toolkit a line is edited by readline."""
        self.write("without/prompt_toolkit.py", "raise ImportError\n")
        more = {"PYTHONPATH": str(self.folder / "without"), "TERM": "dumb"}
        terminal = Terminal(self, "--manifest", METRO, more=more)
        terminal.until("graphq>")
        terminal.type("MATCH (s:Stat\t")
        terminal.until("Station")
        terminal.type(" {code: 'CEN'}) RETURN s.name;\r")
        terminal.until("'Central'")
        terminal.until("graphq>")
        terminal.type("MATCH (s:Station {code: 'AIR'})\r")
        terminal.until("until ; ...>")
        terminal.type("RETURN s.name;\r")
        terminal.until("'Airport'")
        terminal.until("graphq>")
        terminal.type("\x1b[A")
        terminal.until("MATCH (s:Station {code: 'AIR'}) RETURN s.name;")
        terminal.type("\r")
        terminal.until("'Airport'")
        terminal.until("graphq>")
        terminal.type("MATCH (s '\r")
        terminal.until("until ' ...>")
        # readline shows the prompt before it waits, and a Ctrl-C in between is seen with the next key.
        time.sleep(0.5)
        terminal.type("\x03")
        terminal.until("graphq>")
        terminal.type("MATCH (s:Station {code: 'CAS'}) RETURN s.name;\r")
        terminal.until("'Castle'")
        terminal.until("graphq>")
        terminal.type("\x04")
        self.assertEqual(terminal.process.wait(60), 0)
        self.assertIn("RETURN s.name;", (self.folder / "graphq/history").read_text())
