"""The executables, as a user calls them: help, statuses, and no traceback."""

from __future__ import annotations

import os
import subprocess
import sys
from pathlib import Path

from .support import METRO, PEOPLE, PROGRAM, TOOLS, TOP, ToolTest

NAMES = ("graphq-import", "graphq-export", "graphq-draw", "graphq-shell")


class Executables(ToolTest):
    def test_help(self) -> None:
        for name in NAMES:
            with self.subTest(name=name):
                status, output, errors = self.call(name, "--help")
                self.assertEqual((status, errors), (0, ""))
                self.assertIn("examples:\n", output)
                self.assertIn("exit status: ", output)
                self.assertTrue((TOP / f"docs/tools/{name}.md").is_file())

    def test_help_of_the_bench(self) -> None:
        """Every script of bench/, and the reading list, tells its arguments."""
        scripts = [path for path in (TOP / "bench").iterdir() if path.is_file() and path.read_bytes().startswith(b"#!")]
        self.assertGreater(len(scripts), 5)
        for script in [*scripts, TOP / "docs/reading.py"]:
            with self.subTest(script=script.name):
                done = subprocess.run(
                    [sys.executable, "-B", script, "--help"], capture_output=True, cwd=self.folder, check=False
                )
                self.assertEqual((done.returncode, done.stderr.decode()), (0, ""))
                self.assertTrue(done.stdout.startswith(b"usage: "), done.stdout[:80])

    def test_no_words(self) -> None:
        for name in NAMES:
            with self.subTest(name=name):
                status, _, errors = self.call(name)
                self.assertEqual(status, 2)
                self.assertTrue(errors.startswith(f"usage: {name}"))

    def test_refusal(self) -> None:
        self.write("n.csv", "id:ID\na\na\n")
        status, output, errors = self.call("graphq-import", "neo4j", "n.csv", "--out", "g")
        self.assertEqual(
            (status, output, errors), (3, "", "graphq-import: n.csv line 3 (Node): the id 'a' is there already\n")
        )

    def test_output_that_is_full(self) -> None:
        """No traceback where nobody can be told."""
        self.write("n.csv", "id:ID\na\n")
        with open("/dev/full", "w") as full:
            command: list[str | Path] = [TOOLS / "graphq-import", "neo4j", "n.csv", "--out", "g"]
            done = subprocess.run(command, stdout=full, stderr=subprocess.PIPE, cwd=self.folder, check=False)
        self.assertEqual((done.returncode, done.stderr), (5, b"graphq-import: [Errno 28] No space left on device\n"))

    def test_streams_that_are_closed(self) -> None:
        shell = f"{TOOLS}/graphq-shell --manifest {PEOPLE}"
        bad = b"graphq-shell: [Errno 9] Bad file descriptor\n"
        for command, wanted in {
            f"{shell} <&-": (0, b""),
            f"echo 'MATCH (a:City) RETURN a;' | {shell} >&-": (5, bad),
            f"{shell} <&- >&- 2>&-": (0, b""),
            f"echo 'MATCH (a:City) RETURN a;' | {shell} | true": (0, b""),
        }.items():
            with self.subTest(command=command):
                done = subprocess.run(["sh", "-c", command], cwd=TOP, capture_output=True, check=False)
                self.assertEqual((done.returncode, done.stderr), wanted)

    def test_shell_by_a_pipe(self) -> None:
        status, output, errors = self.call("graphq-shell", "--manifest", "none", "--program", "/nowhere")
        self.assertEqual((status, output), (69, ""))
        self.assertEqual(errors, "graphq-shell: /nowhere: there is no such program; --program names another\n")

    def test_program_behind_the_option(self) -> None:
        words = ("--manifest", TOP / METRO, "--dot", "--program", PROGRAM, ":plan MATCH (c:Company) RETURN c")
        environment = {name: value for name, value in os.environ.items() if name != "GRAPHQ"}
        done = subprocess.run(
            [TOOLS / "graphq-draw", *words], cwd=TOP, env=environment, capture_output=True, check=False
        )
        self.assertEqual((done.returncode, done.stderr), (0, b""))
        self.assertIn(b'label="scan c:Company"', done.stdout)
