"""What the tests share: the program under their questions, the tools as a user calls them, and listings of graphs."""

from __future__ import annotations

import contextlib
import importlib
import importlib.util
import io
import os
import shutil
import subprocess
import tempfile
import unittest
from collections.abc import Callable, Sequence
from pathlib import Path
from typing import Any, TypeVar
from unittest import mock

from graphq_tools.__main__ import MAINS
from graphq_tools.manifest import read_manifest
from graphq_tools.outcome import run
from graphq_tools.packages import package_of

TOP = Path(__file__).resolve().parent.parent.parent
TOOLS = TOP / "tools"
METRO = "examples/metro/metro.manifest"
PEOPLE = "examples/people/people.manifest"
PROGRAM = os.environ["GRAPHQ"]


Tests = TypeVar("Tests", bound=Callable[..., Any] | type)


def needs_module(module: str) -> Callable[[Tests], Tests]:
    """A decorator: the tests need a Python module, and are skipped without it, with the name of its package."""
    return unittest.skipUnless(importlib.util.find_spec(module), f"the package {package_of(module)} is missing")


def needs_program(program: str) -> Callable[[Tests], Tests]:
    """A decorator: the tests need a program, and are skipped without it, with the name of its package."""
    return unittest.skipUnless(shutil.which(program), f"the package {package_of(program)} is missing")


def ask(manifest: str | Path, text: str, cwd: Path = TOP, words: Sequence[str] = ()) -> tuple[int, str]:
    """The status of the program, with these words more, and what it writes for a text."""
    command = [PROGRAM, "--manifest", str(manifest), *words]
    done = subprocess.run(command, input=text.encode(), capture_output=True, cwd=cwd, check=False)
    return done.returncode, done.stdout.decode()


def knows_several_labels() -> bool:
    """Whether the program takes a manifest with several labels for a table."""
    with tempfile.TemporaryDirectory() as folder:
        Path(folder, "n.csv").write_text("id:int\n1\n")
        Path(folder, "g.manifest").write_text("node A:B n.csv\n")
        return ask("g.manifest", "", Path(folder))[0] == 0


def listing(manifest: str | Path, cwd: Path = TOP) -> str:
    """Every row of every table of a graph, as the program tells them."""
    with contextlib.chdir(cwd):
        graph = read_manifest(str(manifest))
    statements = []
    for node in sorted(graph.nodes, key=lambda table: table.word):
        columns = ", ".join(f"n.{field.name}" for field in node.fields)
        statements.append(f"MATCH (n:{node.word}) RETURN n, {columns} ORDER BY n.{node.key.name};")
    for rel in sorted(graph.rels, key=lambda table: (table.type, table.source, table.target)):
        columns = ", ".join(["r", "a", "b", *(f"r.{field.name}" for field in rel.fields)])
        statements.append(f"MATCH (a:{rel.source})-[r:{rel.type}]->(b:{rel.target}) RETURN {columns} ORDER BY r;")
    status, text = ask(manifest, "\n".join(statements), cwd)
    return f"status {status}\n{text}"


def schema(manifest: str | Path, cwd: Path = TOP) -> list[str]:
    """The lines of the reply to `:schema`, sorted."""
    return sorted(ask(manifest, ":schema;", cwd)[1].splitlines())


class ToolTest(unittest.TestCase):
    """A test with a folder of its own, in which tools run."""

    maxDiff = None

    def setUp(self) -> None:
        self._folder = tempfile.TemporaryDirectory()
        self.addCleanup(self._folder.cleanup)
        self.folder = Path(self._folder.name)

    def write(self, name: str, text: str | bytes) -> Path:
        """Makes a file in the test's folder."""
        path = self.folder / name
        path.parent.mkdir(parents=True, exist_ok=True)
        path.write_bytes(text if isinstance(text, bytes) else text.encode())
        return path

    def tool(self, name: str, *words: str | Path, text: str = "", cwd: Path | None = None) -> tuple[int, str, str]:
        """The status of a tool, its output and what it says on standard error. It runs in this process."""
        main = importlib.import_module(f"graphq_tools.{MAINS[name.removeprefix('graphq-')]}").main
        streams = [io.TextIOWrapper(io.BytesIO(), encoding="utf-8", write_through=True) for _ in range(2)]
        with (
            contextlib.chdir(cwd or self.folder),
            contextlib.redirect_stdout(streams[0]),
            contextlib.redirect_stderr(streams[1]),
            mock.patch("sys.argv", [name, *map(str, words)]),
            mock.patch("sys.stdin", io.StringIO(text)),
        ):
            try:
                status = run(name, main)
            except SystemExit as end:
                # So argparse ends.
                status = int(end.code or 0)
        output, errors = (stream.buffer.getvalue().decode() for stream in streams)  # type: ignore[attr-defined]
        return status, output, errors

    def call(self, name: str, *words: str | Path, text: str = "") -> tuple[int, str, str]:
        """The same by the executable, as a user calls it."""
        done = subprocess.run(
            [TOOLS / name, *map(str, words)], input=text.encode(), capture_output=True, cwd=self.folder, check=False
        )
        return done.returncode, done.stdout.decode(), done.stderr.decode()

    def done(self, name: str, *words: str | Path, text: str = "", cwd: Path | None = None) -> str:
        """The output of a tool that ends with 0."""
        status, output, errors = self.tool(name, *words, text=text, cwd=cwd)
        self.assertEqual((status, errors), (0, ""))
        return output

    def refused(self, status: int, line: str, name: str, *words: str | Path, text: str = "") -> None:
        """Holds where a tool ends with this status, says this one line, and leaves no folder g behind."""
        ended, _, errors = self.tool(name, *words, text=text)
        self.assertEqual((ended, errors), (status, f"{name}: {line}\n"))
        self.assertEqual([path.name for path in self.folder.iterdir() if path.is_dir()], [])
