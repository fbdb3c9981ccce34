"""The tools on a PATH, by links from another folder."""

from __future__ import annotations

import os
import shutil
import subprocess
from pathlib import Path
from unittest import mock

from graphq_tools.outcome import typed

from .support import PEOPLE, PROGRAM, TOOLS, TOP, ToolTest

NAMES = ["graphq", "graphq-draw", "graphq-export", "graphq-import", "graphq-shell"]


class Install(ToolTest):
    def run_in(self, command: str, path: Path | None = None, cwd: Path | None = None) -> tuple[int, str, str]:
        """What a command of a shell ends with, with a folder in front of the PATH."""
        before = f"{path}:" if path else ""
        environment = {**os.environ, "PATH": f"{before}{os.environ['PATH']}", "GRAPHQ": PROGRAM}
        done = subprocess.run(
            ["sh", "-c", command], env=environment, cwd=cwd or self.folder, capture_output=True, text=True, check=False
        )
        return done.returncode, done.stdout, done.stderr

    def test_links(self) -> None:
        place = self.folder / "prefix"
        status, output, errors = self.run_in(f"{TOOLS}/install {place}")
        self.assertEqual((status, errors), (0, ""))
        self.assertIn(f'{place}/bin is not on the PATH: export PATH="{place}/bin:$PATH"', output)
        self.assertEqual(sorted(path.name for path in (place / "bin").iterdir()), NAMES)
        again = self.run_in(f"{TOOLS}/install {place}", place / "bin")
        self.assertEqual((again[0], len(again[1].splitlines()), again[2]), (0, 1, ""))
        for name in NAMES[1:]:
            self.assertEqual(self.run_in(f"{name} --help", place / "bin")[0], 0, name)
        answer = self.run_in(
            f"echo 'MATCH (p {{id: 2}}) RETURN p.name;' | graphq-shell --mode csv --manifest {PEOPLE}",
            place / "bin",
            TOP,
        )
        self.assertEqual(answer, (0, "p.name\nBob\n", ""))
        self.assertEqual(self.run_in(f"{TOOLS}/install --remove {place}")[0], 0)
        self.assertEqual(list((place / "bin").iterdir()), [])

    def test_link_to_a_link(self) -> None:
        """Whatever leads there, the sources are found; and the wrapper of the program runs one that is of them."""
        (self.folder / "far").symlink_to(TOOLS / "graphq-draw")
        (self.folder / "farther").symlink_to("far")
        self.assertEqual(self.run_in("./farther --help")[0], 0)

    def test_what_is_there_already(self) -> None:
        self.write("prefix/bin/graphq", "mine")
        status, _, errors = self.run_in(f"{TOOLS}/install prefix")
        self.assertEqual(status, 5)
        self.assertIn(f"{self.folder.resolve()}/prefix/bin/graphq is there already and is another one", errors)
        self.assertEqual((self.folder / "prefix/bin/graphq").read_text(), "mine")

    def test_arguments(self) -> None:
        for words in ("", "a b", "--help", "--remove"):
            status, _, errors = self.run_in(f"{TOOLS}/install {words}")
            self.assertEqual(status, 2, words)
            self.assertIn("tools/install PREFIX", errors)

    def test_what_import_says_to_type_next(self) -> None:
        """It is typed as it is said: beside the import that ran, and by its name where the PATH has it."""
        self.write("n.csv", "id:ID\na\n")
        place = self.folder / "prefix"
        self.run_in(f"{TOOLS}/install {place}")
        (self.folder / "tools").symlink_to(TOOLS)
        for out, tool, path in (
            ("g1", "tools/graphq-import", None),
            ("g2", f"{TOOLS}/graphq-import", None),
            ("g3", "graphq-import", place / "bin"),
            ("g4", f"{place}/bin/graphq-import", None),
        ):
            with self.subTest(tool=tool):
                status, output, _ = self.run_in(f"{tool} neo4j n.csv --out {out}", path)
                self.assertEqual(status, 0)
                said = output.splitlines()[-1].removeprefix("ask it: ")
                self.assertTrue(said.endswith(f"graphq-shell --manifest {out}/{out}.manifest"), said)
                self.assertEqual(said.startswith("graphq-shell"), path is not None)
                answer = self.run_in(f"echo 'MATCH (n) RETURN n.id;' | {said} --mode csv", path)
                self.assertEqual(answer, (0, "n.id\na\n", ""))

    def test_tools_of_an_environment(self) -> None:
        """A tool that pip installed says the one beside it, and its name alone where the PATH finds that."""
        for name in ("graphq-import", "graphq-shell"):
            self.write(f"venv/bin/{name}", "#!/bin/sh\n").chmod(0o755)
        place = self.folder / "venv/bin"
        without = {name: value for name, value in os.environ.items() if name != "GRAPHQ_CALLED"}
        with mock.patch("sys.argv", [f"{place}/graphq-import"]), mock.patch.dict(os.environ, without, clear=True):
            self.assertEqual(typed("graphq-shell"), f"{place}/graphq-shell")
            with mock.patch.dict(os.environ, {"PATH": f"{place}:{os.environ['PATH']}"}):
                self.assertEqual(typed("graphq-shell"), "graphq-shell")


class Wrapper(ToolTest):
    def test_sources_that_were_edited_and_no_rt(self) -> None:
        """The wrapper says that the released program can be called directly."""
        here = self.folder / "clone"
        (here / "release").mkdir(parents=True)
        (here / "graphq").write_bytes((TOP / "graphq").read_bytes())
        (here / "release/make").write_text("#!/bin/sh\nexit 1\n")
        for path in (here / "graphq", here / "release/make"):
            path.chmod(0o755)
        # A PATH without rt, wherever that is on this machine.
        (self.folder / "bin").mkdir()
        for name in ("sh", "dirname", "readlink"):
            (self.folder / "bin" / name).symlink_to(shutil.which(name) or name)
        environment = {"PATH": str(self.folder / "bin")}
        done = subprocess.run([here / "graphq"], env=environment, capture_output=True, text=True, check=False)
        self.assertEqual((done.returncode, done.stdout), (69, ""))
        self.assertIn(f"{here}/release/graphq is the released program, and can be called directly", done.stderr)
