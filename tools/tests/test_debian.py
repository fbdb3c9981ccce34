"""The example of Debian's packages: what is made of the lists, and the answers of its extract."""

from __future__ import annotations

import subprocess
from pathlib import Path

from .support import TOOLS, TOP, ToolTest, ask

DEBIAN = TOP / "examples/debian"
LISTS = """\
Package: a
Source: s (1.0)
Version: 1:2-3
Installed-Size: 20
Maintainer: "Doe, Jo" <jo@example.org>
Architecture: all
Essential: yes
Provides: v (= 2), w
Pre-Depends: b (>= 1.0~) [amd64]
Depends: c:any | d | v, b
Recommends: e
Description: does a thing
 and more of it
Section: x
Priority: optional
Size: 100

Package: b
Version: 1
Maintainer: Jo
Section: y
Suggests: a
Depends: v | nowhere
"""


class Make(ToolTest):
    def make(self, *words: str) -> int:
        self.write("lists", LISTS)
        command: list[str | Path] = [TOOLS / "python", DEBIAN / "make", "--out", "g", "--lists", "lists", *words]
        return subprocess.run(command, cwd=self.folder, capture_output=True, check=False).returncode

    def text(self, name: str) -> list[str]:
        return (self.folder / "g" / name).read_text().splitlines()[1:]

    def test_all(self) -> None:
        """v is provided and no package; c, d, e and nowhere are named alone."""
        self.assertEqual(self.make(), 0)
        self.assertEqual(
            self.text("package.csv"),
            [
                "a,real,1:2-3,all,optional,true,20,100,does a thing",
                "b,real,1,,,,,,",
                "c,missing,,,,,,,",
                "d,missing,,,,,,,",
                "e,missing,,,,,,,",
                "nowhere,missing,,,,,,,",
                "v,virtual,,,,,,,",
                "w,virtual,,,,,,,",
            ],
        )
        self.assertEqual(
            self.text("depends.csv"),
            [
                "a,b,true,>= 1.0~,",
                "a,c,false,,1",
                "a,d,false,,1",
                "a,v,false,,1",
                "a,b,false,,",
                "b,v,false,,1",
                "b,nowhere,false,,1",
            ],
        )
        self.assertEqual(self.text("built_from.csv"), ["a,s", "b,b"])
        self.assertEqual(self.text("maintained_by.csv"), ['a,"Doe, Jo"', "b,Jo"])
        self.assertEqual(self.text("provides.csv"), ["a,v", "a,w"])
        query = "MATCH (p)-[d:DEPENDS {pre: true}]->(q)-[:SUGGESTS]->(p) RETURN p, d.version;"
        self.assertEqual(
            ask("g/g.manifest", query, self.folder), (0, "p\td.version\n(Package 'a')\t'>= 1.0~'\nrows 1\n")
        )

    def test_section(self) -> None:
        """Section y has b, which names a, v and nowhere; c, d, e and w are out, and so is what leads to them."""
        self.assertEqual(self.make("--section", "y"), 0)
        names = [line.split(",")[0] for line in self.text("package.csv")]
        self.assertEqual(names, ["a", "b", "nowhere", "v"])
        self.assertEqual(
            self.text("depends.csv"),
            ["a,b,true,>= 1.0~,", "a,v,false,,1", "a,b,false,,", "b,v,false,,1", "b,nowhere,false,,1"],
        )

    def test_statuses(self) -> None:
        self.assertEqual(self.make("--section", "none"), 3)
        self.assertEqual(self.make("--lists", "none"), 4)
        self.write("bad", "x: y\n")
        self.assertEqual(self.make("--lists", "bad"), 3)


class Extract(ToolTest):
    def test_answers_are_those_of_sqlite3(self) -> None:
        done = subprocess.run([TOOLS / "python", DEBIAN / "answers"], capture_output=True, check=False)
        self.assertEqual((done.returncode, done.stderr), (0, b""))

    def test_graphq_answers_the_same(self) -> None:
        questions = sorted((DEBIAN / "questions").glob("*.cypher"))
        self.assertEqual(len(questions), 12)
        for question in questions:
            with self.subTest(question=question.stem):
                wanted = question.with_suffix(".expected").read_text()
                self.assertEqual(ask("examples/debian/debian.manifest", question.read_text()), (0, wanted))
