"""bench/trails: the graphs are what they are said to be, networkx answers as graphq does, and each answer has a time or a word."""

from __future__ import annotations

import random
import sys
from collections import Counter
from pathlib import Path

from .support import TOP, ToolTest, ask, needs_module

sys.path.append(str(TOP / "bench"))

from parts import graphs, trails  # noqa: E402
from parts.contest import Contest, Program  # noqa: E402
from parts.judge import Judge  # noqa: E402
from parts.queries import Query  # noqa: E402
from parts.session import Session, Stopped  # noqa: E402


def pairs(path: Path) -> list[tuple[int, int]]:
    """The ends of the relationships of a file."""
    lines = path.read_text().splitlines()[1:]
    return [(int(source), int(target)) for source, target in (line.split(",") for line in lines)]


class Graphs(ToolTest):
    def test_imports(self) -> None:
        """The first module is imported by thousands; the same seed gives the same imports, and another one others."""
        made = []
        for name, seed in (("one", 1), ("again", 1), ("other", 2)):
            graphs.make("imports", 12_000, str(self.folder / name), seed)
            made.append(pairs(self.folder / name / "imports.csv"))
        self.assertEqual([len(one) for one in made], [43_219] * 3)
        self.assertTrue(made[0] == made[1] != made[2])
        (module, most), *others = Counter(target for _, target in made[0]).most_common()
        self.assertEqual(module, 1)
        self.assertGreater(most, 2000)
        self.assertGreater(len(others), 8000)

    def test_hubs(self) -> None:
        """Fifty ways of two relationships lead from each hub to the next."""
        graphs.make("hubs", 3000, str(self.folder / "g"))
        made = pairs(self.folder / "g/leads.csv")
        out, into = (Counter(ends).most_common(3) for ends in zip(*made))
        self.assertEqual(out, [(1, 999), (1001, 999), (2001, 999)])
        self.assertEqual(into[:2], [(1001, 50), (2001, 50)])


@needs_module("networkx")
class Networkx(ToolTest):
    def test_answers_are_those_of_graphq(self) -> None:
        """Over a few nodes with loops and parallel relationships, where trails come back to where they begin."""
        from parts.by_networkx import JOBS, read

        chance = random.Random(3)
        self.write("module.csv", "id:int\n1\n2\n3\n4\n")
        self.write("g.manifest", "node Module module.csv\nrel IMPORTS Module Module many_many imports.csv\n")
        for case in range(20):
            ends = [f"{chance.randint(1, 4)},{chance.randint(1, 4)}\n" for _ in range(6)]
            imports = self.write("imports.csv", "from,to\n" + "".join(ends))
            graph = read(str(self.folder / "module.csv"), str(imports), "against")
            questions = trails.questions("imports", str(self.folder))
            self.assertEqual([question.name for question in questions], list(trails.NAMES))
            for question in questions:
                with self.subTest(case=case, question=question.name):
                    rows = ["\t".join(map(str, row)) for row in JOBS[question.name](graph, *question.numbers)]
                    reply = ask("g.manifest", question.text + ";", self.folder)[1].splitlines()
                    self.assertEqual([*sorted(rows), f"rows {len(rows)}"], [*sorted(reply[1:-1]), reply[-1]])
                    self.assertEqual(reply[0], question.header())


class Answering(Session):
    """A program that has one reply, or none, and takes no time."""

    def __init__(self, reply: str | None) -> None:
        self.reply, self.limit, self.loads_made = reply, 5, 1

    def measure(self, query: Query, copies: int = 1, out: str = "/dev/null") -> float:
        if self.reply is None:
            raise Stopped("timeout")
        Path(out).write_text(self.reply)
        return 0.01

    def again(self) -> None:
        self.loads_made += 1

    def peak(self) -> float:
        return 1

    def forget_peak(self) -> None:
        pass


class Lines(Judge):
    """A judge for whom the lines of a reply are its hash."""

    def __init__(self) -> None:
        super().__init__("", "", "", "")

    def bag(self, query: Query, path: str, sql: bool = False) -> list[str]:
        rows = Path(path).read_text().splitlines()[1:-1]
        return [str(len(rows)), " ".join(sorted(rows)), " ".join(rows)]


class Outcomes(ToolTest):
    def test_a_time_or_a_word(self) -> None:
        """Only the answer of the C++ has a time; the order of rows does not count, and who does not end loads anew."""
        replies = {"C++": "b\n1\n2\nrows 2\n", "same": "b\n2\n1\nrows 2\n", "fewer": "b\n1\nrows 1\n", "other": "b\n1\n3\nrows 2\n",
                   "header": "c\n1\n2\nrows 2\n", "refused": "error: Memory\n", "slow": None}  # fmt: skip
        sessions = {name: Answering(reply) for name, reply in replies.items()}
        programs = [Program(name, one, one, str(self.folder / name)) for name, one in sessions.items()]
        outcome = Contest(programs, Lines(), 3).ask(Query("q", "", "MATCH (a)-->(b) RETURN b", "", "i"))
        self.assertEqual(outcome.rows, 2)
        self.assertEqual(outcome.seconds, {"C++": 0.01, "same": 0.01})
        self.assertEqual(outcome.words, {
            "fewer": "WRONG: 1 rows, not 2", "other": "WRONG: other rows", "header": "WRONG: its header is 'c\\n'",
            "refused": "error: Memory", "slow": "not in 5 s"})  # fmt: skip
        outcome = Contest([programs[-1], *programs[:-1]], Lines(), 3).ask(Query("q", "", "MATCH (a)-->(b) RETURN b", "", "i"))
        self.assertEqual((outcome.rows, outcome.seconds, outcome.words["same"]), (None, {}, "not compared"))
        self.assertEqual({name: one.loads_made for name, one in sessions.items()}, {**dict.fromkeys(replies, 1), "slow": 3})
