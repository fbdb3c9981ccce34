#!/usr/bin/env python3
"""Has each call of a program graphq fail in turn: each allocation, and each allocation from one on, each opening of a file,
each read and each write, also where reads and writes move few bytes at once.

    bench/refuse.py PROGRAM

Each run has to end with the status of what failed, and to have written a front of what it writes when nothing fails; where an
allocation failed, replies may be `error: Memory` in place of themselves, or nothing is written, and standard error says that
there was not enough memory. It prints how many runs of each
kind were made, and those that did otherwise, and ends with 1 where there is one. It needs a C compiler, and a program that is
linked to its C library when it starts."""
import argparse
import os
import re
import subprocess
import sys
import tempfile
from collections.abc import Callable, Iterator

HERE = os.path.dirname(os.path.realpath(__file__))
GRAPH = os.path.join(HERE, "..", "crates", "graphq", "data")
KINDS = ["allocate", "open", "read", "write"]
MEMORY = "error: Memory\n"
EXHAUSTED = "graphq: there was not enough memory\n"
OVER_GRAPH = ["--manifest", "g.manifest", "--rows", "8"]
SESSION = [
    "MATCH (p:Person) RETURN p.name ORDER BY p.age DESC",
    "MATCH (a)-[:KNOWS]->(b), (c:City) WHERE c.pop > 1 RETURN a.id, c.code ORDER BY a.id",
    "MATCH (a)-[:LIVES_IN]->(c) WHERE a.age > 20 AND c.pop > 1 RETURN a.name, c.code ORDER BY a.name",
    ":schema",
    ":plan MATCH (a)-[:KNOWS]->(b), (c)-[:KNOWS]->(b) RETURN a.id, c.id",
    "MATCH (p) RETURN q",
    "MATCH (p RETURN p",
    "MATCH (p:Person) RETURN 1/(p.age-30)",
    "MATCH (n) RETURN DISTINCT n.pop ORDER BY n.pop",
    "MATCH (a)-[r]-(b) RETURN r, a, b ORDER BY r, a, b SKIP 1 LIMIT 3",
    "MATCH (p:Person) WHERE p.age IN [30, null] RETURN p.name, coalesce(p.age, 0)",
    "MATCH (a:Person),(b:Person) RETURN a.id",
    "MATCH (p {id: 1}) RETURN p.id LIMIT 1",
    ":profile MATCH (a)-[:KNOWS]->(b), (c)-[:KNOWS]->(b) RETURN a.id, c.id ORDER BY a.id, c.id",
    ":param name 'Ann'",
]

# The status of a run, its output and what it says on standard error.
Run = tuple[int, str, str]


class Tried:
    """One use of a program: its words and its input."""

    def __init__(self, name: str, program: str, room: str, words: list[str], text: str) -> None:
        self.name, self.program, self.room, self.words, self.text = name, program, room, words, text
        self.whole = self.run()
        self.counts = dict(zip(KINDS, self.counted()))
        self.odd: list[tuple[object, ...]] = []

    def run(self, **how: str | int) -> Run:
        environment = {"LD_PRELOAD": os.path.join(self.room, "refuse.so"), "COUNTS": os.path.join(self.room, "counts")}
        environment.update({name: str(value) for name, value in how.items()})
        done = subprocess.run([self.program, *self.words], input=self.text.encode(), capture_output=True, cwd=GRAPH,
                              env=environment, timeout=60, check=False)
        return done.returncode, done.stdout.decode(), done.stderr.decode()

    def counted(self) -> Iterator[int]:
        with open(os.path.join(self.room, "counts"), encoding="utf8") as file:
            return map(int, file.read().split())

    def fails(self, kind: str, right: Callable[[Run], bool], every: bool = False, **how: int) -> None:
        """One run for each call of a kind that fails, alone or with each after it."""
        self.run(**how)
        calls = dict(zip(KINDS, self.counted()))[kind]
        for call in range(1, calls + 1):
            got = self.run(FAIL=kind, FROM=call, TO=calls if every else call, **how)
            if not right(got):
                self.odd.append((kind, call, every, how, got))
        said = ", and each after it" if every else "".join(f", bytes at once: {count}" for count in how.values())
        if calls:
            print(f"{self.name}: {kind}{said}: {calls} runs", flush=True)

    def try_all(self, replies: list[str]) -> None:
        """Each kind, over a use whose output is these replies."""
        text = self.whole[1]
        assert text == "".join(replies), text

        def front(status: int) -> Callable[[Run], bool]:
            return lambda got: got[0] == status and text.startswith(got[1])

        self.fails("allocate", lambda got: self.remembers(got, replies))
        self.fails("allocate", lambda got: self.remembers(got, replies), every=True)
        self.fails("open", front(4))
        several: list[dict[str, int]] = [{}, {"PIECE": 7}, {"PIECE": 1}]
        for how in several:
            if self.run(**how) != self.whole:
                self.odd.append(("pieces", how))
            self.fails("read", front(4), False, **how)
            self.fails("write", front(5), False, **how)

    def remembers(self, got: Run, replies: list[str]) -> bool:
        """Whether a run in which memory was refused did nothing, or wrote each reply or that there was no memory for it."""
        status, text, said = got
        if status == 6 and said != EXHAUSTED:
            return False
        if status == 6 and not text:
            return True
        refused = False
        for reply in replies:
            if not text.startswith(reply):
                reply, refused = MEMORY, True
            if not text.startswith(reply):
                return False
            text = text[len(reply):]
        return not text and status == (6 if refused else self.whole[0])


def uses(program: str, room: str) -> Iterator[tuple[Tried, list[str]]]:
    """The uses that are tried, each with its replies."""
    text = ""
    replies: list[str] = []
    for statement in SESSION:
        before = Tried("", program, room, OVER_GRAPH, text).whole[1]
        text += ("\n" if text else "") + statement + ";"
        replies.append(Tried("", program, room, OVER_GRAPH, text).whole[1][len(before):])
    # What is left after the last `;` is white space, which has no reply, whatever is refused.
    yield Tried("a session", program, room, OVER_GRAPH, text + "\n"), replies
    sample = Tried("the sample", program, room, ["--sample", "4"], "")
    yield sample, [part for part in re.split(r"(?m)^(Q\d\n)", sample.whole[1]) if part]
    others: dict[str, list[str]] = {"the usage line": [], "a file that is not there": ["--manifest", "h"]}
    for name, words in others.items():
        use = Tried(name, program, room, words, "")
        yield use, [use.whole[1]]


def main() -> None:
    parser = argparse.ArgumentParser(prog="bench/refuse.py", description=__doc__,
                                     formatter_class=argparse.RawDescriptionHelpFormatter)
    parser.add_argument("program", metavar="PROGRAM")
    program = os.path.realpath(parser.parse_args().program)
    if not os.access(program, os.X_OK):
        parser.error(f"there is no program {program}")
    odd: list[tuple[object, ...]] = []
    with tempfile.TemporaryDirectory() as room:
        source = os.path.join(HERE, "tools", "refuse.c")
        subprocess.run(["cc", "-O1", "-shared", "-fPIC", "-o", os.path.join(room, "refuse.so"), source, "-ldl"], check=True)
        for use, replies in uses(program, room):
            use.try_all(replies)
            odd += [(use.name, *found) for found in use.odd]
    for found in odd[:20]:
        print("otherwise:", *found)
    print(f"{len(odd)} runs did otherwise")
    sys.exit(1 if odd else 0)


if __name__ == "__main__":
    main()
