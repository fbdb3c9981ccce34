"""Asks a program random statements over random graphs, and compares its replies."""

from __future__ import annotations

import subprocess
import tempfile
import time
from collections.abc import Iterator
from dataclasses import dataclass, field
from itertools import count
from pathlib import Path
from random import Random

from .errors import TooMuch
from .graph import read_graph
from .random_graphs import MANIFEST, random_graph
from .random_statements import Writer
from .replies import Permitted, Settings
from .session import Session, statements_of
from .transcripts import replies_of

ORDERS = ("given", "greedy", "least")
FEW_ROWS = (3, 8, 20)
STATEMENTS = 40
# Where lists are long each statement takes as long as several of the others.
FEW_STATEMENTS = 10
LONG = 1_000
PATIENCE = 120.0


@dataclass(frozen=True)
class Question:
    """A statement with the `:param` statements that it stands on, and what is permitted to it."""

    text: bytes
    parameters: list[bytes]
    permitted: Permitted


@dataclass(frozen=True)
class Round:
    """The statements of one session over one graph."""

    name: str
    files: dict[str, str]
    settings: Settings
    questions: list[Question]

    @property
    def words(self) -> list[str]:
        """The arguments after the program's name."""
        settings = ["--order", self.settings.order, "--rows", str(self.settings.rows)]
        return ["--manifest", MANIFEST, *settings]


@dataclass
class Tally:
    """How many statements were compared, what was said to each, and the differences."""

    statements: int = 0
    kinds: dict[str, int] = field(default_factory=dict)
    differences: int = 0

    def add(self, reply: list[str]) -> None:
        """Counts a reply by its kind."""
        kind = "other answers"
        if reply and reply[0].startswith("error: "):
            words = reply[0].split()
            kind = " ".join(words[: 3 if words[1] == "Fault" else 2])
        elif reply and reply[-1].startswith("rows "):
            kind = "no rows" if reply[-1] == "rows 0" else "rows"
        self.statements += 1
        self.kinds[kind] = self.kinds.get(kind, 0) + 1


def rounds(seed: int, first: int, most: int | None, seconds: float | None) -> Iterator[Round]:
    """The rounds of a seed from the first on, so many or as long as there is time."""
    end = None if seconds is None else time.monotonic() + seconds
    for number in count(first):
        if most is not None and number >= first + most:
            return
        if end is not None and time.monotonic() >= end:
            return
        yield round_of(seed, number)


def round_of(seed: int, number: int) -> Round:
    """One round; the same for the same seed and number."""
    random = Random(f"{seed} {number}")
    files = random_graph(random)
    rows = random.choice(FEW_ROWS) if random.random() < 0.4 else Settings().rows
    settings = Settings(random.choice(ORDERS), rows)
    session = Session(read_graph(files[MANIFEST], files), settings)
    is_long = len(session.graph.all_nodes) > LONG
    texts = [Writer(random).statement() for _ in range(FEW_STATEMENTS if is_long else STATEMENTS)]
    questions = list(questions_of(session, ";\n".join(texts).encode()))
    return Round(f"seed {seed} round {number}", files, settings, questions)


def questions_of(session: Session, source: bytes) -> Iterator[Question]:
    """The statements of an input that have a reply, without those with too much to look through."""
    parameters: list[bytes] = []
    for text in statements_of(source):
        before = dict(session.parameters)
        try:
            permitted = session.permitted(text)
        except TooMuch:
            continue
        if permitted is not None:
            yield Question(text, list(parameters), permitted)
        if session.parameters != before:
            parameters.append(text)


def differences(program: Path, one: Round, tally: Tally) -> Iterator[str]:
    """Asks a program the statements of a round, and tells each difference."""
    source = b";".join(question.text for question in one.questions)
    with tempfile.TemporaryDirectory() as folder:
        for name, text in one.files.items():
            Path(folder, name).write_text(text, encoding="utf8", newline="")
        try:
            done = subprocess.run(
                [program, *one.words],
                input=source,
                capture_output=True,
                cwd=folder,
                timeout=PATIENCE,
                check=False,
            )
        except subprocess.TimeoutExpired:
            tally.differences += 1
            yield report(one, source, [], f"the program takes more than {PATIENCE:.0f} seconds")
            return
    output = done.stdout.decode(errors="backslashreplace")
    replies = replies_of(output, [question.permitted for question in one.questions])
    for question, reply in zip(one.questions, replies, strict=True):
        tally.add(reply)
        objection = question.permitted.objection(reply)
        if objection is not None:
            tally.differences += 1
            asked = b";".join([*question.parameters, question.text])
            yield report(one, asked, reply, objection, question.permitted)
    wanted = int(any(reply and reply[0].startswith("error: ") for reply in replies))
    if done.returncode != wanted:
        tally.differences += 1
        errors = done.stderr.decode(errors="backslashreplace").splitlines()
        yield report(one, source, errors, f"the status is {done.returncode}, and not {wanted}")


def report(
    one: Round,
    source: bytes,
    reply: list[str],
    objection: str,
    permitted: Permitted | None = None,
) -> str:
    """A difference, with all that is needed to repeat it."""
    lines = [f"DIFFERS {one.name}: {objection}"]
    for name, text in one.files.items():
        lines += [f"file {name}", *indented(text.splitlines())]
    lines += [f"words {' '.join(one.words)}", "input"]
    lines += indented((source.decode(errors="backslashreplace") + ";").split("\n"))
    lines += ["reply", *indented(reply)]
    if permitted is not None:
        lines += ["permitted", *indented(permitted.lines())]
    return "\n".join(lines)


def indented(lines: list[str]) -> list[str]:
    """Lines that stand four blanks further in."""
    return [f"    {line}" for line in lines]
