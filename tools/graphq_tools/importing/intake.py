"""What every form of input shares: the graph that is built, the names that are made plain, and what was asked for."""

from __future__ import annotations

import argparse
import os
from collections.abc import Iterator
from dataclasses import dataclass, field
from pathlib import Path

from ..names import Names, is_plain
from ..outcome import Refusal, Refusals, Status, at_line
from .builder import Builder, TooManyTables
from .graph_files import GraphFiles
from .kinds import Choices, treatment
from .labels import Labels, asked_labels
from .spool import Property
from .tables import Tables

# So many refusals of a file are said at once.
MOST_REFUSALS = 20


@dataclass
class Complaints:
    """What cannot be taken of a file, which is said at once at its end, or where there is too much of it."""

    most: int = MOST_REFUSALS
    _refused: list[Refusal] = field(default_factory=list)

    def add(self, refusal: Refusal) -> None:
        """Notes a refusal. What is no fault of the graph ends the import at once."""
        if refusal.status != Status.BAD_GRAPH:
            raise refusal
        self._refused.append(refusal)
        if len(self._refused) == self.most:
            self.say(f"these are the first {self.most} refusals, and there may be more")

    def say(self, last: str | None = None) -> None:
        """Refuses the graph, where something was refused."""
        if self._refused:
            raise Refusals(self._refused, last)

    def __bool__(self) -> bool:
        return bool(self._refused)


@dataclass
class Intake:
    """A graph on its way in: record by record through its builder, or in blocks of rows through its tables."""

    files: GraphFiles
    builder: Builder
    tables: Tables
    choices: Choices
    labels: Names
    types: Names
    properties: Names
    label: str = "Node"
    type: str = "LINK"
    parts: int = 0
    told: list[str] = field(default_factory=list)
    met: set[str] = field(default_factory=set)
    complaints: Complaints = field(default_factory=Complaints)
    kept: Labels = field(default_factory=Labels)

    def part(self) -> int:
        """The number of the next part of the input."""
        self.parts += 1
        return self.parts

    def property(self, name: str, family: str, origin: str) -> Property | None:
        """What becomes of a property, or None where it is left out. See `kinds.treatment`."""
        plain = self.properties.plain(name)
        self.met.add(plain)
        done = treatment(plain, family, origin, self.choices)
        if done is None:
            note = f"{plain}: left out, as asked"
            if note not in self.told:
                self.told.append(note)
            return None
        return Property(plain, done)

    def refuse(self, file: str | os.PathLike[str], line: int, error: ValueError | Refusal, table: str) -> None:
        """Notes what is wrong with a line of a file. Where the graph has no room for more tables, it is said at once."""
        self.complaints.add(at_line(file, line, error, table))
        if isinstance(error, TooManyTables):
            self.complaints.say()

    def close(self) -> None:
        """Closes the files of rows."""
        self.builder.close()
        self.tables.close()

    def finish(self, place: str) -> list[str]:
        """Writes the graph, whose files are at `place`; gives the summaries of its tables."""
        nodes = [*self.builder.grown_nodes(), *self.tables.grown_nodes()]
        return self.files.finish(place, nodes, [*self.builder.grown_rels(), *self.tables.grown_rels()])

    def notes(self) -> list[str]:
        """What was done with names and properties, a sentence each."""
        changes = [change for names in (self.labels, self.types, self.properties) for change in names.changes()]
        asked = {*self.choices.scaled, *self.choices.dropped, *self.choices.as_text}
        unknown = [
            f"{name}: there is no such property to scale, drop or take the text of" for name in sorted(asked - self.met)
        ]
        return list(dict.fromkeys([*changes, *self.told, *self.files.notes, *unknown]))


def checked(records: Iterator[tuple[int, list[str]]], intake: Intake) -> Iterator[tuple[int, list[str]]]:
    """The records of a file; where the file cannot be read on, that is said with what was refused before."""
    try:
        yield from records
    except Refusal as refusal:
        intake.complaints.add(refusal)
        intake.complaints.say()


def renames(words: list[str]) -> dict[str, str]:
    """Reads `OLD=NEW` words."""
    renamed = {}
    for word in words:
        old, sign, new = word.rpartition("=")
        if not sign or not is_plain(new):
            raise Refusal(f"--rename {word}: it is OLD=NEW, where NEW is letters, digits and _", Status.BAD_WORDS)
        renamed[old] = new
    return renamed


def intake(folder: Path, choices: Choices, words: argparse.Namespace) -> Intake:
    """An intake into a folder by the words of the command line."""
    renamed = renames(words.rename)
    for option, name in (("--label", words.label), ("--type", words.type)):
        if not is_plain(name):
            raise Refusal(f"{option} {name}: it is letters, digits and _", Status.BAD_WORDS)
    labels, types, properties = (Names(what, renamed) for what in ("the label", "the type", "the property"))
    files = GraphFiles(folder)
    builder, tables = Builder(files, choices.strict, choices.both), Tables(files, choices.strict, choices.both)
    kept = asked_labels(getattr(words, "labels", None))
    return Intake(
        files, builder, tables, choices, labels, types, properties, words.label, words.type, kept=kept
    )
