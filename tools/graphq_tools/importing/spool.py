"""The rows of one table while it grows: spooled to a file, since its columns are known at its end alone."""

from __future__ import annotations

import csv
import shutil
from collections.abc import Iterable, Sequence
from dataclasses import dataclass, field
from pathlib import Path
from typing import IO

from ..csvfile import row_writer
from ..model import MOST_FIELDS, MOST_FILE_BYTES, Field
from ..outcome import Refusal, Status, writing
from .kinds import Treatment


@dataclass(frozen=True)
class Property:
    """A property that a file of the input has: its plain name, what is done with it, and what a row without it has."""

    name: str
    treatment: Treatment
    default: str = ""


@dataclass
class Column:
    """A property of a table: its kind, what a row without it has, and which parts of the input have it."""

    name: str
    kind: str
    unit: str | None
    default: str = ""
    notes: list[str] = field(default_factory=list)
    parts: set[int] = field(default_factory=set)

    def meet(self, other: Treatment) -> None:
        """Takes in that another file declares the property too. Integers of two units cannot stand in one column."""
        if self.unit != other.unit:
            units = f"{self.unit or self.kind} in one file, and {other.unit or other.kind} in another"
            raise ValueError(f"{self.name} would have values of two units: {units}")
        if self.kind != other.kind:
            self.notes.append(f"{self.kind} in one file and {other.kind} in another, as its text")
            self.kind = "string"
        if other.note and other.note not in self.notes:
            self.notes.append(other.note)


class Spool:
    """Rows of a table: some leading cells, a key or two ends, and then a cell for each property, empty for null."""

    def __init__(self, path: Path, leading: int) -> None:
        self.columns: list[Column] = []
        self.rows = 0
        self._leading = leading
        self._places: dict[str, int] = {}
        self._unfilled: set[int] = set()
        self._even = True
        self._path = path
        with writing(path):
            self._stream = open(path, "w", encoding="utf-8", newline="")
        self._write = row_writer(self._stream)

    def place(self, properties: Iterable[Property], part: int) -> list[int]:
        """Where in a row the values of a part of the input stand that has these properties; new columns are made."""
        return [self._column(one, part) for one in properties]

    def _column(self, one: Property, part: int) -> int:
        place = self._places.get(one.name)
        if place is None:
            if len(self.columns) == MOST_FIELDS:
                raise ValueError(f"{one.name} is the property after the {MOST_FIELDS} that a table has at most")
            place = len(self.columns)
            notes = [one.treatment.note] if one.treatment.note else []
            self.columns.append(Column(one.name, one.treatment.kind, one.treatment.unit, one.default, notes))
            self._places[one.name] = place
            self._unfilled.add(place)
            self._even = self._even and self.rows == 0
        else:
            self.columns[place].meet(one.treatment)
        self.columns[place].parts.add(part)
        return place

    def add(self, leading: Sequence[str], places: Sequence[int], cells: Sequence[str]) -> list[str]:
        """Adds a row, and gives its cells in the order of the columns."""
        ordered = [column.default for column in self.columns]
        for place, cell in zip(places, cells, strict=True):
            ordered[place] = cell
        if self._unfilled:
            self._unfilled -= {place for place in self._unfilled if ordered[place]}
        try:
            self._write([*leading, *ordered])
        except OSError as error:
            raise Refusal(f"{self._path}: {error.strerror}", Status.CANNOT_WRITE) from error
        self.rows += 1
        return ordered

    def unused(self, shared: Iterable[int]) -> set[int]:
        """The columns without any value that come from one of these parts of the input."""
        parts = set(shared)
        return {place for place in self._unfilled if self.columns[place].parts & parts}

    def finish(self, target: Path, header: Sequence[str], dropped: set[int]) -> list[Field]:
        """Writes the table's file, with these fields in front of its header and without the dropped cells of a row.

        `dropped` counts the cells of a row from its front, the leading ones too. Gives the fields of the properties.
        """
        kept = [place for place in range(len(self.columns)) if place + self._leading not in dropped]
        fields = [Field(self.columns[place].name, self.columns[place].kind) for place in kept]
        with writing(target), open(target, "w", encoding="utf-8", newline="") as stream:
            self._stream.close()
            row_writer(stream)([*header, *map(str, fields)])
            with open(self._path, encoding="utf-8", newline="") as spooled:
                if self._even and not dropped:
                    shutil.copyfileobj(spooled, stream, 1 << 20)
                else:
                    self._rewrite(spooled, stream, dropped)
            self._path.unlink()
        size = target.stat().st_size
        if size > MOST_FILE_BYTES:
            raise Refusal(f"{target.name}: it would have {size:,} bytes, and graphq takes {MOST_FILE_BYTES:,}")
        return fields

    def _rewrite(self, spooled: Iterable[str], stream: IO[str], dropped: set[int]) -> None:
        """Copies the rows: short ones get their last cells, and the dropped cells go."""
        rest = [*[""] * self._leading, *(column.default for column in self.columns)]
        kept = [place for place in range(len(rest)) if place not in dropped]
        write = row_writer(stream)
        for row in csv.reader(spooled):
            row += rest[len(row) :]
            write([row[place] for place in kept])

    def close(self) -> None:
        """Closes the file of the rows."""
        self._stream.close()
