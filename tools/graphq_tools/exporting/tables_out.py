"""CSV files of another system, written from the tables of a graph."""

from __future__ import annotations

from collections.abc import Iterable, Sequence
from pathlib import Path

from ..csvfile import row_writer
from ..model import Field
from ..outcome import writing


def write_csv(path: Path, header: Sequence[str] | None, rows: Iterable[Sequence[str]]) -> bool:
    """Writes a file; null is an empty field without quotes. Gives whether a field has a line end in it."""
    broken = False
    with writing(path), open(path, "w", encoding="utf-8", newline="") as stream:
        write = row_writer(stream)
        if header is not None:
            write(header)
        for row in rows:
            write(row)
            broken = broken or any("\n" in cell or "\r" in cell for cell in row)
    return broken


def write_text(path: Path, text: str) -> None:
    """Writes a file of text."""
    with writing(path):
        path.write_text(text, encoding="utf-8", newline="\n")


def union(tables: Iterable[Sequence[Field]]) -> list[Field]:
    """The fields of several tables, each name once; where its kinds differ, it is a string."""
    kinds: dict[str, str] = {}
    for fields in tables:
        for one in fields:
            kinds[one.name] = one.kind if kinds.get(one.name, one.kind) == one.kind else "string"
    return [Field(name, kind) for name, kind in kinds.items()]


def spread(
    rows: Iterable[Sequence[str]], leading: int, fields: Sequence[Field], wide: Sequence[Field]
) -> Iterable[list[str]]:
    """Rows over some fields as rows over more of them; the leading cells stay."""
    place = {field.name: leading + number for number, field in enumerate(fields)}
    order = [place.get(field.name) for field in wide]
    for row in rows:
        yield [*row[:leading], *("" if at is None else row[at] for at in order)]
