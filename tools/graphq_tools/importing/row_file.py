"""The file of a table while its rows come: they are spooled in blocks, and the header goes before them at the end."""

from __future__ import annotations

import csv
import io
import shutil
from collections.abc import Iterable, Sequence
from pathlib import Path

from ..csvfile import row_writer
from ..model import MOST_FILE_BYTES, Field
from ..outcome import Refusal, writing
from .blocks import Block


class RowFile:
    """Rows of CSV as graphq reads them."""

    def __init__(self, path: Path) -> None:
        self.rows = 0
        self._path = path
        with writing(path):
            self._stream = open(path, "wb")

    def add_raw(self, block: Block) -> bool:
        """Adds the rows of a block as they stand there, where it has their text."""
        if block.raw is not None:
            self.rows += block.rows
            with writing(self._path):
                self._stream.write(block.raw)
        return block.raw is not None

    def add(self, columns: Sequence[Sequence[str]], block: Block) -> None:
        """Adds rows by their columns, which are made of those of a block."""
        self.rows += len(columns[0])
        with writing(self._path):
            self._stream.write(_text_of(columns, block).encode())

    def finish(self, target: Path, header: Iterable[str | Field]) -> None:
        """Writes the table's file."""
        with writing(target):
            self._stream.close()
            with open(target, "wb") as stream, open(self._path, "rb") as spooled:
                stream.write((",".join(map(str, header)) + "\n").encode())
                shutil.copyfileobj(spooled, stream, 1 << 22)
            self._path.unlink()
        size = target.stat().st_size
        if size > MOST_FILE_BYTES:
            raise Refusal(f"{target.name}: it would have {size:,} bytes, and graphq takes {MOST_FILE_BYTES:,}")

    def close(self) -> None:
        """Closes the file of the rows."""
        self._stream.close()


def _text_of(columns: Sequence[Sequence[str]], block: Block) -> str:
    rows = zip(*columns, strict=True)
    if block.plain:
        return "\n".join(map(",".join, rows)) + "\n" if columns[0] else ""
    text = io.StringIO()
    if block.returns:
        write = row_writer(text)
        for row in rows:
            write(row)
    else:
        csv.writer(text, lineterminator="\n").writerows(rows)
    return text.getvalue()
