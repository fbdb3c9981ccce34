"""Text files and CSV files: opened, also compressed, with a progress bar on long ones, and read with their lines."""

from __future__ import annotations

import contextlib
import csv
import gzip
import io
import os
import sys
import zlib
from collections.abc import Callable, Iterable, Iterator
from pathlib import Path
from typing import IO, Any

from .outcome import BadRow, reading

# From how many bytes on a file gets a progress bar.
LONG_FILE = 50_000_000

csv.field_size_limit(2**31 - 1)


class _Counted(io.RawIOBase):
    """A file that tells a progress bar how far it was read."""

    def __init__(self, raw: IO[bytes], bar: Any) -> None:
        self._raw = raw
        self._bar = bar

    def readable(self) -> bool:
        return True

    def readinto(self, buffer: Any) -> int:
        count: int = self._raw.readinto(buffer)  # type: ignore[attr-defined]
        self._bar.update(count)
        return count


def _bar(path: Path, size: int) -> Any | None:
    """A progress bar for a long file, where somebody looks and tqdm is there."""
    if size < LONG_FILE or not sys.stderr.isatty():
        return None
    try:
        from tqdm import tqdm
    except ImportError:
        return None
    return tqdm(total=size, unit="B", unit_scale=True, desc=path.name, leave=False)


@contextlib.contextmanager
def _decompressing(path: Path) -> Iterator[None]:
    """What goes wrong inside with gzip is the file's fault, and not the system's."""
    try:
        yield
    except (gzip.BadGzipFile, EOFError, zlib.error) as error:
        raise BadRow(path, 1, f"it is not what gzip writes: {error}") from error


@contextlib.contextmanager
def open_bytes(path: str | os.PathLike[str]) -> Iterator[IO[bytes]]:
    """Opens a file for reading, through gzip where its name ends with `.gz`."""
    place = Path(path)
    with contextlib.ExitStack() as stack:
        stack.enter_context(reading(place))
        stack.enter_context(_decompressing(place))
        raw: Any = stack.enter_context(open(place, "rb", buffering=0))
        bar = _bar(place, os.fstat(raw.fileno()).st_size)
        if bar is not None:
            raw = _Counted(raw, stack.enter_context(contextlib.closing(bar)))
        stream: Any = io.BufferedReader(raw, 1 << 20)
        if place.suffix == ".gz":
            stream = stack.enter_context(gzip.GzipFile(fileobj=stream))
        yield stream


def _bad_line(path: str | os.PathLike[str]) -> int:
    """The first line of a file that is not UTF-8, counted from 1."""
    with open_bytes(path) as stream:
        for number, line in enumerate(stream, 1):
            try:
                line.decode("utf-8")
            except UnicodeDecodeError:
                return number
    return 1


def not_utf8(path: str | os.PathLike[str], name: str | None = None) -> BadRow:
    """The refusal of a file that is not UTF-8, with its line and the name that the user knows it by."""
    return BadRow(name or path, _bad_line(path), "it is not UTF-8")


@contextlib.contextmanager
def open_text(path: str | os.PathLike[str]) -> Iterator[IO[str]]:
    """Opens a file of UTF-8, without a byte order mark at its front, with its line ends as they are."""
    try:
        with open_bytes(path) as stream:
            yield io.TextIOWrapper(stream, encoding="utf-8-sig", newline="")
    except UnicodeDecodeError as error:
        raise not_utf8(path) from error


def row_writer(stream: IO[str]) -> Callable[[Iterable[str]], object]:
    """What writes a row as a line of CSV that ends with LF.

    A field is quoted where it holds a character of the line's end as the writer knows it: so that is CR LF, since a CR
    alone would end a record for most readers, and what is written loses its CR again.
    """

    class _Lines:
        def write(self, line: str) -> None:
            stream.write(line[:-2] + "\n")

    return csv.writer(_Lines(), lineterminator="\r\n").writerow


def records(
    path: str | os.PathLike[str], delimiter: str = ",", quote: str = '"', escape: str | None = None
) -> Iterator[tuple[int, list[str]]]:
    """The records of a CSV file, each with the line that it begins at. An empty line is no record."""
    with open_text(path) as stream:
        reader = csv.reader(
            stream,
            delimiter=delimiter,
            quotechar=quote,
            doublequote=escape in (None, quote),
            escapechar=None if escape == quote else escape,
            strict=True,
        )
        begin = 1
        while True:
            try:
                record = next(reader, None)
            except csv.Error as error:
                raise BadRow(path, begin, f"it is no CSV: {error}") from error
            if record is None:
                return
            if record:
                yield begin, record
            begin = reader.line_num + 1
