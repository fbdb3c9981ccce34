"""Reads a file of records in blocks of some megabytes, each by its columns: what is done to a value is done to a block of them.

A block is cut by the string methods of Python, where each of its quotes is around a whole field, and else by the CSV reader.
Which line a record begins at is found by reading once more, where somebody wants to know.
"""

from __future__ import annotations

import contextlib
import csv
import io
import re
from collections.abc import Collection, Iterator, Sequence
from dataclasses import dataclass, field
from pathlib import Path
from typing import IO

from ..csvfile import not_utf8, open_bytes
from ..outcome import BadRow, Refusal, Status
from .naturals import Numbers, natural_columns, naturals
from .quoted import MARKS, QuotedText

# So many bytes are read at once.
BLOCK_BYTES = 1 << 21
BLANKS = "blanks"
_SEPARATORS = (",", ";", "\t", "|")
_BYTE_ORDER_MARK = b"\xef\xbb\xbf"
_BLANK_LINES = re.compile(rb"(?m)^\n+")
_RUNS = re.compile(rb"[ \t\v\f]+")


@dataclass(frozen=True)
class Form:
    """How a file is written: what is between fields (found where none is given), what begins a comment, if it has a header."""

    delimiter: str | None = None
    quote: str = '"'
    comments: str = "#%"
    header: bool = True


class Block:
    """Some records by their columns, the first of which has this number in the file, from 0.

    `raw` are the records as graphq reads them, fields with commas between and lines ended by LF, where they stand so in
    the file. `source` is the text that the columns are cut out of where somebody asks for them: with its delimiter, where
    no field is quoted. `plain` says that no cell has to be quoted, and `returns` that a cell may hold a CR. `numbers` are those of
    the records, where some are left out.
    """

    def __init__(
        self,
        first: int,
        columns: Sequence[Sequence[str]],
        plain: bool = False,
        returns: bool = False,
        numbers: Sequence[int] | None = None,
    ) -> None:
        self.first = first
        self.rows = len(columns[0]) if columns else 0
        self.width = len(columns)
        self.raw: bytes | None = None
        self.plain = plain
        self.returns = returns
        self.numbers = numbers
        self._columns: Sequence[Sequence[str]] | None = columns
        self.source: tuple[str, str] | QuotedText = "", ","
        self._naturals: list[Numbers] | None = None
        self._looked = False
        self._integers: dict[int, Numbers | None] = {}

    @classmethod
    def cut(cls, first: int, rows: int, width: int, text: str, delimiter: str, raw: bytes | None) -> Block:
        """A block whose text is cut into fields where somebody asks for them: the delimiter is between, and nothing quoted."""
        block = cls(first, [], raw is not None)
        block.rows, block.width, block.raw = rows, width, raw
        block._columns, block.source = None, (text, delimiter)
        return block

    @classmethod
    def quoted(cls, first: int, rows: int, width: int, text: QuotedText, raw: bytes | None) -> Block:
        """The same with some fields quoted."""
        block = cls(first, [])
        block.rows, block.width, block.raw = rows, width, raw
        block._columns, block.source, block._looked = None, text, True
        return block

    @property
    def columns(self) -> Sequence[Sequence[str]]:
        """The columns, with a text for each record."""
        if self._columns is None:
            if isinstance(self.source, QuotedText):
                self._columns = self.source.columns(self.width)
            else:
                text, delimiter = self.source
                cells = text.replace("\n", delimiter).split(delimiter)
                cells.pop()
                self._columns = [cells[place :: self.width] for place in range(self.width)]
        return self._columns

    def column(self, place: int) -> Sequence[str]:
        """One of the columns."""
        if self._columns is None and isinstance(self.source, QuotedText):
            return self.source.column(place, self.width)
        return self.columns[place]

    def naturals(self) -> list[Numbers] | None:
        """The columns as integers, where all fields are natural numbers without a sign or zeros in front, in a block as it is."""
        if not self._looked:
            self._looked = True
            self._naturals = natural_columns(self.raw, self.width) if self.raw else None
        return self._naturals

    def integers(self, place: int) -> Numbers | None:
        """One of the columns as integers, where all of its fields are such numbers."""
        whole = self.naturals()
        if whole is not None:
            return whole[place]
        if place not in self._integers:
            self._integers[place] = naturals(self.column(place))
        return self._integers[place]

    def with_columns(self, columns: Sequence[Sequence[str]], numbers: Sequence[int] | None = None) -> Block:
        """A block with other columns made of these, and with these numbers, where rows are left out."""
        return Block(self.first, columns, self.plain, self.returns, self.numbers if numbers is None else numbers)

    def number(self, row: int) -> int:
        """The number in the file of a row of this block."""
        return self.first + row if self.numbers is None else self.numbers[row]


@dataclass
class BadRecord:
    """A record that cannot be taken, and why."""

    number: int
    why: str


@dataclass
class _Chunk:
    """Bytes of whole records, with the number of bytes that are quotes."""

    data: bytes
    quotes: int


@dataclass
class Blocks:
    """A file of records: its header, and then its blocks. What cannot be taken is put into `bad`, and left out."""

    path: Path
    form: Form
    name: str = ""
    header: list[str] = field(default_factory=list)
    delimiter: str = ","
    bad: list[BadRecord] = field(default_factory=list)
    records: int = 0
    comments: int = 0

    def __post_init__(self) -> None:
        self.name = self.name or str(self.path)
        self._comment = _comment_lines(self.form.comments)

    def read_header(self) -> list[str]:
        """The header of the file."""
        with open_bytes(self.path) as stream:
            self._headed(_chunks(stream, self.form.quote.encode()))
        return self.header

    def read(self, width: int | None = None) -> Iterator[Block]:
        """The blocks of the file, from its front. Without a header the records have `width` fields."""
        self.records = self.comments = 0
        self.bad.clear()
        with open_bytes(self.path) as stream:
            chunks = _chunks(stream, self.form.quote.encode())
            if self.form.header:
                first = self._headed(chunks)
                yield from self._block(first, len(self.header))
            else:
                self.delimiter = self.form.delimiter or BLANKS
            for chunk in chunks:
                yield from self._block(chunk, width or len(self.header))

    def _headed(self, chunks: Iterator[_Chunk]) -> _Chunk:
        """Reads the header, and gives what stands after it in its chunk."""
        earlier = 0
        for chunk in chunks:
            text = chunk.data.decode("utf-8", "surrogateescape")
            lines = _Lines(text)
            for line in lines:
                if line.strip() and line[0] not in self.form.comments:
                    return self._header_at(text, lines.taken - len(line), earlier + lines.count)
            earlier += lines.count
        raise BadRow(self.name, 1, "there is no header")

    def _header_at(self, text: str, begin: int, number: int) -> _Chunk:
        """Reads the header that begins at a character and in a line, and gives what stands after it."""
        lines = _Lines(text[begin:])
        self.delimiter = self.form.delimiter or _found_separator(next(_Lines(text[begin:])), self.form.quote)
        try:
            self.header = [name.strip() for name in next(self._reader(lines))]
        except csv.Error as error:
            raise BadRow(self.name, number, f"it is no CSV: {error}") from error
        rest = text[begin + lines.taken :].encode("utf-8", "surrogateescape")
        return _Chunk(rest, rest.count(self.form.quote.encode()))

    def _reader(self, lines: Iterator[str]) -> Iterator[list[str]]:
        if self.delimiter == BLANKS:
            return (line.split() for line in lines)
        return csv.reader(lines, delimiter=self.delimiter, quotechar=self.form.quote, strict=True)

    def _block(self, chunk: _Chunk, width: int) -> Iterator[Block]:
        """The block of a chunk, by the quickest way that reads it right."""
        if chunk.data:
            is_quoted = chunk.quotes and self.delimiter != BLANKS
            block = (self._cut_quoted if is_quoted else self._cut)(chunk.data, width)
            block = block or self._parsed(chunk.data, width)
            if block.rows:
                yield block

    def _cut(self, data: bytes, width: int) -> Block | None:
        """The block of bytes without quotes, or None where a record has another number of fields."""
        if b"\r" in data:
            data = data.replace(b"\r\n", b"\n").replace(b"\r", b"\n")
        if self._comment is not None and _has_comment(data, self.form.comments):
            data, count = self._comment.subn(b"", data)
            self.comments += count
        delimiter = self.delimiter.encode()
        if self.delimiter == BLANKS:
            data, delimiter = _single_blanks(data), b"\t"
        if data[:1] == b"\n" or b"\n\n" in data:
            data = _BLANK_LINES.sub(b"", data)
        if data and data[-1:] != b"\n":
            data += b"\n"
        rows = data.count(b"\n")
        if not _even(data, delimiter, width, rows):
            return None
        try:
            text = data.decode("utf-8")
        except UnicodeDecodeError as error:
            raise self._not_utf8() from error
        plain = delimiter == b"," or b"," not in data
        plain = plain and (self.delimiter != BLANKS or b'"' not in data)
        first, self.records = self.records, self.records + rows
        raw = data.replace(delimiter, b",") if plain else None
        return Block.cut(first, rows, width, text, delimiter.decode(), raw)

    def _cut_quoted(self, data: bytes, width: int) -> Block | None:
        """The block of bytes with quotes, or None where one is not around a whole field, or a line is no record of this width."""
        if b"\r" in data or any(mark in data for mark in MARKS):
            return None
        try:
            data.decode("utf-8")
        except UnicodeDecodeError as error:
            raise self._not_utf8() from error
        quoted = QuotedText(data if data[-1:] == b"\n" else data + b"\n", self.delimiter, self.form.quote)
        outside = quoted.skeleton
        rows = outside.count(b"\n")
        if not quoted.is_regular() or outside[:1] == b"\n" or b"\n\n" in outside or _has_comment(outside, self.form.comments):
            return None
        if not _even(outside, self.delimiter.encode(), width, rows):
            return None
        first, self.records = self.records, self.records + rows
        # graphq reads such records as they are: the crate csv takes them as Python's reader does.
        return Block.quoted(first, rows, width, quoted, quoted.with_commas() if self.form.quote == '"' else None)

    def _parsed(self, data: bytes, width: int) -> Block:
        """The block of any bytes, by the CSV reader."""
        try:
            text = data.decode("utf-8")
        except UnicodeDecodeError as error:
            raise self._not_utf8() from error
        quoted = b"\r" in data
        if self.delimiter != BLANKS and not _has_comment(data, self.form.comments):
            with contextlib.suppress(csv.Error):
                rows = list(filter(None, self._reader(io.StringIO(text, newline=""))))
                if set(map(len, rows)) <= {width}:
                    first, self.records = self.records, self.records + len(rows)
                    block = Block(first, _columns(rows, width), returns=quoted)
                    if self.delimiter == "," and self.form.quote == '"':
                        # graphq reads such records as they are: the crate csv takes them as Python's reader does.
                        block.raw = data if data[-1:] == b"\n" else data + b"\n"
                    return block
        return self._checked(text, width, quoted)

    def _checked(self, text: str, width: int, quoted: bool) -> Block:
        """The block of a text where records of another width and the first broken one are put aside."""
        kept, numbers = [], []
        first = self.records
        records = self._records(text)
        while True:
            try:
                record = next(records, None)
            except csv.Error as error:
                self.bad.append(BadRecord(self.records, f"it is no CSV: {error}"))
                break
            if record is None:
                break
            if len(record) == width:
                kept.append(record)
                numbers.append(self.records)
            else:
                self.bad.append(BadRecord(self.records, _width(len(record), width, self.form.header)))
            self.records += 1
        whole = len(kept) == self.records - first
        return Block(first, _columns(kept, width), returns=quoted, numbers=None if whole else numbers)

    def _records(self, text: str) -> Iterator[list[str]]:
        """The records of a text, without comments and blank lines."""
        lines = _Lines(text)
        comments = self.form.comments

        def fed() -> Iterator[str]:
            for line in lines:
                if fresh[0] and line[0] in comments:
                    self.comments += 1
                else:
                    fresh[0] = False
                    yield line

        fresh = [True]
        for record in self._reader(fed()):
            fresh[0] = True
            if record:
                yield record

    def _not_utf8(self) -> BadRow:
        return not_utf8(self.path, self.name)

    def lines_of(self, numbers: Collection[int]) -> dict[int, int]:
        """The lines, counted from 1, at which the records with these numbers begin; for one that is broken, its line."""
        found: dict[int, int] = {}
        with open_bytes(self.path) as stream:
            text = stream.read().removeprefix(_BYTE_ORDER_MARK).decode("utf-8", "replace")
        lines = _Lines(text)
        begins = [0]
        number = -1 if self.form.header else 0

        def fed() -> Iterator[str]:
            for line in lines:
                blank = not (line.strip("\r\n") if number >= 0 else line.strip())
                if fresh[0] and (blank or line[0] in self.form.comments):
                    continue
                if fresh[0]:
                    begins[0] = lines.count
                fresh[0] = False
                yield line

        fresh = [True]
        try:
            for record in self._reader(fed()):
                fresh[0] = True
                if record:
                    if number in numbers:
                        found[number] = begins[0]
                    number += 1
        except csv.Error:
            found[number] = begins[0]
        return found


def _columns(rows: list[list[str]], width: int) -> list[Sequence[str]]:
    return list(zip(*rows, strict=True)) if rows else [()] * width


class _Lines:
    """The lines of a text with their ends, counted, and the characters that were taken."""

    def __init__(self, text: str) -> None:
        self._stream = io.StringIO(text, newline="")
        self.taken = 0
        self.count = 0

    def __iter__(self) -> _Lines:
        return self

    def __next__(self) -> str:
        line = next(self._stream)
        self.taken += len(line)
        self.count += 1
        return line


def _chunks(stream: IO[bytes], quote: bytes) -> Iterator[_Chunk]:
    """The bytes of a file in pieces that end where a record does: at a line's end before which the quotes are even."""
    rest, quotes = bytearray(), 0
    data = stream.read(BLOCK_BYTES + len(_BYTE_ORDER_MARK)).removeprefix(_BYTE_ORDER_MARK)
    while data:
        cut = data.rfind(b"\n") + 1
        count = quotes + data.count(quote, 0, cut)
        if cut and count % 2 == 0:
            rest += data[:cut]
            yield _Chunk(bytes(rest), count)
            rest, quotes = bytearray(data[cut:]), data.count(quote, cut)
        else:
            rest += data
            quotes = count + data.count(quote, cut)
        data = stream.read(BLOCK_BYTES)
    if rest:
        yield _Chunk(bytes(rest), quotes)


def _comment_lines(characters: str) -> re.Pattern[bytes] | None:
    if not characters:
        return None
    return re.compile(rb"(?m)^[" + re.escape(characters.encode()) + rb"][^\n]*(?:\n|\Z)")


def _has_comment(data: bytes, characters: str) -> bool:
    return any(data.startswith(one) or b"\n" + one in data for one in (mark.encode() for mark in characters))


def _single_blanks(data: bytes) -> bytes:
    """Fields with one tab between, and none at the ends of a line."""
    if b" " in data or b"\v" in data or b"\f" in data or b"\t\t" in data:
        data = _RUNS.sub(b"\t", data)
    if data[:1] == b"\t" or b"\n\t" in data or b"\t\n" in data or data[-1:] == b"\t":
        data = data.replace(b"\n\t", b"\n").replace(b"\t\n", b"\n").strip(b"\t")
    return data


def _even(data: bytes, delimiter: bytes, width: int, rows: int) -> bool:
    """Whether each line has so many fields."""
    others = bytes(one for one in range(256) if one not in (delimiter[0], 10))
    return data.translate(None, others) == (delimiter * (width - 1) + b"\n") * rows


def _width(count: int, wanted: int, has_header: bool) -> str:
    if has_header:
        return f"it has {count} fields, and the header has {wanted}"
    more = "" if wanted > 2 else ": name what stands after the ids, as in --columns weight:int"
    return f"it has {count} columns, and {wanted} are wanted{more}"


def _found_separator(line: str, quote: str) -> str:
    """What is between the fields of a header: what is in it most often outside quotes, and blanks where nothing is."""
    outside = re.sub(re.escape(quote) + ".*?" + re.escape(quote), "", line)
    best = max(_SEPARATORS, key=outside.count)
    if outside.count(best):
        return best
    return BLANKS if len(outside.split()) > 1 else ","


def one_separator(option: str, word: str) -> str:
    """Reads the word for what is between fields."""
    named = {"TAB": "\t", "\\t": "\t", "BLANKS": BLANKS}.get(word, word)
    if named != BLANKS and (len(named) != 1 or named in "\r\n" or not named.isascii()):
        raise Refusal(f"{option} {word}: it is one character, TAB or BLANKS", Status.BAD_WORDS)
    return named
