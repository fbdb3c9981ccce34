"""The text of records with quoted fields, which is cut into columns where somebody asks for them.

All is done on whole texts: no field is looked at by itself.
"""

from __future__ import annotations

from collections.abc import Sequence

from .arrays import numpy

# What cannot stand in the text: it takes the place of separators, and of a quote inside quotes.
_BETWEEN, _DOUBLED = "\0", "\1"
MARKS = (_BETWEEN.encode(), _DOUBLED.encode())


def _outside(data: bytes, quote: bytes) -> bytes:
    """What stands outside quotes, with a quote in the place of each quoted piece."""
    library = numpy(data)
    if library is None:
        return quote.join(data.split(quote)[::2])
    signs = library.frombuffer(data, dtype="uint8")
    # One after a quote that opens, and none after one that closes, which stays.
    inside = library.cumsum(signs == quote[0], dtype="uint8") & 1
    kept: bytes = signs[inside == 0].tobytes()
    return kept


class QuotedText:
    """Records, each ended by LF, with one character between fields, some of which are quoted as a whole."""

    def __init__(self, data: bytes, delimiter: str, quote: str) -> None:
        self._data = data
        self._delimiter = delimiter
        self._quote = quote
        sign = quote.encode()
        self._outside = _outside(data, sign)
        # A quote for each quoted field: where one is doubled in a field, nothing stands outside between two of them.
        skeleton = self._outside
        while sign + sign in skeleton:
            skeleton = skeleton.replace(sign + sign, sign)
        self.skeleton = skeleton
        self._bare: list[list[str]] | None = None
        self._whole: list[list[str]] | None = None

    def is_regular(self) -> bool:
        """Whether the quotes are even and stand around whole fields, in the only way that there is."""
        text, quote, delimiter = self.skeleton, self._quote.encode(), self._delimiter.encode()
        count = text.count(quote)
        before = text.count(delimiter + quote) + text.count(b"\n" + quote) + text.startswith(quote)
        after = text.count(quote + delimiter) + text.count(quote + b"\n")
        return self._data.count(quote) % 2 == 0 and before == count == after

    def _cut(self, text: str, separator: str, width: int) -> list[list[str]]:
        cells = text.split(separator)
        cells.pop()
        return [cells[place::width] for place in range(width)]

    def column(self, place: int, width: int) -> Sequence[str]:
        """A column; where no field of it is quoted, what stands inside the quotes is left alone."""
        if self._bare is None:
            text = self.skeleton.decode()
            self._bare = self._cut(text.replace("\n", self._delimiter), self._delimiter, width)
        found = self._bare[place]
        return self.columns(width)[place] if self._quote in found else found

    def columns(self, width: int) -> Sequence[Sequence[str]]:
        """All columns, with a text for each record."""
        if self._whole is None:
            quote = self._quote
            outside = self._outside.decode().replace(self._delimiter, _BETWEEN).replace("\n", _BETWEEN)
            # Twice, since two that stand together share the quote between.
            for _ in range(2):
                outside = outside.replace(quote + quote, quote + _DOUBLED + quote)
            pieces = self._data.decode().split(quote)
            pieces[::2] = outside.split(quote)
            self._whole = self._cut("".join(pieces).replace(_DOUBLED, quote), _BETWEEN, width)
        return self._whole

    def with_commas(self) -> bytes | None:
        """The records with commas between fields, or None where a field without quotes has one."""
        delimiter, quote = self._delimiter.encode(), self._quote.encode()
        if delimiter == b",":
            return self._data
        if b"," in self._outside:
            return None
        if self._data.count(delimiter) == self._outside.count(delimiter):
            return self._data.replace(delimiter, b",")
        pieces = self._data.split(quote)
        pieces[::2] = self._outside.replace(delimiter, b",").split(quote)
        return quote.join(pieces)
