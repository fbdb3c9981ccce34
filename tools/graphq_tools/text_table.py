"""Rows as an aligned table of text, and places in a text as it stands on a screen."""

from __future__ import annotations

import re
import unicodedata
from collections.abc import Sequence

from .hints import place

try:
    from wcwidth import wcwidth as _width_of
except ImportError:

    def _width_of(character: str) -> int:
        if unicodedata.combining(character):
            return 0
        return 2 if unicodedata.east_asian_width(character) in "WF" else 1


_INTEGER = re.compile(r"-?[0-9]+\Z", re.ASCII)

# What turns the direction of a line, or breaks it, beside the control characters.
_TURNS = frozenset("\u2028\u2029\u202a\u202b\u202c\u202d\u202e\u2066\u2067\u2068\u2069")


def visible(text: str) -> str:
    """A text with its control characters as they are escaped, as `\\x1b`, so that none of them moves a terminal."""
    if text.isprintable():
        return text
    return "".join(map(_seen, text))


def _seen(character: str) -> str:
    code = ord(character)
    if 0xDC80 <= code <= 0xDCFF:
        # A byte that is no UTF-8.
        return f"\\x{code - 0xDC00:02x}"
    if unicodedata.category(character) == "Cc":
        return f"\\x{code:02x}"
    return f"\\u{code:04x}" if character in _TURNS else character


def width(text: str) -> int:
    """How many columns of a screen a text takes."""
    if text.isascii():
        return len(text)
    return sum(max(0, _width_of(character)) for character in text)


def aligned(columns: Sequence[str], rows: Sequence[Sequence[str]]) -> list[str]:
    """The lines of a table. A column of integers and nulls alone is aligned at its right."""
    shown = [visible(column.replace("\t", " ").replace("\n", " ").replace("\r", " ")) for column in columns]
    rows = [[visible(cell) for cell in row] for row in rows]
    widths = [max([width(name), *(width(row[place]) for row in rows)]) for place, name in enumerate(shown)]
    right = [is_numeric([row[place] for row in rows]) for place in range(len(shown))]

    def line(cells: Sequence[str]) -> str:
        padded = []
        for cell, wanted, at_right in zip(cells, widths, right, strict=True):
            blanks = " " * (wanted - width(cell))
            padded.append(blanks + cell if at_right else cell + blanks)
        return " | ".join(padded).rstrip()

    return [line(shown), "-+-".join("-" * wanted for wanted in widths), *map(line, rows)]


def is_numeric(cells: list[str]) -> bool:
    """Whether the cells of a column are integers and nulls alone, and some is an integer."""
    return any(map(_INTEGER.match, cells)) and all(cell == "null" or _INTEGER.match(cell) for cell in cells)


def caret(statement: str, refusal: str) -> list[str]:
    """The line of a statement in which the cause of a refusal stands, and a caret under its place; or nothing."""
    at = place(statement, refusal)
    if at is None:
        return []
    before = statement[:at]
    begin = before.rfind("\n") + 1
    line = statement[begin:].split("\n", 1)[0].rstrip("\r")
    # A tab stays a tab, so that the caret stands under its place whatever a tab's width is.
    shown = ["\t" if character == "\t" else visible(character) for character in line]
    blanks = ["\t" if text == "\t" else " " * width(text) for text in shown[: len(before) - begin]]
    return ["".join(shown), "".join(blanks) + "^"]
