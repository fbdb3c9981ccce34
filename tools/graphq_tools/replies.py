"""Reads the replies of graphq, as docs/language.md has them, into values."""

from __future__ import annotations

import re
from dataclasses import dataclass, field

_ESCAPE = re.compile(r"\\(.)")
_ESCAPED = {"n": "\n", "r": "\r", "t": "\t"}
_INTEGER = re.compile(r"-?[0-9]+\Z", re.ASCII)
_NODE = re.compile(r"\((?P<word>[^\s()]+) (?P<key>-?[0-9]+|'(?:[^'\\]|\\.)*')\)\Z", re.DOTALL)
_RELATIONSHIP = re.compile(r"\[(?P<type>[^\s\[\]/]+)(?:/(?P<place>[0-9]+))? #(?P<number>[0-9]+)\]\Z")
_ROWS = re.compile(r"rows [0-9]+\Z")
_SPENT = re.compile(r"pipeline (?P<number>[0-9]+) chunks [0-9]+ columns [0-9]+\Z")


@dataclass(frozen=True)
class Node:
    """A node: the labels of its table, joined by colons, and its key."""

    word: str
    key: int | str

    def __str__(self) -> str:
        return f"({self.word} {text_of(self.key)})"


@dataclass(frozen=True)
class Relationship:
    """A relationship: its type, its table's place among those of the type, from 1, and its number in it, from 0."""

    type: str
    place: int
    number: int
    text: str

    def __str__(self) -> str:
        return self.text


@dataclass(frozen=True)
class Other:
    """A value of a form that is not known here."""

    text: str

    def __str__(self) -> str:
        return self.text


Value = None | bool | int | str | Node | Relationship | Other


@dataclass(frozen=True)
class Rows:
    """The reply to a query: the names of its columns, and its rows as their texts; to `:profile` what was spent, too."""

    columns: list[str]
    rows: list[list[str]]
    spent: list[str] = field(default_factory=list)

    def values(self) -> list[list[Value]]:
        """The rows as values."""
        return [[value_of(text) for text in row] for row in self.rows]


@dataclass(frozen=True)
class Refused:
    """The line of a refusal, with `error: ` in front."""

    line: str


@dataclass(frozen=True)
class Lines:
    """The reply to `:schema` or `:plan`, or to nothing at all."""

    lines: list[str]


Reply = Rows | Refused | Lines


def unescaped(text: str) -> str:
    """What a text with the reply's escapes stands for."""
    return _ESCAPE.sub(lambda match: _ESCAPED.get(match[1], match[1]), text)


def text_of(value: int | str) -> str:
    """A key as a reply writes it."""
    if isinstance(value, int):
        return str(value)
    table = {"\\": "\\\\", "'": "\\'", "\n": "\\n", "\r": "\\r", "\t": "\\t"}
    return "'" + "".join(table.get(character, character) for character in value) + "'"


def value_of(text: str) -> Value:
    """The value that a text of a reply stands for."""
    if text in ("null", "true", "false"):
        return {"null": None, "true": True, "false": False}[text]
    if _INTEGER.match(text):
        return int(text)
    if text.startswith("'"):
        return unescaped(text[1:-1])
    if match := _NODE.match(text):
        key = value_of(match["key"])
        return Node(match["word"], key if isinstance(key, (int, str)) else match["key"])
    if match := _RELATIONSHIP.match(text):
        return Relationship(match["type"], int(match["place"] or 1), int(match["number"]), text)
    return Other(text)


def read_reply(lines: list[str]) -> Reply:
    """The reply that these lines are."""
    if len(lines) == 1 and lines[0].startswith("error: "):
        return Refused(lines[0])
    if len(lines) > 1 and _ROWS.match(lines[-1]):
        first = _spent_lines(lines[:-2])
        header, rows = lines[first], lines[first + 1 : -1]
        names = [unescaped(name) for name in header.split("\t")]
        return Rows(names, [line.split("\t") for line in rows], lines[:first])
    return Lines(lines)


def _spent_lines(lines: list[str]) -> int:
    """How many lines in front are those of pipelines, numbered from 1."""
    for at, line in enumerate(lines):
        spent = _SPENT.match(line)
        if not spent or int(spent["number"]) != at + 1:
            return at
    return len(lines)
