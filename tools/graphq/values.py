"""Values of rows, and how replies and parameters spell them."""

from __future__ import annotations

import re
from collections.abc import Callable
from dataclasses import dataclass

LEAST_INT = -(2**63)
GREATEST_INT = 2**63 - 1

_ESCAPE = re.compile(r"\\(.)", re.DOTALL)
_ESCAPED = {"n": "\n", "r": "\r", "t": "\t"}
_SPELLED = str.maketrans({"\\": "\\\\", "'": "\\'", "\n": "\\n", "\r": "\\r", "\t": "\\t"})
_REL = re.compile(r"\[(?P<type>.+?)(?:/(?P<table>[0-9]+))? #(?P<number>[0-9]+)\]\Z", re.ASCII)


@dataclass(frozen=True, slots=True)
class Node:
    """A node: the labels of its table, joined by colons as in `Person:Student`, and its key."""

    label: str
    key: int | str

    @property
    def labels(self) -> tuple[str, ...]:
        """The labels that it has."""
        return tuple(self.label.split(":"))

    def __str__(self) -> str:
        return f"({self.label} {literal(self.key)})"


@dataclass(frozen=True, slots=True)
class Rel:
    """A relationship: its type, its number in its table, from 0, and where the type has several tables, which one, from 1."""

    type: str
    number: int
    table: int | None = None

    def __str__(self) -> str:
        return f"[{self.type}{f'/{self.table}' if self.table else ''} #{self.number}]"


Value = None | bool | int | str | Node | Rel


def unescaped(text: str) -> str:
    """What a text with the escapes of replies stands for."""
    return _ESCAPE.sub(lambda match: _ESCAPED.get(match[1], match[1]), text) if "\\" in text else text


def literal(value: object) -> str:
    """A value as the language writes it; what is no literal of it is a `TypeError`, and one that is too great a `ValueError`."""
    if value is None:
        return "null"
    if isinstance(value, bool):
        return "true" if value else "false"
    if isinstance(value, int):
        if not LEAST_INT <= value <= GREATEST_INT:
            raise ValueError(f"{value} has more than 64 signed bits")
        return str(int(value))
    if isinstance(value, str):
        return f"'{value.translate(_SPELLED)}'"
    raise TypeError(f"a parameter is None, a bool, an int or a str, and not a {type(value).__name__}")


def _string(text: str) -> Value:
    return unescaped(text[1:-1])


def _node(text: str) -> Value:
    label, _, key = text[1:-1].partition(" ")
    return Node(label, unescaped(key[1:-1]) if key[0] == "'" else int(key))


def _rel(text: str) -> Value:
    match = _REL.match(text)
    if match is None:
        raise ValueError(f"{text} is no value")
    return Rel(match["type"], int(match["number"]), int(match["table"]) if match["table"] else None)


_WORDS: dict[str, Value] = {"null": None, "true": True, "false": False}
_READ: dict[str, Callable[[str], Value]] = {
    "'": _string,
    "(": _node,
    "[": _rel,
    **dict.fromkeys("-0123456789", int),
    **dict.fromkeys("ntf", _WORDS.__getitem__),
}


def value_of(text: str) -> Value:
    """The value that a text of a reply stands for."""
    return _READ[text[0]](text)


def row_of(line: bytes) -> tuple[Value, ...]:
    """The values of a line of a reply."""
    values = [_READ[text[0]](text) for text in line.decode("utf-8").split("\t")]
    return tuple(values)
