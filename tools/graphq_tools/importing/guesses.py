"""Guesses the kind of a column from all of its values: `int`, `bool`, `decimal`, `date`, `datetime` or `string`."""

from __future__ import annotations

import re
from collections.abc import Sequence

from .kinds import fits, is_canonical

ZERO_IN_FRONT = re.compile(rb"\n0[0-9]")
_MINUS_INSIDE = re.compile(rb"[0-9-]-|-[0\n]")
_BOOLEANS = frozenset(("true", "false"))
_DATE = re.compile(r"[0-9]{4}-[0-9]{2}-[0-9]{2}\Z", re.ASCII)
_MOMENT = re.compile(
    r"[0-9]{4}-[0-9]{2}-[0-9]{2}[T ][0-9]{2}:[0-9]{2}(:[0-9]{2}([.,][0-9]+)?)?(Z|[+-][0-9]{2}:?[0-9]{2})?\Z", re.ASCII
)


def are_integers(values: Sequence[str]) -> bool:
    """Whether the values that are there are integers of 64 signed bits, each written in the only way there is."""
    joined = "\n".join(values)
    if not joined.isascii():
        return False
    data = b"\n" + joined.encode() + b"\n"
    signs = data.translate(None, b"0123456789\n")
    if signs.strip(b"-") or data.count(b"\n") != len(values) + 1 or ZERO_IN_FRONT.search(data):
        return False
    if signs and _MINUS_INSIDE.search(data):
        return False
    return max(map(len, values)) <= 18 or all(is_canonical(value) for value in values if value)


def _are_decimals(values: Sequence[str]) -> bool:
    """Whether the values that are there are numbers, whatever their form."""
    there = [value for value in values if value]
    if "".join(there).encode("utf-8", "surrogateescape").translate(None, b"0123456789.+-eE"):
        return False
    try:
        return all(map(_is_finite, map(float, there)))
    except ValueError:
        return False


def _is_finite(value: float) -> bool:
    return value - value == 0


def _kind(values: Sequence[str], dates: bool) -> str:
    """The kind of values, one of which is there."""
    some = next(filter(None, values))
    if some[0] in "-0123456789" and are_integers(values):
        return "int"
    if some[0] in "tTfF" and {value.lower() for value in set(values) if value} <= _BOOLEANS:
        return "bool"
    if some[0] in "+-.0123456789" and _are_decimals(values):
        return "string" if _zeros_in_front(values) else "decimal"
    if dates and _DATE.match(some) and all(map(_DATE.match, filter(None, values))):
        return "date"
    if dates and _MOMENT.match(some) and all(map(_MOMENT.match, filter(None, values))):
        return "datetime"
    return "string"


def _zeros_in_front(values: Sequence[str]) -> bool:
    """Whether a value is a number with zeros in front, as codes have them, and no decimal."""
    return any(value[:1] == "0" and value.isdecimal() and len(value) > 1 for value in values)


class Guess:
    """What a column may be after the values that it has met; a string where it has met none. Dates where they matter."""

    def __init__(self, dates: bool = False) -> None:
        self._met: str | None = None
        self._dates = dates

    @property
    def kind(self) -> str:
        """The kind that all the values have."""
        return self._met or "string"

    @property
    def empty(self) -> bool:
        """Whether no value was there."""
        return self._met is None

    @property
    def is_settled(self) -> bool:
        """Whether no value that comes may change the kind."""
        return self._met == "string"

    def meet_naturals(self, greatest: int) -> None:
        """Takes in natural numbers, of which this is the greatest."""
        self._become("int" if fits(greatest) else "decimal")

    def meet(self, values: Sequence[str]) -> None:
        """Takes in some values; the empty text is none."""
        if self.is_settled or not any(values):
            return
        self._become(_kind(values, self._dates))

    def _become(self, kind: str) -> None:
        if self._met in (None, kind):
            self._met = kind
        else:
            self._met = "decimal" if {self._met, kind} == {"int", "decimal"} else "string"
