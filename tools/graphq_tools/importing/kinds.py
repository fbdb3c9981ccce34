"""Kinds of values: what each kind of another system becomes in a graph of integers, texts and booleans."""

from __future__ import annotations

import datetime
import decimal
import re
from collections.abc import Callable
from dataclasses import dataclass, field

from ..model import GREATEST_INT, LEAST_INT
from ..outcome import Refusal, Status

Convert = Callable[[str], str]

_INTEGER = re.compile(r"[+-]?[0-9]+\Z", re.ASCII)
_CANONICAL = re.compile(r"(0|-?[1-9][0-9]*)\Z", re.ASCII)
_FRACTION = re.compile(r"[.,]([0-9]+)")
# Nothing is rounded in it.
_EXACT = decimal.Context(prec=1_000_000, Emax=decimal.MAX_EMAX, Emin=decimal.MIN_EMIN)
_EPOCH = datetime.datetime(1970, 1, 1, tzinfo=datetime.UTC)


@dataclass
class Choices:
    """What was asked for, over what would be done by itself."""

    decimals: int | None = None
    scaled: dict[str, int] = field(default_factory=dict)
    dates_as_integers: bool = False
    dropped: set[str] = field(default_factory=set)
    as_text: set[str] = field(default_factory=set)
    strict: bool = False
    both: bool = False


@dataclass(frozen=True)
class Treatment:
    """What is done with the values of a property: the kind that they get, the way there, and a note on it or none.

    The kind is `int`, `string` or `bool`. The unit tells what an integer counts, where it is not what stood there.
    """

    kind: str
    convert: Convert
    note: str | None = None
    unit: str | None = None


def fits(value: int) -> bool:
    """Whether an integer has 64 signed bits."""
    return LEAST_INT <= value <= GREATEST_INT


def is_canonical(text: str) -> bool:
    """Whether a text is the only way to write an integer of 64 signed bits."""
    return len(text) <= 20 and _CANONICAL.match(text) is not None and fits(int(text))


def as_integer(text: str) -> str:
    """The digits of an integer of 64 signed bits."""
    stripped = text.strip()
    if not _INTEGER.match(stripped):
        raise ValueError(f"'{text}' is no integer")
    if len(stripped) > 4000 or not fits(int(stripped)):
        raise ValueError(f"{stripped[:40]} has more than 64 signed bits")
    return str(int(stripped))


def as_boolean(text: str) -> str:
    """`true` or `false`."""
    word = text.strip().lower()
    if word not in ("true", "false"):
        raise ValueError(f"'{text}' is neither true nor false")
    return word


def as_is(text: str) -> str:
    """The text itself."""
    return text


def scaled_by(digits: int) -> Convert:
    """Decimals as integers of the unit in their last of so many digits; one with more digits is refused."""

    def convert(text: str) -> str:
        try:
            value = decimal.Decimal(text.strip())
        except decimal.InvalidOperation as error:
            raise ValueError(f"'{text}' is no decimal number") from error
        if not value.is_finite():
            raise ValueError(f"'{text}' is no finite number")
        shifted = value.scaleb(digits, _EXACT) if value.adjusted() < 20 else value
        if shifted.adjusted() >= 20 or not fits(int(shifted)):
            raise ValueError(f"{text[:40]} with {digits} digits after the point has more than 64 signed bits")
        if shifted != shifted.to_integral_value():
            raise ValueError(f"{text[:40]} has more than {digits} digits after the point")
        return str(int(shifted))

    return convert


def as_days(text: str) -> str:
    """A date as its number of days since 1970-01-01."""
    try:
        day = datetime.date.fromisoformat(text.strip())
    except ValueError as error:
        raise ValueError(f"'{text}' is no date such as 2024-02-29") from error
    return str((day - _EPOCH.date()).days)


def as_microseconds(text: str) -> str:
    """A point in time as its microseconds since 1970 began, in UTC where it names no zone."""
    stripped = text.strip()
    fraction = _FRACTION.search(stripped)
    if fraction and len(fraction[1].rstrip("0")) > 6:
        raise ValueError(f"{text} is finer than a microsecond")
    try:
        # A zone's name in brackets adds nothing to its offset.
        moment = datetime.datetime.fromisoformat(stripped.split("[", 1)[0])
    except ValueError as error:
        raise ValueError(f"'{text}' is no point in time such as 2024-02-29T12:30:00Z") from error
    if moment.tzinfo is None:
        moment = moment.replace(tzinfo=datetime.UTC)
    return str((moment - _EPOCH) // datetime.timedelta(microseconds=1))


def _decimal(name: str, origin: str, choices: Choices) -> Treatment:
    digits = choices.scaled.get(name, choices.decimals)
    if digits is None:
        return Treatment("string", as_is, f"{origin}, as its text")
    unit = f"times {10**digits}"
    return Treatment("int", scaled_by(digits), f"{origin}, as an integer: {unit}", unit)


def _time(origin: str, choices: Choices) -> Treatment:
    if not choices.dates_as_integers:
        return Treatment("string", as_is, f"{origin}, as its text")
    is_day = origin.lower() == "date"
    unit = "days since 1970-01-01" if is_day else "microseconds since 1970-01-01T00:00:00Z"
    return Treatment("int", as_days if is_day else as_microseconds, f"{origin}, as an integer: {unit}", unit)


def treatment(name: str, family: str, origin: str, choices: Choices) -> Treatment | None:
    """What to do with a property of this name, or None where it is to be left out.

    `family` is one of `int`, `bool`, `string`, `decimal`, `moment`, `text` (what keeps its text alone) and
    `other` (what graphq cannot hold); `origin` is what the other system calls the kind.
    """
    if name in choices.dropped:
        return None
    if name in choices.as_text:
        return Treatment("string", as_is, None if family == "string" else f"{origin}, as its text, as asked")
    match family:
        case "int" if name in choices.scaled:
            return _decimal(name, origin, choices)
        case "int":
            return Treatment("int", as_integer)
        case "bool":
            return Treatment("bool", as_boolean)
        case "string":
            return Treatment("string", as_is)
        case "decimal":
            return _decimal(name, origin, choices)
        case "moment":
            return _time(origin, choices)
        case "text":
            return Treatment("string", as_is, f"{origin}, as its text")
    raise Refusal(
        f"{name} is of the kind {origin}, which graphq cannot hold: "
        f"take its text by --text {name}, or leave it out by --drop {name}"
    )


def parse_scale(words: list[str]) -> dict[str, int]:
    """Reads `NAME=DIGITS` words."""
    scaled = {}
    for word in words:
        name, sign, digits = word.rpartition("=")
        if not sign or not name or not digits.isdecimal() or not digits.isascii() or int(digits) > 18:
            raise Refusal(f"--scale {word}: it is NAME=DIGITS, with 0 to 18 digits", Status.BAD_WORDS)
        scaled[name] = int(digits)
    return scaled
