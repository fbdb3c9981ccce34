"""Columns of natural numbers: arrays of numpy where it is there and there are many, and else lists of integers."""

from __future__ import annotations

import contextlib
import importlib
import json
import re
from collections import deque
from collections.abc import Sequence
from itertools import repeat
from typing import Any

from .arrays import numpy

# Numbers of more digits are read as integers of any size.
_MOST = 10**18
_FRONT = 4096
_ZERO_IN_FRONT = re.compile(rb",0[0-9]")

# An array of numpy, or a list of integers.
Numbers = Any


def natural_columns(raw: bytes, width: int) -> list[Numbers] | None:
    """The columns of records of digits, with commas between fields and a line end after each record, which are there.

    None where something else stands there, where a field is empty, or has a zero in front of others.
    """
    # Its front tells most blocks that are not so.
    if not raw or any(part.translate(None, b"0123456789,\n") for part in (raw[:_FRONT], raw)):
        return None
    text = raw[:-1].replace(b"\n", b",")
    cells = _array(text)
    if cells is None:
        # The scanner of JSON makes numbers of a long list fastest, and takes no zeros in front either.
        with contextlib.suppress(ValueError):
            cells = json.loads(b"[" + text + b"]")
    return None if cells is None else [cells[place::width] for place in range(width)]


def _array(text: bytes) -> Any:
    """The numbers between commas as an array, or None where numpy is not there, or may not read them right."""
    library = numpy(text)
    if library is None or b",," in text or text[:1] == b"," or text[-1:] == b",":
        return None
    if (text[:1] == b"0" and text[1:2].isdigit()) or _ZERO_IN_FRONT.search(text):
        return None
    numbers = library.fromstring(text, dtype=library.int64, sep=",")
    return numbers if len(numbers) == text.count(b",") + 1 and numbers.max() < _MOST else None


def naturals(values: Sequence[str]) -> Numbers | None:
    """Texts as numbers, where each of them is a natural number without a sign and without zeros in front."""
    if not values:
        return []
    if not values[0].isdecimal():
        return None
    joined = "\n".join(values)
    if not joined.isascii():
        return None
    data = joined.encode() + b"\n"
    found = natural_columns(data, 1) if data.count(b"\n") == len(values) and b"," not in data else None
    return None if found is None else found[0]


def greatest(numbers: Numbers) -> int:
    """The greatest of some numbers, or -1 where there are none."""
    if isinstance(numbers, list):
        return max(numbers, default=-1)
    return int(numbers.max()) if len(numbers) else -1


def _view(marks: bytearray) -> Any:
    """Marks as an array; they cannot grow while it is there."""
    return importlib.import_module("numpy").frombuffer(marks, dtype="uint8")


def mark(marks: bytearray, numbers: Numbers) -> None:
    """Sets the marks of numbers, for which there is room."""
    if isinstance(numbers, list):
        deque(map(marks.__setitem__, numbers, repeat(1)), maxlen=0)
    else:
        _view(marks)[numbers] = 1


def count(marks: bytearray) -> int:
    """How many numbers have a mark."""
    library = numpy(marks)
    return marks.count(1) if library is None else int(library.count_nonzero(_view(marks)))


def all_marked(marks: bytearray, numbers: Numbers) -> bool:
    """Whether each of some numbers has a mark."""
    if greatest(numbers) >= len(marks):
        return False
    if isinstance(numbers, list):
        return all(map(marks.__getitem__, numbers))
    return bool(_view(marks)[numbers].all())
