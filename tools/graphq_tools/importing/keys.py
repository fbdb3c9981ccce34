"""Sets of keys: the least integers are marks in an array of bytes, and all other keys stand in a dictionary."""

from __future__ import annotations

from collections.abc import Iterable, Iterator, Sequence
from itertools import chain, compress

from .blocks import Block
from .naturals import Numbers, all_marked, count, greatest, mark

# Integers below this are marked in an array.
MOST_MARKS = 1 << 26


def _numbers(block: Block, places: Sequence[int]) -> list[Numbers] | None:
    """Columns of a block as natural numbers, where they are such."""
    found = [block.integers(place) for place in places]
    return None if any(one is None for one in found) else found


class Keys:
    """A set of keys, by their texts. It has numbers as long as all keys are naturals that are not too great."""

    def __init__(self) -> None:
        self._marks = bytearray()
        self._others: dict[str, None] | None = None

    def __len__(self) -> int:
        return count(self._marks) if self._others is None else len(self._others)

    def __iter__(self) -> Iterator[str]:
        """The keys: numbers in their order, and others in the order in which they came."""
        return iter(self._others) if self._others is not None else map(str, compress(range(len(self._marks)), self._marks))

    def __contains__(self, key: str) -> bool:
        if self._others is not None:
            return key in self._others
        number = int(key) if key.isdecimal() and key.isascii() and len(key) < 10 else -1
        return str(number) == key and number < len(self._marks) and self._marks[number] == 1

    def add(self, block: Block, *places: int) -> None:
        """Adds the keys of columns of a block, those of one row one after another."""
        if self._others is None:
            numbers = _numbers(block, places)
            if numbers is not None and self._room(numbers):
                for one in numbers:
                    mark(self._marks, one)
                return
            self._others, self._marks = dict.fromkeys(self), bytearray()
        columns = [block.column(place) for place in places]
        several: Iterable[str] = chain.from_iterable(zip(*columns, strict=True)) if len(columns) > 1 else columns[0]
        self._others.update(dict.fromkeys(several))

    def _room(self, numbers: list[Numbers]) -> bool:
        """Makes room for marks of these numbers, if they are not too great."""
        top = max(map(greatest, numbers), default=-1)
        if top >= MOST_MARKS:
            return False
        if top >= len(self._marks):
            self._marks.extend(bytes(max(top + 1, 2 * len(self._marks)) - len(self._marks)))
        return True

    def has_all(self, block: Block, place: int) -> bool:
        """Whether each value of a column of a block is a key."""
        if self._others is not None:
            return all(map(self._others.__contains__, block.column(place)))
        numbers = _numbers(block, [place])
        return numbers is not None and all_marked(self._marks, numbers[0])

    def drop(self, key: str) -> None:
        """Takes a key out."""
        if self._others is not None:
            self._others.pop(key, None)
