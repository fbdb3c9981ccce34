"""A column of a file of records: what it becomes, and its values in a block."""

from __future__ import annotations

from collections.abc import Callable, Sequence
from dataclasses import dataclass, field

from ..model import Field
from .blocks import BadRecord, Block
from .guesses import Guess, are_integers
from .kinds import Treatment, as_integer, as_is, fits
from .naturals import greatest

_NOTES = {"decimal": "decimals, as their texts: --scale {}=2 makes integers of those with two digits after the point"}


@dataclass
class Column:
    """A column: its place in a record, the name that it gets, and what is done with its values; a guess where that is open."""

    place: int
    name: str
    treatment: Treatment | None
    guess: Guess = field(default_factory=Guess)

    def look(self, block: Block) -> None:
        """Looks at the values of the column in a block, where its kind is open and they are taken as they are."""
        if self.treatment is None and not self.guess.is_settled:
            numbers = block.integers(self.place)
            if numbers is not None and len(numbers):
                self.guess.meet_naturals(greatest(numbers))
            else:
                self.guess.meet(block.column(self.place))

    def taken_as_is(self, block: Block) -> bool:
        """Whether the values in a block stay the texts that they are."""
        if self.treatment is None or self.treatment.convert is as_is:
            return True
        naturals = block.naturals() if self.treatment.convert is as_integer else None
        return naturals is not None and fits(greatest(naturals[self.place]))

    def values(self, block: Block, bad: list[BadRecord]) -> Sequence[str]:
        """The values of the column in a block. Where one cannot be taken, it is put into `bad`."""
        values = block.column(self.place)
        if self.treatment is None:
            self.guess.meet(values)
            return values
        convert = self.treatment.convert
        if convert is as_is or (convert is as_integer and are_integers(values)):
            return values
        try:
            return [convert(value) if value else "" for value in values]
        except ValueError:
            return [_converted(convert, value, block.number(row), bad) for row, value in enumerate(values)]

    def field(self) -> Field:
        """The property that the column is, once all values are there."""
        kind = self.treatment.kind if self.treatment else self.guess.kind
        return Field(self.name, kind if kind in ("int", "bool") else "string")

    def key(self) -> Field:
        """The key that the column is."""
        kind = self.guess.kind if self.treatment is None else self.treatment.kind
        return Field(self.name, "int" if kind == "int" else "string")

    def note(self) -> str | None:
        """What a reader should know of the column, or nothing."""
        if self.treatment is not None:
            return self.treatment.note
        if self.guess.empty:
            return "no row has a value"
        note = _NOTES.get(self.guess.kind)
        return note.format(self.name) if note else None


def _converted(convert: Callable[[str], str], value: str, number: int, bad: list[BadRecord]) -> str:
    try:
        return convert(value) if value else ""
    except ValueError as error:
        bad.append(BadRecord(number, str(error)))
        return ""
