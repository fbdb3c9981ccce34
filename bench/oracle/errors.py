"""What ends the work on a statement: a refusal, a fault, or too many matches."""


class Refused(Exception):
    """A statement is refused; `line` is its reply after `error: `."""

    def __init__(self, line: str) -> None:
        super().__init__(line)
        self.line = line


class Fault(Exception):
    """An expression has no value: `Overflow`, `DivideByZero` or `Kind`."""

    def __init__(self, name: str) -> None:
        super().__init__(name)
        self.name = name


class TooMuch(Exception):
    """A statement has too many matches to be looked through one by one; nothing is said of it."""


class Effort:
    """How many steps of the search may still be taken for a statement."""

    def __init__(self, steps: int) -> None:
        self.steps = steps

    def spend(self, steps: int = 1) -> None:
        """Takes so many steps."""
        self.steps -= steps
        if self.steps < 0:
            raise TooMuch
