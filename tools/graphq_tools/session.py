"""A session of the tools with the program: one statement in, the lines of its reply out, and parameters that stay."""

from __future__ import annotations

import re
from collections.abc import Sequence
from pathlib import Path

from graphq.connection import Connection
from graphq.errors import NotInstalled, ProgramEnded

from .outcome import Refusal, Status
from .replies import unescaped
from .statements import is_closed

# The reply to `:param`; the value begins at the last blank after which one stands.
_PARAMETER = re.compile(r"param (?P<name>.+) (?P<value>null|true|false|-?[0-9]+|'(?:[^'\\]|\\.)*')\Z", re.DOTALL)


class Ended(Exception):
    """The program ended: with this status, after these lines, and with what it said on standard error."""

    def __init__(self, status: int, lines: list[str], said: str = "") -> None:
        super().__init__(said or f"graphq ended with status {status}")
        self.status = status
        self.lines = lines
        self.said = said


class Session:
    """A program that runs and waits for statements, over the connection of the package graphq.

    The parameters that were set are kept, and set again where the program is started again.
    """

    def __init__(self, program: str, words: Sequence[str]) -> None:
        self._connection = Connection([program, *words], str(Path.cwd()))
        self._loaded: int | None = None
        # The parameters by their names, as literals.
        self.parameters: dict[str, str] = {}

    def is_loaded(self) -> bool:
        """Whether the program runs, and is known to have loaded the graph."""
        return self._loaded is not None and self._loaded == self._connection.process

    def start(self) -> None:
        """Starts the program where none runs, and does not wait for it."""
        try:
            self._connection.start()
        except NotInstalled as error:
            raise Refusal(str(error), Status.NOT_INSTALLED) from error

    def load(self) -> None:
        """Starts the program where none runs, waits until its graph is loaded, and sets the parameters again.

        Raises `Ended` where the load is refused.
        """
        self.start()
        if not self.is_loaded():
            self._lines("")
            self._loaded = self._connection.process

    def ask(self, statement: str) -> list[str]:
        """The lines of the reply to a statement, which has no `;`. Raises `Ended` where the program ends instead."""
        self.load()
        if not is_closed(statement):
            return self._ask_last(statement)
        lines = self._lines(statement)
        if len(lines) == 1 and (match := _PARAMETER.match(lines[0])):
            self.parameters[unescaped(match["name"])] = match["value"]
        return lines

    def _lines(self, statement: str) -> list[str]:
        """Sends a statement, and reads up to the end of its reply."""
        lines: list[bytes] = []
        try:
            lines.extend(self._connection.ask(statement, self.parameters))
        except ProgramEnded as ended:
            raise Ended(ended.status, _texts(lines), ended.said) from ended
        return _texts(lines)

    def _ask_last(self, statement: str) -> list[str]:
        """The reply to a statement that only the end of the input ends. The next one starts the program again."""
        return _texts(self._connection.ask_last(statement))

    def finish(self) -> str:
        """Lets the program end by the end of its input, and gives what it says then on standard error.

        So the program tells why a statement had no memory. The next statement starts it again.
        """
        return self._connection.finish()

    def stop(self) -> None:
        """Ends the program, in the middle of a statement too. The next statement starts it again."""
        self._connection.end()


def _texts(lines: Sequence[bytes]) -> list[str]:
    return [line.decode("utf-8", "replace") for line in lines]
