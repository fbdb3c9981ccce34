"""Lines from a keyboard with history, editing and completion, as far as this machine has what they want."""

from __future__ import annotations

import os
import sys
from collections.abc import Callable, Iterator, Mapping
from pathlib import Path
from typing import Any, Protocol

from ..schema import Schema
from ..statements import is_blank, waits_for
from .completion import completions

_PROMPT = "graphq> "
_MOST_KEPT = 10_000

# What may stand at the end of a text, each with how many characters there it takes the place of.
Completions = Callable[[str], list[tuple[str, int]]]


class Lines(Protocol):
    """Where lines come from."""

    ending: str
    """How the line that was read last ends."""

    def read(self, before: str) -> str:
        """The next line, or several, without the last one's end; `before` is what stands before it in its statement.

        Raises EOFError at the end, and KeyboardInterrupt at Ctrl-C.
        """


def prompt_for(before: str) -> str:
    """The prompt after a text: for a new statement, or with what the statement waits for."""
    wanted = waits_for(before)
    return f"until {wanted} ...> " if wanted else _PROMPT


def history_file() -> str | None:
    """The file with what was typed before, or None where none can be written."""
    state = os.environ.get("XDG_STATE_HOME") or str(Path.home() / ".local" / "state")
    path = Path(state) / "graphq" / "history"
    try:
        path.parent.mkdir(parents=True, exist_ok=True)
        path.open("a").close()
    except OSError:
        return None
    return str(path)


class PipedLines:
    """Lines from a file or a pipe: no prompt, and nothing is edited."""

    ending = "\n"

    def read(self, before: str) -> str:
        line = sys.stdin.readline()
        if not line:
            raise EOFError
        text = line.removesuffix("\n")
        self.ending = line[len(text) :]
        return text


class PromptLines:
    """Statements by prompt_toolkit, edited and recalled whole: Enter ends a line, and what is whole with it."""

    ending = "\n"

    def __init__(self, complete: Completions, is_command: Callable[[str], bool]) -> None:
        from prompt_toolkit import PromptSession
        from prompt_toolkit.completion import Completer, Completion
        from prompt_toolkit.history import FileHistory, InMemoryHistory

        class _Completer(Completer):
            def get_completions(self, document: Any, complete_event: Any) -> Iterator[Any]:
                for text, length in complete(document.text_before_cursor):
                    yield Completion(text, start_position=-length)

        file = history_file()
        history = FileHistory(file) if file else InMemoryHistory()
        self._session: Any = PromptSession(
            history=history,
            completer=_Completer(),
            complete_while_typing=False,
            multiline=True,
            prompt_continuation=self._continuation,
            key_bindings=_enter(is_command),
        )

    def _continuation(self, width: int, line: int, wraps: int) -> str:
        if wraps:
            return ""
        lines = self._session.default_buffer.text.split("\n")
        return prompt_for("\n".join(lines[:line]) + "\n")

    def read(self, before: str) -> str:
        return str(self._session.prompt(_PROMPT))


def _enter(is_command: Callable[[str], bool]) -> Any:
    """What Enter does: it hands in a command and statements that have ended, and else begins another line."""
    from prompt_toolkit.key_binding import KeyBindings

    keys = KeyBindings()

    @keys.add("enter")
    def _(event: Any) -> None:
        buffer = event.current_buffer
        if is_command(buffer.text) or not waits_for(buffer.text):
            buffer.validate_and_handle()
        else:
            buffer.insert_text("\n")

    return keys


class ReadlineLines:
    """Lines by readline; what was typed in several lines is recalled as one statement."""

    ending = "\n"

    def __init__(self, complete: Completions) -> None:
        import atexit
        import readline

        self._readline: Any = readline
        self._before = ""
        self._found: list[str] = []
        if file := history_file():
            readline.read_history_file(file)
            readline.set_history_length(_MOST_KEPT)
            atexit.register(readline.write_history_file, file)
        readline.set_auto_history(False)
        readline.set_completer_delims(" \t\n()[]{},;:.|$")
        readline.parse_and_bind("tab: complete")

        def find(typed: str, number: int) -> str | None:
            if number == 0:
                before = self._before + readline.get_line_buffer()[: readline.get_endidx()]
                # readline takes back the word alone, and a completion may begin before it.
                self._found = [text[max(0, length - len(typed)) :] for text, length in complete(before)]
            return self._found[number] if number < len(self._found) else None

        readline.set_completer(find)

    def read(self, before: str) -> str:
        self._before = before
        line = input(prompt_for(before))
        self._remember(before, line)
        return line

    def _remember(self, before: str, line: str) -> None:
        """Puts a line into the history: a new entry, or the end of that of its statement."""
        last = self._readline.get_current_history_length()
        if is_blank(before) or not last:
            if line.strip():
                self._readline.add_history(line)
            return
        # A history has a line for each entry: what a line end is needed in is kept as it is, in this session alone.
        between = "\n" if "//" in before or waits_for(before) != ";" else " "
        entry = self._readline.get_history_item(last)
        self._readline.replace_history_item(last - 1, f"{entry}{between}{line}")


def lines_of(
    schema: Callable[[], Schema], parameters: Mapping[str, str], is_command: Callable[[str], bool]
) -> tuple[Lines, bool]:
    """The best source of lines here, and whether somebody sits at it."""
    if not sys.stdin.isatty():
        return PipedLines(), False

    def complete(before: str) -> list[tuple[str, int]]:
        return completions(before, schema(), parameters)

    try:
        return PromptLines(complete, is_command), True
    except ImportError:
        return ReadlineLines(complete), True
