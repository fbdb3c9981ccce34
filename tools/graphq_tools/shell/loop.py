"""The shell: reads statements, shows replies, and goes on after what is refused or stopped."""

from __future__ import annotations

import contextlib
import os
import shutil
import subprocess
import sys
import time
from collections.abc import Callable, Iterator
from dataclasses import dataclass, field
from typing import IO

from ..hints import hint, load_hint, notes
from ..outcome import Refusal, Status
from ..replies import Refused, Rows, read_reply
from ..schema import Schema, read_schema
from ..session import Ended, Session
from ..statements import MOST_BYTES, in_bytes, is_blank, split
from ..text_table import caret, visible, width
from .formats import FOR_PROGRAMS, FORMATS, count
from .lines import Lines
from .spinner import Spinner

_MEMORY = "error: Memory"


class Quit(Exception):
    """The user wants to leave."""


@dataclass
class Settings:
    """How answers are shown."""

    mode: str = "table"
    timing: bool = False
    pager: bool = False


@dataclass
class Shell:
    """A session with somebody."""

    session: Session
    manifest: str
    lines: Lines
    at_keyboard: bool
    settings: Settings
    status: Status = Status.DONE
    schema: Schema = field(default_factory=Schema)
    find_command: Callable[[str], Callable[[Shell], None] | None] = lambda _: None
    # Where answers go, when not to standard output, and its name.
    output: IO[str] | None = None
    output_name: str = ""
    reading: int = 0

    def run(self) -> int:
        """Answers until the lines end; gives the exit status."""
        try:
            self._begin()
            with contextlib.suppress(Quit):
                self._loop()
            self._last_words()
        finally:
            self.session.stop()
            self.close_output()
        return int(Status.DONE if self.at_keyboard else self.status)

    def _last_words(self) -> None:
        """Where a statement of a file or a pipe had no memory, what the program says of it at its end."""
        if self.status == Status.NO_MEMORY and not self.at_keyboard:
            self.explain([said for said in [self.session.finish()] if said])

    def _begin(self) -> None:
        """Starts the program, and learns the graph's names from it."""
        begin = time.monotonic()
        try:
            with self._spinning(f"loading {self.manifest}"):
                self.schema = read_schema(self.session.ask(":schema"))
        except Ended as ended:
            raise self._not_loaded(ended) from ended
        if self.at_keyboard:
            names = f"{len(self.schema.labels())} labels and {len(self.schema.types())} types"
            print(f"graphq: {names}, loaded in {_seconds(time.monotonic() - begin)}; .help helps")

    def _not_loaded(self, ended: Ended) -> Refusal:
        """The refusal of a load, with what it means below."""
        said = [visible(line) for line in ended.lines] or [str(ended)]
        said += [f"hint: {more}" for line in ended.lines if (more := load_hint(line, self.manifest))]
        known = ended.status in [int(status) for status in Status]
        return Refusal("\n".join(said), Status(ended.status) if known else Status.NO_MEMORY)

    def _spinning(self, what: str) -> Spinner:
        return Spinner(what, self.at_keyboard and sys.stderr.isatty())

    def _loop(self) -> None:
        pending = ""
        while True:
            try:
                typed = self.lines.read(pending)
            except EOFError:
                break
            except KeyboardInterrupt:
                pending = ""
                continue
            try:
                for line in typed.split("\n"):
                    pending = self.feed(line, pending, self.lines.ending)
            except KeyboardInterrupt:
                # The answer was there, and was being shown.
                if not self.at_keyboard:
                    raise
                pending = ""
                print()
        if not is_blank(pending):
            self.answer(pending)

    def feed(self, line: str, pending: str, ending: str = "\n") -> str:
        """Takes a line after what stands before it in its statement; gives what waits for more."""
        if is_blank(pending) and (command := self.find_command(line.strip())):
            command(self)
            return pending
        statements, rest = split(f"{pending}{line}{ending}")
        for statement in statements:
            if not is_blank(statement):
                self.answer(statement)
        # At a keyboard a statement begins anew; elsewhere the places in it count as they do for graphq.
        return "" if self.at_keyboard and is_blank(rest) else rest

    def answer(self, statement: str) -> None:
        """Answers one statement. Ctrl-C ends it: the program is stopped, and loads the graph again for the next one."""
        if len(in_bytes(statement)) > MOST_BYTES:
            self.refuse(f"a statement has at most {MOST_BYTES:,} bytes")
            return
        begin = time.monotonic()
        try:
            if not self.session.is_loaded():
                with self._spinning("loading the graph again"):
                    self.session.load()
                begin = time.monotonic()
            with self._spinning("answering"):
                lines = self.session.ask(statement)
        except KeyboardInterrupt:
            self.session.stop()
            if not self.at_keyboard:
                raise
            self.session.start()
            again = "the graph is loaded again for the next statement, with the parameters as they are"
            print(f"stopped after {_seconds(time.monotonic() - begin)}; {again}")
            return
        except Ended as ended:
            self._ended(ended)
            return
        self._tell(statement, lines, time.monotonic() - begin)

    def _ended(self, ended: Ended) -> None:
        """Says that the program has ended, for another cause than a refusal. The next statement starts it again."""
        self.show(ended.lines)
        self.refuse(f"graphq ended with status {ended.status}")
        if ended.said:
            self.explain([ended.said])
        # Its files may have become others since they were loaded first.
        self.hints([load_hint(line, self.manifest) for line in ended.lines])

    def _tell(self, statement: str, lines: list[str], took: float) -> None:
        """Shows a reply, and what is to be said of it."""
        reply = read_reply(lines)
        if isinstance(reply, Refused):
            self._tell_refusal(statement, reply.line)
        elif isinstance(reply, Rows):
            if self.settings.mode not in ("table", "plain"):
                self.explain(reply.spent)
            self.show(FORMATS[self.settings.mode](reply))
            if self.output is not None and self.at_keyboard:
                print(f"({count(len(reply.rows))} to {self.output_name})")
            self.hints(notes(statement, self.schema))
        else:
            self.show([self._safe(line) for line in lines])
            if not any(line.startswith("param ") for line in lines):
                self.hints(notes(statement, self.schema))
        if self.settings.timing:
            print(f"time {_seconds(took)}")

    def _safe(self, line: str) -> str:
        """A line of graphq's; its control characters are shown where somebody reads it."""
        return line if self.settings.mode in FOR_PROGRAMS else visible(line)

    def _tell_refusal(self, statement: str, line: str) -> None:
        """Shows a refusal, where its cause stands, what it means and what to do."""
        self.explain(caret(statement, line))
        self.refuse(self._safe(line), Status.NO_MEMORY if line == _MEMORY else Status.REPLY_REFUSED)
        if line == _MEMORY and self.at_keyboard:
            # The program says at its end alone which want it was. It is started again, and loads while somebody reads.
            self.explain([said for said in [self.session.finish()] if said])
            self.session.start()
        self.hints([hint(line, statement, self.schema)])

    def hints(self, texts: list[str] | list[str | None]) -> None:
        """Says what something means and what to do."""
        self.explain([f"hint: {visible(text)}" for text in texts if text])

    def explain(self, lines: list[str]) -> None:
        """Prints what graphq does not say itself: to standard error where a program may read the answers."""
        aside = self.settings.mode in FOR_PROGRAMS and not self.at_keyboard
        for line in lines:
            print(line, file=sys.stderr if aside else sys.stdout)

    def refuse(self, line: str, status: Status = Status.REPLY_REFUSED) -> None:
        """Prints a refusal, which counts for the exit status."""
        self.status = max(self.status, status)
        print(line)

    def show(self, lines: list[str]) -> None:
        """Prints an answer, or writes it; through a pager where it is more than the screen has."""
        text = "".join(f"{line}\n" for line in lines)
        if self.output is not None:
            self.output.write(text)
            self.output.flush()
            return
        if self.settings.pager and self.at_keyboard and _too_much(lines) and _paged(text):
            return
        sys.stdout.write(text)
        sys.stdout.flush()

    def open_output(self, name: str) -> None:
        """Lets answers go to a file, which is made anew."""
        self.close_output()
        self.output = open(name, "w", encoding="utf-8", errors="surrogateescape")
        self.output_name = name

    def close_output(self) -> None:
        """Lets answers go to standard output again."""
        output, self.output = self.output, None
        if output is not None:
            output.close()

    @contextlib.contextmanager
    def reading_file(self) -> Iterator[int]:
        """Counts how many files are being read inside one another."""
        self.reading += 1
        try:
            yield self.reading
        finally:
            self.reading -= 1

    def read(self, text: str) -> None:
        """Takes the lines of a text as they would be typed. Its last statement needs no `;`."""
        *lines, last = text.split("\n")
        pending = ""
        for line in lines:
            pending = self.feed(line, pending)
        pending = self.feed(last, pending, "")
        if not is_blank(pending):
            self.answer(pending)


def _paged(text: str) -> bool:
    """Whether a pager showed a text."""
    command = os.environ.get("PAGER") or "less -SFRX"
    done = subprocess.run(command, shell=True, input=text, text=True, errors="replace", check=False)
    return done.returncode not in (126, 127)


def _seconds(seconds: float) -> str:
    return f"{seconds * 1000:.1f} ms" if seconds < 1 else f"{seconds:.2f} s"


def _too_much(lines: list[str]) -> bool:
    size = shutil.get_terminal_size()
    return len(lines) >= size.lines or any(width(line) > size.columns for line in lines)
