"""A program that runs over its pipes: a statement goes in, and the lines of its reply come out as they are written.

The end of a reply is not marked in the output. So after each statement stands a second one, whose reply is known: a query
of a variable with a name of the connection's own, which is refused by that name.
"""

from __future__ import annotations

import contextlib
import os
import secrets
import subprocess
import tempfile
import threading
import weakref
from collections import deque
from collections.abc import Iterator, Mapping
from typing import IO

from graphq_tools.statements import in_bytes, spelled

from .errors import NotInstalled, ProgramEnded

_READ_BYTES = 1 << 16
# So much of what is written at once a pipe takes, whoever reads it.
_PIPE_BYTES = 4096
# A session has so many parameters, and a statement so many bytes.
MOST_PARAMETERS = 256
MOST_STATEMENT = 65_536


class Reply:
    """The lines of one reply. What of it is not read yet comes from the program, or was put by where another was asked for."""

    def __init__(self, connection: Connection) -> None:
        self._connection = connection
        self.kept: deque[bytes] = deque()
        self.error: Exception | None = None

    def __iter__(self) -> Iterator[bytes]:
        return self

    def __next__(self) -> bytes:
        if not self.kept:
            self._connection.read_into(self)
        if self.kept:
            return self.kept.popleft()
        if self.error is not None:
            raise self.error
        raise StopIteration

    def peek(self, count: int) -> list[bytes]:
        """The next lines, and fewer where the reply ends."""
        while len(self.kept) < count and self._connection.read_into(self):
            pass
        if self.error is not None and not self.kept:
            raise self.error
        return list(self.kept)[:count]


class _Process:
    """A running program, and what it says on standard error."""

    def __init__(self, command: list[str], folder: str) -> None:
        self.errors: IO[bytes] = tempfile.TemporaryFile()
        try:
            self.popen = subprocess.Popen(
                command,
                stdin=subprocess.PIPE,
                stdout=subprocess.PIPE,
                stderr=self.errors,
                cwd=folder,
                bufsize=0,
                start_new_session=True,
            )
        except OSError as error:
            self.errors.close()
            raise NotInstalled(f"{command[0]}: {error.strerror}") from error

    def write(self, data: bytes) -> None:
        """Writes to the program; where it has ended, whoever reads is told."""
        stream = self.popen.stdin
        assert stream is not None
        with contextlib.suppress(OSError, ValueError):
            view = memoryview(data)
            while view:
                view = view[stream.write(view) :]

    def end(self) -> ProgramEnded:
        """Ends the program, and tells how it ended."""
        with contextlib.suppress(OSError):
            self.popen.kill()
        status = self.popen.wait()
        with contextlib.suppress(OSError, ValueError):
            self.errors.seek(0)
        said = self.errors.read().decode("utf-8", "replace").strip()
        for stream in (self.popen.stdin, self.popen.stdout, self.errors):
            if stream is not None:
                with contextlib.suppress(OSError):
                    stream.close()
        return ProgramEnded(status, said)


def _end(running: list[_Process]) -> None:
    while running:
        running.pop().end()


class Connection:
    """A program with its graph. It is started by the first statement, and again by the next one after it has ended."""

    def __init__(self, command: list[str], folder: str) -> None:
        self._command = command
        self._folder = folder
        self._mark = f"end_{secrets.token_hex(8)}"
        self._last = f"error: UnknownVariable {self._mark}".encode()
        self._lock = threading.RLock()
        self._running: list[_Process] = []
        self._rest = b""
        # Whether a reply is not read to its end, and which one that is, where somebody still has it.
        self._open = False
        self._current: weakref.ref[Reply] | None = None
        self._set: dict[str, str] = {}
        self._closed = False
        weakref.finalize(self, _end, self._running)

    @property
    def process(self) -> int | None:
        """The number of the process, where one runs."""
        return self._running[0].popen.pid if self._running else None

    def ask(self, statement: str, parameters: Mapping[str, str]) -> Reply:
        """Sends a statement, in which nothing is open, with the literals that its parameters stand for.

        Gives its reply, which may be read later.
        """
        with self._lock:
            if self._closed:
                raise ValueError("the graph is closed")
            self._settle()
            if len(self._set.keys() | parameters.keys()) > MOST_PARAMETERS:
                _end(self._running)
            self.start()
            for name, value in parameters.items():
                if self._set.get(name) != value:
                    for _ in self._send(f":param {spelled(name)} {value}"):
                        pass
                    self._set[name] = value
            return self._send(statement)

    def ask_last(self, statement: str) -> list[bytes]:
        """The lines of the reply to a statement that only the end of the input ends, and the program with it."""
        with self._lock:
            self.start()
            process = self._running.pop()
            output, _ = process.popen.communicate(in_bytes(statement))
            process.end()
            return [line for line in output.split(b"\n") if line]

    def start(self) -> None:
        """Starts the program where none runs, and does not wait for it."""
        if self._running and self._running[0].popen.poll() is not None:
            _end(self._running)
        if not self._running:
            self._running.append(_Process(self._command, self._folder))
            self._rest, self._open = b"", False
            self._set.clear()

    def _send(self, statement: str) -> Reply:
        self._settle()
        data = in_bytes(f"{statement};MATCH (a) RETURN {self._mark};")
        reply = Reply(self)
        self._current, self._open = weakref.ref(reply), True
        if len(data) <= _PIPE_BYTES:
            self._running[0].write(data)
        else:
            # The program may write before it has read all, so nobody is to wait here until it has.
            threading.Thread(target=self._running[0].write, args=(data,), daemon=True).start()
        return reply

    def read_into(self, reply: Reply) -> bool:
        """Reads some lines of a reply, if it is the open one; gives whether it may have more."""
        with self._lock:
            if not self._open or self._current is None or self._current() is not reply:
                return False
            before = len(reply.kept)
            while self._open and len(reply.kept) == before:
                try:
                    reply.kept.extend(self._lines())
                except ProgramEnded as error:
                    reply.error = error
            return len(reply.kept) > before

    def _lines(self) -> list[bytes]:
        """The lines that come next of the open reply. Whoever stops waiting for them ends the program."""
        process = self._running[0]
        stream = process.popen.stdout
        assert stream is not None
        try:
            data = os.read(stream.fileno(), _READ_BYTES)
        except BaseException:
            reply = self._current() if self._current is not None else None
            if reply is not None:
                reply.error = ProgramEnded(-9, "graphq was stopped while the rows came")
            self._open = False
            _end(self._running)
            raise
        if not data:
            self._open = False
            self._running.clear()
            status = process.popen.wait()
            raise ProgramEnded(status, process.end().said)
        lines = (self._rest + data).split(b"\n")
        self._rest = lines.pop()
        if lines and lines[-1] == self._last:
            lines.pop()
            self._open = False
        return lines

    def _settle(self) -> None:
        """Reads the open reply to its end: for whoever still has it, and else for nobody."""
        while self._open:
            reply = self._current() if self._current is not None else None
            try:
                lines = self._lines()
            except ProgramEnded as error:
                if reply is not None:
                    reply.error = error
                return
            if reply is not None:
                reply.kept.extend(lines)
            del reply

    def stop(self) -> None:
        """Ends the program, in the middle of a statement too, while others wait for it. The next statement starts it again."""
        for process in self._running[:]:
            process.popen.kill()

    def finish(self) -> str:
        """Lets the program end by the end of its input, and gives what it says then on standard error."""
        with self._lock:
            self._settle()
            if not self._running:
                return ""
            process = self._running.pop()
            process.popen.communicate()
            return process.end().said

    def end(self) -> None:
        """Ends the program, in the middle of a statement too, and waits for its end. The next statement starts it again."""
        self.stop()
        with self._lock:
            self._settle()
            _end(self._running)

    def close(self) -> None:
        """Ends the program for good."""
        self._closed = True
        self.end()
