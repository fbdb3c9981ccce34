"""How a tool ends: its exit statuses, which are those of graphq, and what it says where it refuses."""

from __future__ import annotations

import contextlib
import enum
import io
import os
import shlex
import shutil
import sys
from collections.abc import Callable, Iterator, Sequence
from pathlib import Path

from .packages import package_of


class Status(enum.IntEnum):
    """Exit statuses. 0 to 7 mean what they mean of graphq, see docs/language.md; 69 is a missing program or package."""

    DONE = 0
    REPLY_REFUSED = 1
    BAD_WORDS = 2
    BAD_GRAPH = 3
    CANNOT_READ = 4
    CANNOT_WRITE = 5
    NO_MEMORY = 6
    TOO_LONG = 7
    NOT_INSTALLED = 69


class Refusal(Exception):
    """What a tool does not take, with the status that it ends with."""

    def __init__(self, why: str, status: Status = Status.BAD_GRAPH) -> None:
        super().__init__(why)
        self.status = status

    @property
    def lines(self) -> list[str]:
        """What is said, a line each."""
        return [str(self)]


class Refusals(Refusal):
    """Several refusals at once, with a last line or none."""

    def __init__(self, several: Sequence[Refusal], last: str | None = None) -> None:
        self._lines = [*(line for one in several for line in one.lines), *([last] if last else [])]
        super().__init__("\n".join(self._lines), several[0].status)

    @property
    def lines(self) -> list[str]:
        return self._lines


def one_line(text: str) -> str:
    """A text that may quote the input, with its tabs and line ends as they are typed."""
    return text.translate({9: "\\t", 10: "\\n", 13: "\\r"})


class BadRow(Refusal):
    """A file of the input holds what cannot be taken, at a line, counted from 1, that is of a table, where one is known."""

    def __init__(self, file: str | os.PathLike[str], line: int, why: str, table: str = "") -> None:
        of = f" ({table})" if table else ""
        super().__init__(f"{os.fspath(file)} line {line}{of}: {one_line(why)}")


def at_line(file: str | os.PathLike[str], line: int, error: ValueError | Refusal, table: str = "") -> Refusal:
    """The refusal of a line for what is wrong with it; what has a place or another status already stays as it is."""
    if isinstance(error, BadRow | Refusals) or (isinstance(error, Refusal) and error.status != Status.BAD_GRAPH):
        return error
    return BadRow(file, line, str(error), table)


@contextlib.contextmanager
def writing(path: str | os.PathLike[str]) -> Iterator[None]:
    """What goes wrong inside with the system is a failure to write `path`."""
    try:
        yield
    except OSError as error:
        raise Refusal(f"{os.fspath(path)}: {error.strerror or error}", Status.CANNOT_WRITE) from error


@contextlib.contextmanager
def reading(path: str | os.PathLike[str]) -> Iterator[None]:
    """What goes wrong inside with the system is a failure to read `path`; a file that is not there is a bad graph."""
    try:
        yield
    except FileNotFoundError as error:
        raise Refusal(f"{os.fspath(path)}: there is no file of this name") from error
    except OSError as error:
        raise Refusal(f"{os.fspath(path)}: {error.strerror or error}", Status.CANNOT_READ) from error


def package(module: str) -> Refusal:
    """The refusal for want of a Python module, with the Debian package that brings it."""
    why = f"the Python module {module} is missing: tools/setup installs {package_of(module)}"
    return Refusal(why, Status.NOT_INSTALLED)


def typed(tool: str) -> str:
    """A tool as it is to be typed here: by its name where that finds it, else beside the one that runs.

    The executables of a clone say in a variable how they were called.
    """
    own = sys.argv[0] if Path(sys.argv[0]).name.startswith("graphq-") else tool
    called = os.environ.get("GRAPHQ_CALLED", own)
    beside = Path(called).with_name(tool)
    found = shutil.which(tool)
    if "/" not in called or (found and beside.exists() and beside.samefile(found)):
        return tool
    # A path without a slash would be looked for on the PATH.
    return shlex.quote(str(beside) if "/" in str(beside) else f"./{beside}")


def prepare_streams() -> None:
    """Lets the standard streams carry bytes that are no UTF-8, whatever the locale: what is wrong with them, graphq says.

    One that is closed is an input without bytes, or an output that takes none.
    """
    if sys.stdin is None:
        sys.stdin = open(os.devnull)
    if sys.stdout is None:
        sys.stdout = open(os.open(os.devnull, os.O_RDONLY), "w")
    if sys.stderr is None:
        sys.stderr = open(os.devnull, "w")
    for stream in (sys.stdin, sys.stdout, sys.stderr):
        if isinstance(stream, io.TextIOWrapper):
            stream.reconfigure(encoding="utf-8", errors="surrogateescape")


def _drop_output() -> None:
    """Lets go what could not be written: the interpreter is not to complain once more at its end."""
    with contextlib.suppress(OSError):
        os.dup2(os.open(os.devnull, os.O_WRONLY), sys.stdout.fileno())


def run(tool: str, main: Callable[[Sequence[str]], int]) -> int:
    """Runs a tool on the arguments of the command line; a refusal is one line on standard error, and never a traceback."""
    try:
        status = main(sys.argv[1:])
        sys.stdout.flush()
        return int(status)
    except Refusal as refusal:
        for line in refusal.lines:
            print(f"{tool}: {line}", file=sys.stderr)
        return int(refusal.status)
    except BrokenPipeError:
        # Whoever read the output has gone.
        _drop_output()
        return int(Status.CANNOT_WRITE)
    except OSError as error:
        print(f"{tool}: {error}", file=sys.stderr)
        _drop_output()
        return int(Status.CANNOT_WRITE)
    except MemoryError:
        print(f"{tool}: there is not enough memory", file=sys.stderr)
        return int(Status.NO_MEMORY)
    except KeyboardInterrupt:
        print(f"{tool}: stopped", file=sys.stderr)
        return 130
