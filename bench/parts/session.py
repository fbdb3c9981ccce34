"""The programs that load a graph once and are asked again and again: the floor, which is the hand-written C++, sqlite3, and graphq."""
import fcntl
import os
import re
import select
import struct
import subprocess
import termios
import time
from collections.abc import Sequence
from typing import IO

from .engine import ROWS
from .queries import Query
from .schemas import SCHEMAS

LOADING = 3000  # processor seconds that a load may take
WAITING = 30    # how many times as long an answer may take on a busy machine
NULL = "/dev/null"
FIRST = "RETURN 1;"  # any statement: when it is answered, the graph is there


class Stopped(Exception):
    """A program that gave no answer: it took too long, ended, or complained."""


def about(process: int, name: str) -> int:
    """A line of what the system tells of a process, as a number."""
    with open(f"/proc/{process}/status", encoding="ascii", errors="replace") as status:
        found = re.search(name + r":\s+(\d+)", status.read())
    assert found, f"the system does not tell {name}"
    return int(found[1])


class Session:
    """A program that reads requests from its standard input."""

    name = ""

    def __init__(self, command: Sequence[str], limit: float, folder: str | None = None, out: int | None = None) -> None:
        self.command, self.limit, self.folder, self.out = command, limit, folder, out
        self.start()

    def start(self) -> None:
        """Starts the program, and has it load the graph."""
        out, error = (subprocess.PIPE, subprocess.STDOUT) if self.out is None else (self.out, subprocess.DEVNULL)
        self.rest = b""
        self.child = subprocess.Popen(self.command, cwd=self.folder, stdin=subprocess.PIPE, stdout=out, stderr=error)
        try:
            self.loads()
        except BaseException:
            self.close()
            raise
        self.load, self.load_peak, self.resident = self.seconds(), self.peak(), about(self.child.pid, "VmRSS") / 1024

    def loads(self) -> None:
        """Waits until the graph is there."""
        raise NotImplementedError

    def answer(self, query: Query, out: str, copies: int) -> None:
        """Has a query answered so many times, asked in one go."""
        raise NotImplementedError

    def entry(self) -> IO[bytes]:
        """Its standard input."""
        assert self.child.stdin
        return self.child.stdin

    def write(self, text: str) -> None:
        try:
            self.entry().write(text.encode())
            self.entry().flush()
        except BrokenPipeError as why:
            raise Stopped(self.ended()) from why

    def ended(self) -> str:
        """How it ended."""
        status = self.child.wait()
        return f"status {status}" if status >= 0 else f"signal {-status}"

    def ask(self, text: str, last: str, limit: float | None = None, times: int = 1) -> list[str]:
        """Sends `text`, reads until the line `last` has come so often, and gives the other lines. `limit` is in processor seconds."""
        self.write(text)
        limit = limit or self.limit
        begun, end = self.seconds(), time.monotonic() + WAITING * limit
        lines: list[str] = []
        assert self.child.stdout
        while True:
            while b"\n" in self.rest:
                line, self.rest = self.rest.split(b"\n", 1)
                if line.decode(errors="replace") != last:
                    lines.append(line.decode(errors="replace"))
                    continue
                times -= 1
                if times == 0:
                    return lines
            while not select.select([self.child.stdout], [], [], 1)[0]:
                if self.seconds() - begun > limit or time.monotonic() > end:
                    raise Stopped("timeout")
            more = os.read(self.child.stdout.fileno(), 65536)
            if not more:
                raise Stopped(" / ".join(lines[-3:]) or "it ended")
            self.rest += more

    def seconds(self) -> float:
        """Its processor time so far: the clock that clock_getcpuclockid(3) gives for its process."""
        return time.clock_gettime((~self.child.pid << 3) | 2)

    def peak(self) -> float:
        """The greatest memory in use, in MB, since the last call of `forget_peak`."""
        return about(self.child.pid, "VmHWM") / 1024

    def forget_peak(self) -> None:
        with open(f"/proc/{self.child.pid}/clear_refs", "w", encoding="ascii") as file:
            file.write("5")

    def measure(self, query: Query, copies: int = 1, out: str = NULL) -> float:
        """Processor seconds of one of so many requests, asked in one go."""
        before = self.seconds()
        self.answer(query, out, copies)
        return (self.seconds() - before) / copies

    def again(self) -> None:
        """Ends it, whatever it does, and loads anew."""
        self.close()
        self.start()

    def close(self) -> None:
        self.child.kill()
        self.child.communicate()


class Floor(Session):
    """The hand-written C++, with a graph in memory."""

    name = "C++"

    def __init__(self, program: str, kind: str, folder: str, limit: float) -> None:
        super().__init__([program, kind, folder], limit)

    def loads(self) -> None:
        self.ask("", "LOADED", LOADING)

    def answer(self, query: Query, out: str, copies: int) -> None:
        words = [query.name, out, query.header().replace("\t", "\x1f"), *map(str, query.numbers)]
        self.ask(("\t".join(words) + "\n") * copies, "DONE", times=copies)


class Sqlite(Session):
    """sqlite3's shell, with a graph in memory and indexes."""

    name = "sqlite3"

    def __init__(self, kind: str, files: str, limit: float) -> None:
        self.kind, self.files = kind, files
        super().__init__(["stdbuf", "-oL", "sqlite3", "-batch", ":memory:"], limit)

    def loads(self) -> None:
        first = ["PRAGMA cache_size = -1000000;", "PRAGMA temp_store = MEMORY;", ".mode tabs", ".nullvalue null", ".headers off"]
        lines = self.ask("\n".join([*first, *SCHEMAS[self.kind].statements(self.files), ".print DONE\n"]), "DONE", LOADING)
        if lines:
            raise Stopped(f"sqlite3 does not load {self.files}: {lines[0]}")

    def answer(self, query: Query, out: str, copies: int) -> None:
        lines = self.ask(f'.output "{out}"\n' + f"{query.sql};\n" * copies + ".output stdout\n.print DONE\n", "DONE")
        if lines:
            raise Stopped(lines[0])


class Engine(Session):
    """graphq. Nothing but its replies comes from it, and they go to one file: it has answered when it has read all that
    it was sent and sleeps, which it does nowhere but in wait for more."""

    name = "graphq"

    def __init__(self, program: str, options: Sequence[str], folder: str, limit: float, out: str = NULL) -> None:
        self.kept = out != NULL
        self.sink = os.open(out, os.O_RDWR | os.O_CREAT | os.O_TRUNC, 0o644)
        super().__init__([program, "--manifest", "g.manifest", "--rows", ROWS, *options], limit, folder, self.sink)

    def loads(self) -> None:
        self.send(FIRST, LOADING)

    def answer(self, query: Query, out: str, copies: int) -> None:
        """The replies are all that stands in the file that the session was made with, whatever `out` is."""
        if self.kept:
            os.lseek(self.sink, 0, os.SEEK_SET)
            os.ftruncate(self.sink, 0)
        self.send((query.text + ";") * copies, self.limit)

    def send(self, text: str, limit: float) -> None:
        """Sends a text, and waits until it is answered."""
        begun, end, pause = self.seconds(), time.monotonic() + WAITING * limit, 0.0001
        self.write(text)
        while not self.waits():
            if self.child.poll() is not None:
                raise Stopped(self.ended())
            if self.seconds() - begun > limit or time.monotonic() > end:
                raise Stopped("timeout")
            time.sleep(pause)
            pause = min(0.002, 1.2 * pause)

    def waits(self) -> bool:
        """Whether it sleeps, with nothing left to be read."""
        left = fcntl.ioctl(self.entry().fileno(), termios.FIONREAD, b"\0" * 4)
        with open(f"/proc/{self.child.pid}/stat", encoding="ascii", errors="replace") as file:
            sleeps = file.read().rpartition(")")[2].split()[0] == "S"
        return sleeps and struct.unpack("i", left) == (0,)
