"""graphq in whole runs: each is a new process in a graph's folder, with a text as its input."""
import os
import re
import resource
import signal
import subprocess
from collections.abc import Sequence
from dataclasses import dataclass

ROWS = "16777216"  # the greatest number of rows that graphq keeps


@dataclass
class Run:
    """One run: its processor seconds, its peak in MB and how it ended."""

    seconds: float
    peak: float
    end: str


def run_here(limit: int, entry: str, out: str, command: Sequence[str], folder: str) -> Run:
    """A run without the small program `once`: the peak is at least that of this process."""
    with open(entry, "rb") as source, open(out, "wb") as sink:
        child = subprocess.Popen(command, cwd=folder, stdin=source, stdout=sink, stderr=subprocess.DEVNULL)
        resource.prlimit(child.pid, resource.RLIMIT_CPU, (limit, limit + 1))
        _, status, use = os.wait4(child.pid, 0)
    child.returncode = os.waitstatus_to_exitcode(status)
    seconds = use.ru_utime + use.ru_stime
    end = f"status {child.returncode}" if child.returncode >= 0 else f"signal {-child.returncode}"
    if -child.returncode in (signal.SIGXCPU, signal.SIGKILL) and seconds >= limit:
        end = "timeout"
    return Run(seconds, use.ru_maxrss / 1024, end)


class Graphq:
    """A built program over one graph. `once` is the program that runs it, or nothing."""

    name = "graphq"

    def __init__(
        self, program: str, options: Sequence[str], once: str | None, folder: str, room: str, limit: float
    ) -> None:
        self.command = [program, "--manifest", "g.manifest", "--rows", ROWS, *options]
        self.once, self.folder, self.room, self.limit = once, folder, room, limit

    def run(self, text: str, out: str = "/dev/null") -> Run:
        """One run with `text` as its input."""
        entry = os.path.join(self.room, "input")
        with open(entry, "w", encoding="utf8") as file:
            file.write(text)
        if not self.once:
            return run_here(int(self.limit) + 1, entry, out, self.command, self.folder)
        told = subprocess.run([self.once, str(int(self.limit) + 1), entry, out, *self.command], cwd=self.folder,
                              stdout=subprocess.PIPE, text=True, check=True).stdout
        seconds, peak, end = told.rstrip("\n").split(" ", 2)
        return Run(float(seconds), int(peak) / 1024, end)


def calls_of(command: Sequence[str], text: str, folder: str, room: str) -> dict[str, int]:
    """How many reads and writes one run makes of the system, by strace."""
    entry, told = os.path.join(room, "input"), os.path.join(room, "calls")
    with open(entry, "w", encoding="utf8") as file:
        file.write(text)
    with open(entry, "rb") as source:
        subprocess.run(["strace", "-f", "-c", "-e", "trace=read,write", "-o", told, *command], cwd=folder,
                       stdin=source, stdout=subprocess.DEVNULL, stderr=subprocess.DEVNULL, check=False)
    with open(told, encoding="utf8", errors="replace") as file:
        rows = [line.split() for line in file]
    return {row[-1]: int(row[3]) for row in rows if row and row[-1] in ("read", "write") and re.fullmatch(r"\d+", row[3])}
