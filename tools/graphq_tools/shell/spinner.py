"""Says on the screen that something runs, and how long it has, from its second second on."""

from __future__ import annotations

import sys
import threading
import time
from types import TracebackType

_SIGNS = "|/-\\"
_BEFORE = 1.0
_BETWEEN = 0.2


class Spinner:
    """A line that turns while its block runs, and is gone at its end. Without anybody at a screen it does nothing."""

    def __init__(self, what: str, shown: bool) -> None:
        self._what = what
        self._begin = time.monotonic()
        self._ended = threading.Event()
        self._thread = threading.Thread(target=self._turn, daemon=True) if shown else None

    def __enter__(self) -> Spinner:
        if self._thread is not None:
            self._thread.start()
        return self

    def __exit__(
        self, kind: type[BaseException] | None, error: BaseException | None, trace: TracebackType | None
    ) -> None:
        self._ended.set()
        if self._thread is not None:
            self._thread.join()

    def _turn(self) -> None:
        turns = 0
        while not self._ended.wait(_BETWEEN if turns else _BEFORE):
            seconds = time.monotonic() - self._begin
            sys.stderr.write(f"\r{_SIGNS[turns % len(_SIGNS)]} {self._what} {seconds:.0f} s; Ctrl-C stops it ")
            sys.stderr.flush()
            turns += 1
        if turns:
            sys.stderr.write("\r\x1b[K")
            sys.stderr.flush()
