"""How far a long piece of work is, for whoever waits at a terminal."""

from __future__ import annotations

import sys
import time
from typing import TextIO

PATIENCE = 2.0


class Progress:
    """Shows on standard error, if it is a terminal, how much of a trace is done, once that takes longer than two seconds."""

    def __init__(self, what: str, total: int, stream: TextIO = sys.stderr) -> None:
        self._what, self._total, self._stream = what, max(total, 1), stream
        self._due = time.monotonic() + PATIENCE if stream.isatty() else float("inf")
        self._width = 0

    def show(self, done: int) -> None:
        """Shows that so much of the total is done."""
        if time.monotonic() < self._due:
            return
        text = f"{self._what}: {100 * done // self._total} %"
        self._stream.write(f"\r{text}")
        self._stream.flush()
        self._width, self._due = len(text), time.monotonic() + 0.2

    def clear(self) -> None:
        """Removes what was shown."""
        if self._width:
            self._stream.write("\r" + " " * self._width + "\r")
            self._stream.flush()
            self._width = 0
