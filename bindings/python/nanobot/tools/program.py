"""The program `nanobot` as a process of its own: a run that takes too long can be stopped, and other hosts can run
it."""

from __future__ import annotations

import os
import shutil
import signal
import subprocess
import sys
import threading
from concurrent.futures import ThreadPoolExecutor, wait
from contextlib import contextmanager
from types import FrameType
from typing import Any, Iterable, Iterator, Optional, Set, Tuple

from ..progress import Progress


class Unavailable(Exception):
    """There is no program or no temporary folder: the tools end with 12."""


def program() -> str:
    """Returns the path of the program: the one that NANOBOT names, that of the installation that Python or the command
    `nanobot` on the PATH belongs to, or that command. Raises Unavailable."""
    command = shutil.which("nanobot")
    prefixes = [sys.prefix, *([os.path.dirname(os.path.dirname(os.path.realpath(command)))] if command else [])]
    installed = [os.path.join(prefix, "lib", "nanobot", "nanobot") for prefix in prefixes]
    found = os.environ.get("NANOBOT") or next(filter(os.path.exists, installed), command)
    if not found or not os.access(found, os.X_OK):
        raise Unavailable("there is no program: ./prove builds it, or NANOBOT names one")
    return os.path.abspath(found)


def _stop(number: int, _: Optional[FrameType]) -> None:
    raise SystemExit(128 + number)


@contextmanager
def stoppable() -> Iterator[None]:
    """Makes TERM and HUP raise SystemExit in this block, as Ctrl-C raises KeyboardInterrupt, so that started work is
    ended."""
    numbers = [number for number in (signal.SIGTERM, signal.SIGHUP) if signal.getsignal(number) != signal.SIG_IGN]
    before = {number: signal.signal(number, _stop) for number in numbers}
    try:
        yield
    finally:
        for number, handler in before.items():
            signal.signal(number, handler)


class Runs:
    """Calls of the program, at most `jobs` at a time; one that takes more than `seconds` is stopped. Those under way
    end with the block."""

    def __init__(self, jobs: int, seconds: Optional[int]) -> None:
        self._program, self._seconds = program(), seconds
        self._pool = ThreadPoolExecutor(jobs)
        self._lock = threading.Lock()
        self._children: Set[subprocess.Popen[bytes]] = set()
        self._ended = False

    def __enter__(self) -> Runs:
        return self

    def __exit__(self, *_: Any) -> None:
        with self._lock:
            self._ended = True
            for child in self._children:
                child.kill()
        self._pool.shutdown(cancel_futures=True)

    def _start(self, words: Tuple[str, ...]) -> subprocess.Popen[bytes]:
        with self._lock:
            if self._ended:
                raise Unavailable("stopped")
            child = subprocess.Popen(
                [self._program, *words], stdin=subprocess.DEVNULL, stdout=subprocess.PIPE, stderr=subprocess.STDOUT
            )
            self._children.add(child)
        return child

    def answer(self, words: Tuple[str, ...]) -> Tuple[bool, str]:
        """Returns whether the program does what the words say, and what it prints."""
        child = self._start(words)
        try:
            said = os.fsdecode(child.communicate(timeout=self._seconds)[0]).strip()
        except subprocess.TimeoutExpired:
            child.kill()
            child.communicate()
            said = f"stopped after {self._seconds} s"
        with self._lock:
            self._children.discard(child)
        return child.returncode == 0, said or f"no answer, status {child.returncode}"

    def answers(self, what: str, calls: Iterable[Tuple[str, ...]]) -> Iterator[Tuple[bool, str]]:
        """Yields the answers to calls in their order, once all have come. Shows how far that is."""
        pending = [self._pool.submit(self.answer, words) for words in calls]
        progress, left = Progress(what, len(pending)), set(pending)
        while left:
            _, left = wait(left, timeout=0.2)
            progress.show(len(pending) - len(left))
        progress.clear()
        yield from (future.result() for future in pending)
