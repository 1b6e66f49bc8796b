"""The arguments of the benchmarks, and the program that they measure."""

from __future__ import annotations

import argparse
from pathlib import Path
from typing import NoReturn

TOP = Path(__file__).resolve().parents[1]
PROGRAM = TOP / "out/nanobot"


class Parser(argparse.ArgumentParser):
    """Answers --help with the text of a module, and wrong arguments with one line."""

    def __init__(self, name: str, text: str | None) -> None:
        super().__init__(prog=f"bench/bench {name}", allow_abbrev=False)
        self._text = text or ""

    def format_help(self) -> str:
        return f"{self._text}\n"

    def error(self, message: str) -> NoReturn:
        self.exit(2, f"{self.prog}: {message}: --help says more\n")

    def existing(self, path: Path) -> Path:
        """The whole path of a program or a library; ends with 12 if it is not there."""
        if not path.exists():
            self.exit(12, f"{self.prog}: there is no {path}: ./prove builds out/nanobot and out/libnanobot.a\n")
        return path.resolve()
