"""The files of the repository, read once, and its crates."""
from __future__ import annotations

import os
import pathlib
import re
from typing import Iterator

# Folders that commands fill, and that are no part of the repository.
BUILT = {".git", "__pycache__", "dist", "out", "target"}
# Files that the prover or rt names, beside the lemmas of proofs/.
GOALS = {"Answers.antt", "Invariants.antt", "Proof.antt"}


class Tree:
    """The text of each file by its path from the top, and the crates of crates.txt with those below them."""

    def __init__(self, top: pathlib.Path) -> None:
        self.top = top
        self.texts = dict(sorted(self._read()))
        listed = [line.split(":") for line in self.texts["crates.txt"].splitlines() if line and line[0] != "#"]
        self.crates = {name.split()[0]: below.split() for name, below in listed}

    def _read(self) -> Iterator[tuple[str, str]]:
        for folder, inner, names in os.walk(self.top):
            inner[:] = [name for name in inner if name not in BUILT]
            for name in names:
                path = os.path.join(folder, name)
                if os.path.isfile(path) and not name.endswith((".a", ".so")):
                    with open(path, encoding="utf-8", errors="replace", newline="") as file:
                        yield os.path.relpath(path, self.top), file.read()

    def files(self, part: str = "", suffix: str = "") -> Iterator[tuple[str, str]]:
        """Yields the path and text of each file below that folder of any crate, such as `specs`, with that suffix."""
        pattern = re.compile(rf"crates/[^/]+/{part}.*{re.escape(suffix)}$", re.DOTALL)
        return ((path, text) for path, text in self.texts.items() if pattern.match(path))

    def lemmas(self) -> Iterator[tuple[str, str]]:
        """Yields the files of proofs/ that have lemmas: those that neither answer a goal nor list the others."""
        return ((path, text) for path, text in self.files("proofs/", ".antt") if path.rsplit("/", 1)[1] not in GOALS | {"Lib.antt"})

    def readme(self, crate: str) -> str:
        """Returns the text of a crate's README, empty if there is none."""
        return self.texts.get(f"crates/{crate}/README.md", "")

    def below(self, names: set[str]) -> set[str]:
        """Returns these crates and all crates of the repository below them."""
        found = set(names)
        while more := {it for crate in found for it in self.crates[crate] if it in self.crates} - found:
            found |= more
        return found


def crate_of(path: str) -> str:
    """Returns the crate of a path below crates/."""
    return path.split("/", 2)[1]
