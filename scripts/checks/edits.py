"""Mutants (crates/*/must-fail/) and wrong definitions (mistakes/) that apply: the old text of each change occurs exactly once in its
file. And no file has a mark that a merge left."""
from __future__ import annotations

import re
from typing import Iterator

from checks.tree import Tree

EDIT = re.compile(r"(crates/[^/]+/)must-fail/[^/]+\.edit|mistakes/[^/]+\.edit", re.DOTALL)
MARK = re.compile(r"^(?:<{7} |>{7} |={7}$)", re.MULTILINE)


def faults(tree: Tree) -> Iterator[str]:
    for path, text in tree.texts.items():
        if found := EDIT.fullmatch(path):
            yield from _faults_of_edit(tree, path, text, found[1] or "")
        if MARK.search(text):
            yield f"{path}: has a mark that a merge left"


def _faults_of_edit(tree: Tree, path: str, text: str, folder: str) -> Iterator[str]:
    target = ""
    for line in text.split("\n"):
        key, _, value = line.partition(": ")
        if key == "file":
            target = folder + value
            if target not in tree.texts:
                yield f"{path}: changes {target}, which does not exist"
        elif key == "old" and target in tree.texts:
            count = tree.texts[target].count(value)
            if count != 1:
                yield f"{path}: {target} has the old text {count} times: {value}"


def summary(tree: Tree) -> str:
    return f"{sum(bool(EDIT.fullmatch(path)) for path in tree.texts)} edits"
