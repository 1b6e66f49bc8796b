"""Modules of a crate's proofs/ that other crates cite: the crate's README lists exactly those, in a table of its own."""
from __future__ import annotations

import collections
import re
from typing import Iterator

from checks.tree import Tree, crate_of

SECTION = "## Lemmas that other crates cite"
CITED = re.compile(r"\bRattle\.(\w+)\.proofs\.(\w+)|\b(\w+)::proofs::(\w+)")
LISTED = re.compile(r"^\| `proofs/(\w+)`", re.MULTILINE)


def citations(tree: Tree) -> dict[tuple[str, str], set[str]]:
    """For each crate and module of its proofs/, the other crates that cite it."""
    found: dict[tuple[str, str], set[str]] = collections.defaultdict(set)
    for path, text in tree.files():
        if path.endswith((".antt", ".rt")):
            for names in CITED.findall(text):
                lower, module = names[0] or names[2], names[1] or names[3]
                if lower in tree.crates and lower != crate_of(path):
                    found[lower, module].add(crate_of(path))
    return found


def _listed(tree: Tree, crate: str) -> set[str]:
    return set(LISTED.findall(tree.readme(crate).partition(SECTION)[2]))


def faults(tree: Tree) -> Iterator[str]:
    cited = citations(tree)
    for crate in tree.crates:
        listed = _listed(tree, crate)
        there = {module for lower, module in cited if lower == crate}
        for module in sorted(there - listed):
            yield f"crates/{crate}/README.md: does not list proofs/{module}, which {', '.join(sorted(cited[crate, module]))} cite"
        for module in sorted(listed - there):
            yield f"crates/{crate}/README.md: lists proofs/{module}, which no other crate cites"


def rows(tree: Tree, crates: list[str]) -> Iterator[str]:
    cited = citations(tree)
    for crate, module in sorted(cited, key=lambda it: (list(tree.crates).index(it[0]), it[1])):
        if crate in crates:
            yield f"{crate}/proofs/{module}: {', '.join(sorted(cited[crate, module]))}"
