"""Bundles: clauses that several functions of a crate share letter for letter, three and more on two functions, or two on four. A bundle
may be one named record in specs/. It is a place to look at, and no fault: what is ensured of an `IfOk` does not join well
(docs/PROVING.md), and the crates above cite a public function's clauses."""
from __future__ import annotations

import dataclasses
import itertools
import re
from typing import Iterator

from checks.tree import Tree

FUNCTION = re.compile(r"\s*(?:pub(?:\([a-z]+\))? )?(?:const )?(?:unsafe )?(?:extern \"C\" )?fn (\w+)")
CLAUSE = re.compile(r"\s*(?:requires|ensures)\b.*\{")


@dataclasses.dataclass
class Function:
    name: str
    place: str
    clauses: list[str]


def _functions(tree: Tree, crate: str) -> Iterator[Function]:
    head = f"crates/{crate}/src/"
    for path, text in tree.files("src/", ".rt"):
        if not path.startswith(head):
            continue
        function, lines = None, enumerate(text.split("\n"), 1)
        for number, line in lines:
            if found := FUNCTION.match(line):
                function = Function(found[1], f"{path[len(head):]}:{number}", [])
                yield function
            if function and CLAUSE.match(line):
                clause = line
                while clause.count("{") > clause.count("}"):
                    clause += " " + next(lines)[1].strip()
                function.clauses.append(" ".join(clause.split()))


def bundles(tree: Tree, crate: str) -> Iterator[tuple[str, tuple[str, ...], list[Function]]]:
    """Yields each large enough set of clauses that two functions share, with all functions that have it."""
    functions = list(_functions(tree, crate))
    pairs = itertools.combinations(functions, 2)
    for clauses in {tuple(it for it in one.clauses if it in other.clauses) for one, other in pairs}:
        having = [function for function in functions if all(it in function.clauses for it in clauses)]
        if len(clauses) >= 3 or len(clauses) == 2 and len(having) >= 4:
            yield crate, clauses, having


def rows(tree: Tree, crates: list[str]) -> Iterator[str]:
    """Yields the bundles, those first that would save most lines."""
    found = [bundle for crate in crates for bundle in bundles(tree, crate)]
    found.sort(key=lambda it: (-(len(it[1]) - 1) * len(it[2]), it[0], it[1]))
    for crate, clauses, having in found:
        yield f"{crate}: {len(clauses)} clauses on {len(having)} functions: {', '.join(f'{it.name} ({it.place})' for it in having)}"
        yield from (f"    {clause}" for clause in clauses)
