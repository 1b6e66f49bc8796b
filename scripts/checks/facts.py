"""Facts that are proved twice: statements of lemmas that are the same up to the names of what they bind."""
from __future__ import annotations

import collections
import re
from typing import Iterator

from checks.tree import Tree, crate_of

# The copies that are known. A new one is a fault.
MOST_COPIES = 19
HEAD = re.compile(r"^(?:pub )?([a-z_][\w\-]*) : (.*)$")
BINDER = re.compile(r"[({]((?:[^\s(){}:]+ )*[^\s(){}:]+) : ")
LAMBDA = re.compile(r"λ ((?:\([^)]*\) ?|[^\s.()]+ ?)+)\.")
WORD = re.compile(r"[^\s(){}\[\],;]+")


def _statements(text: str) -> Iterator[tuple[str, str]]:
    """Yields the lemmas of a file with their statements; those within another lemma are left out."""
    lines, at = text.split("\n"), 0
    while at < len(lines):
        found = HEAD.match(lines[at])
        at += 1
        if not found:
            continue
        name, statement = found.groups()
        while at < len(lines) and lines[at].startswith(" "):
            statement += " " + lines[at].strip()
            at += 1
        following = lines[at].strip() if at < len(lines) else ""
        if following.startswith(name + " ") and "=" in following or following.startswith("unfolding"):
            yield name, statement


def _normal(statement: str) -> str:
    """Returns the statement with its bound names numbered in their order."""
    text = re.sub(r"\s+", " ", re.sub(r"\{-.*?-\}", "", statement)).strip()
    numbers: dict[str, str] = {}
    bound = [name for group in BINDER.findall(text) for name in group.split()]
    bound += [name for group in LAMBDA.findall(text) for name in WORD.findall(group) if name != ":"]
    for name in bound:
        numbers.setdefault(name, f"v{len(numbers)}")

    def numbered(word: re.Match[str]) -> str:
        first, dot, rest = word[0].partition(".")
        return numbers.get(word[0]) or numbers.get(first, first) + dot + rest

    return WORD.sub(numbered, text)


def copies(tree: Tree) -> list[tuple[str, list[tuple[str, str]]]]:
    """Returns the statements that are proved more than once, with the file and name of each lemma; those of several crates first."""
    found: dict[str, list[tuple[str, str]]] = collections.defaultdict(list)
    for path, text in tree.lemmas():
        for name, statement in _statements(text):
            if "→" in statement or "≡" in statement:
                found[_normal(statement)].append((path, name))
    several = [(statement, places) for statement, places in found.items() if len(places) > 1]
    return sorted(several, key=lambda it: (-len({crate_of(path) for path, _ in it[1]}), -len(it[1]), it[0]))


def faults(tree: Tree) -> Iterator[str]:
    count = sum(len(places) - 1 for _, places in copies(tree))
    if count > MOST_COPIES:
        yield f"{count} copies of lemmas, and there may be {MOST_COPIES}: scripts/check --list facts shows them"


def rows(tree: Tree, crates: list[str]) -> Iterator[str]:
    for statement, places in copies(tree):
        if any(crate_of(path) in crates for path, _ in places):
            yield f"{len(places)} {statement[:160]}"
            yield from (f"    {path} {name}" for path, name in places)
