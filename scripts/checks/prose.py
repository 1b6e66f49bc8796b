"""The English of documents and comments: coined words for which the field has a term, and long sentences.

prose.txt beside this file has, for each part of the tree, how many of both it may have. New text adds none; whoever rewrites a part
lowers its numbers by `scripts/check --fix`."""
from __future__ import annotations

import collections
import re
from typing import Iterator

from checks.tree import Tree

ALLOWED = "scripts/checks/prose.txt"
# The most words of a sentence.
MOST_WORDS = 35
# What not to write, and what to write in its place.
COINED = {
    r"wants? of memory|refused memory": "out of memory, allocation fails",
    r"where": "if (places alone are where something is)",
    r"stands?|standing": "is, has, holds",
    r"told|tells?": "known, says, returns",
    r"wants?|wanted": "needs, requires",
    r"(?:is|are|was|be) (?:asked|had)|asks for": "requires, calls",
    r"wrong bod(?:y|ies)": "mutant",
    r"peer|yardstick": "baseline",
    r"spots?": "index, offset",
    r"deeds?": "action",
    r"mates?": "member",
    r"leans?": "overhang",
    r"stretch(?:es)?": "segment",
    r"so many": "n, as many as",
    r"in turn": "one after another, each",
    r"or else": "otherwise",
    r"mostly": "usually",
}
WORDS = re.compile(r"\b(?:" + "|".join(COINED) + r")\b", re.IGNORECASE)
COMMENT = {
    ".rt": re.compile(r"//[/!]?(.*)"),
    ".h": re.compile(r"(?://|^ ?\*|/\*)(.*)", re.MULTILINE),
    ".antt": re.compile(r"(?:^|\s)--(?: |$)(.*)", re.MULTILINE),
    ".py": re.compile(r'#([^\n]*)|"""(.*?)"""', re.DOTALL),
}
COMMENT[".rs"] = COMMENT[".rt"]


def part_of(path: str) -> str:
    """Returns the part of the tree that a path is counted with."""
    names = path.split("/")
    return "/".join(names[:2]) if names[0] in ("crates", "docs") else names[0]


def prose_of(path: str, text: str) -> str:
    """Returns the prose of a document, or the comments of a source; empty for other files."""
    if path.endswith(".md"):
        return re.sub(r"`[^`\n]*`", "it", re.sub(r"^```.*?^```", "", text, flags=re.MULTILINE | re.DOTALL))
    comment = COMMENT.get(path[path.rfind("."):])
    if not comment:
        return ""
    return re.sub(r"`[^`\n]*`", "it", "\n".join("".join(part for part in found.groups() if part) for found in comment.finditer(text)))


def long_sentences(prose: str) -> list[str]:
    """Returns the sentences, items and cells with too many words."""
    parts = re.split(r"\n\s*\n|\n(?=\s*(?:[-*]|\d+\.) )|\||(?<=[.!?:;])\s", prose)
    return [" ".join(part.split()) for part in parts if len(part.split()) > MOST_WORDS]


def counts(tree: Tree) -> dict[str, tuple[int, int]]:
    """Returns the number of coined words in the prose of each part, and of long sentences in its documents and headers."""
    found: dict[str, list[int]] = collections.defaultdict(lambda: [0, 0])
    for path, text in tree.texts.items():
        prose = prose_of(path, text) if path != "scripts/checks/prose.py" else ""
        found[part_of(path)][0] += len(WORDS.findall(prose))
        if path.endswith((".md", ".h")):
            found[part_of(path)][1] += len(long_sentences(prose))
    return {part: (words, sentences) for part, (words, sentences) in sorted(found.items()) if words or sentences}


def allowed(tree: Tree) -> dict[str, tuple[int, int]]:
    lines = (line.split() for line in tree.texts.get(ALLOWED, "").splitlines() if line[:1] != "#")
    return {part: (int(words), int(sentences)) for part, words, sentences in lines}


def faults(tree: Tree) -> Iterator[str]:
    most = allowed(tree)
    for part, (words, sentences) in counts(tree).items():
        most_words, most_sentences = most.get(part, (0, 0))
        if words > most_words:
            yield f"{part}: {words} coined words, {most_words} before: scripts/check --list prose {part}"
        if sentences > most_sentences:
            yield f"{part}: {sentences} sentences of more than {MOST_WORDS} words, {most_sentences} before: scripts/check --list prose {part}"


def rows(tree: Tree, chosen: list[str]) -> Iterator[str]:
    """Yields each coined word with what to write, and each long sentence, of the crates."""
    for path, text in tree.texts.items():
        if path.split("/")[1:2] and path.split("/")[0] == "crates" and path.split("/")[1] not in chosen:
            continue
        prose = prose_of(path, text) if path != "scripts/checks/prose.py" else ""
        for line in prose.splitlines():
            for word in WORDS.findall(line):
                advice = next(use for pattern, use in COINED.items() if re.fullmatch(pattern, word, re.IGNORECASE))
                yield f"{path}: {word}: {advice}: {line.strip()[:100]}"
        if path.endswith((".md", ".h")):
            yield from (f"{path}: {len(it.split())} words: {it[:100]}" for it in long_sentences(prose))


def fix(tree: Tree) -> None:
    """Writes the counts of today, of each part that has no more than before."""
    most, now = allowed(tree), counts(tree)
    kept = {part: tuple(map(min, most.get(part, (0, 0)), now[part])) for part in now}
    kept = {part: it for part, it in kept.items() if any(it)}
    text = "# Part of the tree, its coined words, its long sentences (prose.py)\n"
    (tree.top / ALLOWED).write_text(text + "".join(f"{part} {words} {sentences}\n" for part, (words, sentences) in kept.items()))
