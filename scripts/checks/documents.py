"""The documents: links, names of files, samples, tables of files, and what they say of crates, calls, counts and the version."""
from __future__ import annotations

import importlib.machinery
import importlib.util
import re
from typing import Iterator

from checks.tree import Tree

MOST_WIDTH = 600
# Crates of tests alone, and of a planner to copy, of which nothing is promised.
UNPROMISED = {"voxel_tests", "file_tests", "step_tests", "planner_tests", "worked_rows", "floor_planner"}
LINK = re.compile(r"\]\(([^)#:\s]+)(?:#[^)]*)?\)")
NAMED = re.compile(r"`((?:bench|bindings|crates|docs|examples|include|mistakes|package|reference|scripts)/[\w./-]+)(?: [^`]*)?`")
TRY = re.compile(r"\bscripts/try((?: [a-z]+)+)`")
SCRIPT = re.compile(r"\bscripts/(?:tries/|checks/)?[\w.]*\w")
SAMPLE = re.compile(r"^```rust\n(.*?)\n```$", re.MULTILINE | re.DOTALL)
FILE_ROW = re.compile(r"^\| `((?:src|specs)/[\w./]+)` ", re.MULTILINE)
REEXPORT = re.compile(r"^pub use [\w:]+?::(?:\{([^}]*)\}|(\w+));", re.MULTILINE)


def faults(tree: Tree) -> Iterator[str]:
    yield from _faults_of_mentions(tree)
    pages = {path: text for path, text in tree.texts.items() if path.endswith(".md")}
    sources = [text for _, text in tree.files("src/", ".rt")]
    for path, text in pages.items():
        yield from _faults_of_page(tree, path, text)
        yield from _faults_of_samples(path, text, sources)
    for crate in tree.crates:
        yield from _faults_of_readme(tree, crate)
        yield from _faults_of_promises(tree, crate)
    yield from _faults_of_counts(tree)
    if f'#define NANOBOT_VERSION "{tree.texts["VERSION"].strip()}"' not in tree.texts["include/nanobot.h"]:
        yield "include/nanobot.h has another version than VERSION"
    if tree.texts["KIT"].strip() not in tree.texts["README.md"]:
        yield "README.md has another sum of the kit than KIT"


def _faults_of_page(tree: Tree, path: str, text: str) -> Iterator[str]:
    for number, line in enumerate(text.splitlines(), 1):
        if len(line) > MOST_WIDTH:
            yield f"{path}:{number}: {len(line)} characters"
    folder = tree.top / path.rpartition("/")[0]
    for link in LINK.findall(text):
        if not (folder / link).exists():
            yield f"{path}: links to {link}, which does not exist"
    for name in NAMED.findall(text):
        if "NAME" not in name and not name.startswith("scripts/") and not (tree.top / name).exists():
            yield f"{path}: names {name}, which does not exist"


def _faults_of_mentions(tree: Tree) -> Iterator[str]:
    """Scripts that a document, a script or a header names exist, and so do the tries that a document names."""
    for path, text in tree.texts.items():
        if path.startswith(("bench/", "bindings/", "include/", "prove", "scripts/")) or path.endswith((".md", ".sh")):
            names = set(SCRIPT.findall(text)) | {f"scripts/tries/{name}" for words in TRY.findall(text) for name in words.split()}
            for name in sorted(names - {"scripts/tries/all"}):
                if not (tree.top / name).exists():
                    yield f"{path}: names {name}, which does not exist"


def _faults_of_samples(path: str, text: str, sources: list[str]) -> Iterator[str]:
    for sample in SAMPLE.findall(text):
        for part in sample.split("\n\n"):
            if not any(part in source for source in sources):
                yield f"{path}: no source has the sample: {part.splitlines()[0].strip()} .."


def _faults_of_readme(tree: Tree, crate: str) -> Iterator[str]:
    """Checks that a README lists exactly the files of src/ and specs/, and the crates below and above as crates.txt does."""
    text = tree.readme(crate)
    if not text:
        yield f"{crate} has no README.md"
        return
    listed = set(FILE_ROW.findall(text))
    head = f"crates/{crate}/"
    there = {path[len(head):] for path in tree.texts if path.startswith((f"{head}src/", f"{head}specs/"))} - {"specs/Lib.antt"}
    yield from (f"{head}README.md: does not list {name}" for name in sorted(there - listed))
    yield from (f"{head}README.md: lists {name}, which does not exist" for name in sorted(listed - there))
    sentence = _neighbors(tree, crate)
    if f"\n{sentence}\n" not in text:
        yield f"{head}README.md: crates.txt says: {sentence}"


def _neighbors(tree: Tree, crate: str) -> str:
    """Returns the sentence of a README on the crates below and above."""
    below = [it for it in tree.crates[crate] if it in tree.crates]
    of_kit = [it for it in tree.crates[crate] if it not in tree.crates]
    above = [it for it in tree.crates if crate in tree.crates[it]]
    first = "Depends on " + (_quoted(below) or "no other crate of this repository")
    if of_kit:
        first += f"; from the kit, on {_quoted(of_kit)}"
    if len(above) > 10:
        return f"{first}. {len(above)} crates depend on it."
    return f"{first}. " + (f"Used by {_quoted(above)}." if above else "No crate depends on it.")


def _quoted(names: list[str]) -> str:
    return ", ".join(f"`{name}`" for name in names)


def _faults_of_promises(tree: Tree, crate: str) -> Iterator[str]:
    """Checks that docs/PROMISES.md names each public call of a library crate."""
    root = tree.texts.get(f"crates/{crate}/src/lib.rt")
    if crate in UNPROMISED or root is None:
        return
    promised = set(re.findall(r"\w+", tree.texts["docs/PROMISES.md"]))
    public = {name for group, single in REEXPORT.findall(root) for name in re.findall(r"\w+", group or single)}
    for path, text in tree.files("src/", ".rt"):
        if path.startswith(f"crates/{crate}/"):
            for owner, call in _calls(text):
                if (owner or call) in public and call not in promised:
                    yield f"docs/PROMISES.md does not name {owner + '::' if owner else ''}{call} of {crate}"


def _calls(text: str) -> Iterator[tuple[str, str]]:
    """Yields the public functions of a file, each with the type whose method it is, or an empty text."""
    owner = ""
    for line in text.splitlines():
        if opened := re.match(r"impl(?:<[^>]*>)? (?:[\w<>]+ for )?(\w+)", line):
            owner = opened.group(1)
        elif line == "}":
            owner = ""
        elif call := re.match(r"\s*pub fn (\w+)", line):
            yield owner, call.group(1)


def _faults_of_counts(tree: Tree) -> Iterator[str]:
    """Checks that README.md and docs/PROMISES.md have the counts of scripts/what_to_believe."""
    loader = importlib.machinery.SourceFileLoader("what_to_believe", str(tree.top / "scripts/what_to_believe"))
    module = importlib.util.module_from_spec(importlib.util.spec_from_loader(loader.name, loader))
    loader.exec_module(module)
    for name, (definitions, lines, _) in module.counts().items():
        count = f"{definitions} definitions in {lines} lines"
        for page in ("README.md", "docs/PROMISES.md"):
            if count not in tree.texts[page]:
                yield f"{page}: {name} reaches {count}"


def summary(tree: Tree) -> str:
    return f"{sum(path.endswith('.md') for path in tree.texts)} documents"
