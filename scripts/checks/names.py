"""Names with two meanings: a definition of specs/ or a type of src/ whose name another module defines too. A definition and the type that
it describes may share a name, as `Line` and the enum of a line do."""
from __future__ import annotations

import collections
import re
from typing import Iterator

from checks.tree import Tree

# Names that may have two definitions, with the reason.
SHARED = {
    "Fault": "a definition, and the type that it describes",
    "Line": "a definition, and the type that it describes",
    "Mark": "a definition, and the type that it describes",
    "Row": "a definition, and the type that it describes",
    "Word": "a definition, and the type that it describes",
    "Crew": "a private type of plan_choice: its plan and what the plan is compared with",
    "Work": "a private type of plan_choice: the budget of a search",
    "IsLeast": "of voxels and of energies",
}
DEFINITION = re.compile(r"^(?:abbrev |unfoldable )?pub (?:abbrev |unfoldable |record |data )?([A-Za-z_][\w\-]*)[^\n]*? : ", re.MULTILINE)
TYPE = re.compile(r"^(?:pub(?:\(\w+\))? )?(?:struct|enum|trait) (\w+)", re.MULTILINE)


def definitions(tree: Tree) -> dict[str, list[str]]:
    """For each name of a definition or a type, the files that define it; worked examples, which nothing cites, are left out."""
    found: dict[str, list[str]] = collections.defaultdict(list)
    for part, suffix, pattern in (("specs/", ".antt", DEFINITION), ("src/", ".rt", TYPE)):
        for path, text in tree.files(part, suffix):
            if not path.rsplit("/", 1)[1].startswith(("tests.rt", "Worked")):
                for name in dict.fromkeys(pattern.findall(text)):
                    found[name].append(path)
    return found


def faults(tree: Tree) -> Iterator[str]:
    found = definitions(tree)
    for name, paths in sorted(found.items()):
        if len(paths) > 1 and name not in SHARED:
            yield f"{name} has {len(paths)} definitions: {', '.join(paths)}"
    for name in SHARED:
        if len(found.get(name, [])) < 2:
            yield f"scripts/checks/names.py: {name} no longer has two definitions"


def rows(tree: Tree, crates: list[str]) -> Iterator[str]:
    for name, paths in sorted(definitions(tree).items()):
        if len(paths) > 1 and any(path.startswith(f"crates/{crate}/") for path in paths for crate in crates):
            yield f"{name}: {', '.join(paths)}{'  ' + SHARED[name] if name in SHARED else ''}"
