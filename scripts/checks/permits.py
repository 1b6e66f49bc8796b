"""Counters of touches: no crate that a judgement or a session depends on can open one."""
from __future__ import annotations

from typing import Iterator

from checks.tree import Tree


def faults(tree: Tree) -> Iterator[str]:
    for crate in sorted(tree.below({"trace_judge", "step_debugger"}) - {"vox_geom"}):
        if "counter_permit" in tree.crates[crate]:
            yield f"crates.txt: {crate} is of the machine, and may not list counter_permit"
