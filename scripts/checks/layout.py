"""The layout of sources, specs and proofs: that of `rt fmt`, which `rt ci` demands."""
from __future__ import annotations

import os
import shutil
import subprocess
from typing import Iterator

from checks.tree import Tree


def formatter() -> str:
    """Returns the kit's formatter, which formats many crates at once; empty without the kit."""
    rt = shutil.which("rt")
    found = os.path.join(os.path.dirname(os.path.realpath(rt)), "rattle") if rt else ""
    return found if os.access(found, os.X_OK) else ""


def run(tree: Tree, *options: str) -> subprocess.CompletedProcess[str]:
    files = [path for path, _ in tree.files("(?:proofs|specs|src)/") if path.endswith((".antt", ".rt"))]
    return subprocess.run([formatter(), "fmt", *options, *files], cwd=tree.top, capture_output=True, text=True, check=False)


def faults(tree: Tree) -> Iterator[str]:
    if formatter():
        done = run(tree, "--check")
        if done.returncode:
            yield from (done.stdout + done.stderr).splitlines() or [f"the formatter ended with {done.returncode}"]
