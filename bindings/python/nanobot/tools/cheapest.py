"""The cheapest plan of all planners: `python -m nanobot cheapest SOURCE TARGET TRACE`."""

from __future__ import annotations

import os
import stat
import tempfile
from pathlib import Path
from typing import Iterator, Optional, Tuple

from ..errors import Refused
from ..rows import Cost, judge
from .compare import PLANNERS, Problem, plan

Plan = Tuple[str, Optional[bytes], str]


def plans(problem: Problem) -> Iterator[Tuple[str, Optional[bytes], Optional[Cost], str]]:
    """Yields the name, the trace, the cost and the printed line of each planner that plans such a problem."""
    for planner in PLANNERS:
        try:
            trace = plan(planner, problem)
        except Refused as refused:
            yield planner, None, None, refused.line
            continue
        if trace is not None:
            cost = judge(problem.source, problem.target, trace, light=planner == "swarm")
            yield planner, trace, cost, f"plan energy {cost.energy} steps {cost.steps} bytes {len(trace)}"


def store(data: bytes, path: Path) -> None:
    """Stores the bytes under a name: beside it first, then by a rename, so the old file stays if that fails. What is no regular file with
    one name, and a file in a folder that takes no new one, is written in place. Raises OSError."""
    whole = Path(os.path.realpath(path))
    there = whole.stat() if whole.exists() else None
    if there is not None and (not stat.S_ISREG(there.st_mode) or there.st_nlink > 1) or not os.access(whole.parent, os.W_OK):
        whole.write_bytes(data)
        return
    if there is not None and not os.access(whole, os.W_OK):
        raise PermissionError(13, "not writable", str(path))
    handle, name = tempfile.mkstemp(prefix=".nanobot-", dir=whole.parent)
    try:
        with os.fdopen(handle, "wb") as file:
            file.write(data)
            file.flush()
            os.fsync(file.fileno())
        os.chmod(name, stat.S_IMODE(there.st_mode) if there is not None else 0o666 & ~_umask())
        os.replace(name, whole)
    except BaseException:
        os.unlink(name)
        raise


def _umask() -> int:
    mask = os.umask(0)
    os.umask(mask)
    return mask
