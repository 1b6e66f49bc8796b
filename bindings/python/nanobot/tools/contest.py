"""The contest's files, unpacked into folders: `nanobot-tools contest FOLDER..` checks each model and judges each
trace."""

from __future__ import annotations

import os
from pathlib import Path
from typing import Dict, Iterator, List, NamedTuple, Optional, Set, Tuple

from .judge import Outcome, Run, judge_here
from .program import Runs


class Files(NamedTuple):
    """The models by their names, and the traces."""

    models: Dict[str, Path]
    traces: List[Path]


def _found(folder: Path) -> Iterator[Path]:
    """Yields the models and traces below a folder; links are followed, each folder once."""
    seen: Set[Tuple[int, int]] = set()
    for below, folders, names in os.walk(folder, followlinks=True):
        there = os.stat(below)
        if (there.st_dev, there.st_ino) in seen:
            folders.clear()
            continue
        seen.add((there.st_dev, there.st_ino))
        folders.sort()
        yield from (
            path for name in sorted(names) if (path := Path(below, name)).suffix in (".mdl", ".nbt") and path.is_file()
        )


def find(folders: List[Path]) -> Files:
    """Returns the models and traces of folders. Raises ValueError for two different models of one name, and if there is no
    model; and OSError."""
    models: Dict[str, Path] = {}
    traces: List[Path] = []
    for folder in folders:
        if not folder.is_dir():
            raise NotADirectoryError(20, "not a folder", str(folder))
        for path in _found(folder):
            if path.suffix == ".nbt":
                traces.append(path)
            elif models.setdefault(path.name, path).read_bytes() != path.read_bytes():
                raise ValueError(f"{models[path.name]} and {path} are different models of one name")
    if not models:
        raise ValueError("no model there: NAME_src.mdl or NAME_tgt.mdl")
    return Files(dict(sorted(models.items())), sorted(traces, key=lambda path: path.name))


def _run(files: Files, trace: Path) -> Run:
    source, target = (files.models.get(f"{trace.stem}_{side}.mdl") for side in ("src", "tgt"))
    alone = sum(other.name == trace.name for other in files.traces) == 1
    return Run(str(source or "-"), str(target or "-"), str(trace), trace.name if alone else str(trace))


def check(files: Files, jobs: int, seconds: Optional[int]) -> List[Tuple[str, bool, str]]:
    """Each model's name, whether it is legal, and the line that `check` prints."""
    with Runs(jobs, seconds) as program:
        answers = program.answers("check", (("check", str(path)) for path in files.models.values()))
        return [(name, legal, line) for name, (legal, line) in zip(files.models, answers)]


def judge(files: Files, jobs: int, seconds: Optional[int]) -> List[Outcome]:
    """Judges each trace between the models of its problem; a problem without a source or a target has the empty one."""
    return judge_here([_run(files, trace) for trace in files.traces], jobs, seconds)
