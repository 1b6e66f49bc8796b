"""Energies of traces problem by problem: `python -m nanobot compare [--plan PLANNERS] [--baseline FOLDER] [--json | --csv] MODELS FOLDER..`."""

from __future__ import annotations

import math
import re
from dataclasses import dataclass, field
from pathlib import Path
from typing import Callable, Dict, Iterator, List, Optional, Union

from ..errors import Refused
from ..progress import Progress
from ..rows import Cost, judge, plan_crew, plan_group, plan_layer, plan_low, plan_swarm, plan_void
from .tables import aligned

SIDE = re.compile(r"(.+)_(src|tgt)\.mdl")
Result = Union[Cost, str, None]  # a refusal is its line, and a trace that is not there None


@dataclass(frozen=True)
class Problem:
    """A source and a target, of which at most one is None, the empty model."""

    name: str
    source: Optional[Path]
    target: Optional[Path]


def problems(models: Path) -> List[Problem]:
    """Returns the problems of a folder, by the contest's names (NAME_src.mdl, NAME_tgt.mdl), or of a file with `NAME SOURCE TARGET` lines.

    Raises ValueError for a line that is none, and OSError."""
    if models.is_dir():
        found: Dict[str, Dict[str, Path]] = {}
        for path in models.iterdir():
            if match := SIDE.fullmatch(path.name):
                found.setdefault(match[1], {})[match[2]] = path
        return [Problem(name, sides.get("src"), sides.get("tgt")) for name, sides in sorted(found.items())]
    out = []
    for number, line in enumerate(models.read_text().splitlines(), 1):
        words = line.split()
        if not words or words[0].startswith("#"):
            continue
        if len(words) != 3 or words[1:] == ["-", "-"]:
            raise ValueError(f"{models}, line {number}: a line is NAME SOURCE TARGET, with - for one empty model at most")
        source, target = (None if word == "-" else models.parent / word for word in words[1:])
        out.append(Problem(words[0], source, target))
    return out


def plan(planner: str, problem: Problem) -> Optional[bytes]:
    """Returns the plan of a planner for a problem, None if it plans no such problem. Raises `Refused`."""
    both: Dict[str, Callable[..., bytes]] = {"layer": plan_layer, "group": plan_group, "crew": plan_crew}
    up: Dict[str, Callable[..., bytes]] = {"low": plan_low, "swarm": plan_swarm}
    if planner in both:
        return both[planner](problem.source, problem.target)
    if planner in up:
        return up[planner](problem.target) if problem.source is None else None
    return plan_void(problem.source) if problem.source is not None and problem.target is None else None


PLANNERS = ("layer", "group", "crew", "void", "low", "swarm")


@dataclass
class Column:
    """The traces of a folder, or the plans of one of nanobot's planners."""

    name: str
    folder: Optional[Path] = None
    results: Dict[str, Result] = field(default_factory=dict)

    def judge(self, problem: Problem) -> None:
        """Judges the trace for a problem."""
        try:
            trace = self._trace(problem)
            self.results[problem.name] = None if trace is None else judge(problem.source, problem.target, trace)
        except Refused as refused:
            self.results[problem.name] = refused.line

    def _trace(self, problem: Problem) -> Optional[bytes]:
        if self.folder is None:
            return plan(self.name, problem)
        path = self.folder / f"{problem.name}.nbt"
        return path.read_bytes() if path.exists() else None

    def energy(self, name: str) -> Optional[int]:
        """Returns the energy of an accepted trace."""
        result = self.results[name]
        return result.energy if isinstance(result, Cost) else None


@dataclass
class Comparison:
    """The problems, and what each folder or planner comes to. Ratios are to the best, or to the baseline if there is one."""

    problems: List[Problem]
    columns: List[Column]
    baseline: Optional[Column] = None

    def best(self, name: str) -> Optional[int]:
        """Returns the least energy for a problem."""
        return min((energy for column in self.columns if (energy := column.energy(name)) is not None), default=None)

    def ratio(self, column: Column, name: str) -> Optional[float]:
        """Returns the energy for a problem over the best one or the baseline's; None if one of them is missing or 0."""
        energy, base = column.energy(name), (self.baseline.energy(name) if self.baseline else self.best(name))
        return energy / base if energy is not None and base else None

    def winners(self, name: str) -> List[str]:
        best = self.best(name)
        return [column.name for column in self.columns if best is not None and column.energy(name) == best]

    def mean(self, column: Column) -> Optional[float]:
        """Returns the geometric mean of the ratios."""
        logs = [math.log(ratio) for problem in self.problems if (ratio := self.ratio(column, problem.name))]
        return math.exp(sum(logs) / len(logs)) if logs else None

    @property
    def all_accepted(self) -> bool:
        return not any(isinstance(result, str) for column in self.columns for result in column.results.values())


def compare(found: List[Problem], columns: List[Column], baseline: Optional[Column] = None) -> Comparison:
    """Judges the traces of all columns for all problems, and plans for a column that is a planner. Raises OSError."""
    every = [*columns, *([baseline] if baseline else [])]
    progress, done = Progress("compare", len(found) * len(every)), 0
    for problem in found:
        for column in every:
            column.judge(problem)
            done += 1
            progress.show(done)
    progress.clear()
    return Comparison(found, columns, baseline)


def _cell(result: Result) -> str:
    if result is None:
        return "missing"
    return "refused" if isinstance(result, str) else str(result.energy)


def _ratio(ratio: Optional[float]) -> str:
    return "-" if ratio is None else f"{ratio:.2f}"


def table(found: Comparison) -> Iterator[str]:
    """Yields the comparison as lines for people: energies and steps, ratios, winners; then wins, means and refusals."""
    names = [column.name for column in found.columns]
    rows = [["problem", *(part for name in names for part in (name, "steps", "ratio")), "winner"]]
    for problem in found.problems:
        cells = []
        for column in found.columns:
            result = column.results[problem.name]
            steps = str(result.steps) if isinstance(result, Cost) else ""
            cells += [_cell(result), steps, _ratio(found.ratio(column, problem.name))]
        rows.append([problem.name, *cells, "=".join(found.winners(problem.name))])
    wins = [sum(column.name in found.winners(problem.name) for problem in found.problems) for column in found.columns]
    rows.append(["wins", *(part for count in wins for part in (str(count), "", "")), ""])
    means = [_ratio(found.mean(column)) for column in found.columns]
    rows.append(["geometric mean", *(part for mean in means for part in ("", "", mean)), ""])
    yield from aligned(rows)
    for problem in found.problems:
        for column in found.columns:
            result = column.results[problem.name]
            if isinstance(result, str):
                yield f"{column.name}, {problem.name}: {result}"


def records(found: Comparison) -> List[Dict[str, object]]:
    """Returns the comparison as one record for each problem and column."""
    out: List[Dict[str, object]] = []
    for problem in found.problems:
        for column in found.columns:
            result = column.results[problem.name]
            record: Dict[str, object] = {"problem": problem.name, "traces": column.name, "energy": None, "steps": None}
            if isinstance(result, Cost):
                record.update(energy=result.energy, steps=result.steps)
            record["ratio"] = found.ratio(column, problem.name)
            record["wins"] = column.name in found.winners(problem.name)
            record["line"] = result if isinstance(result, str) else None
            out.append(record)
    return out


def columns_of(folders: List[str], planners: str) -> List[Column]:
    """Returns the columns of a command: planners first, then folders. Folders of the same name are distinguished by their paths."""
    paths = [Path(folder) for folder in folders]
    names = [path.resolve().name for path in paths]
    distinct = [str(path) if names.count(name) > 1 or name in PLANNERS else name for path, name in zip(paths, names)]
    return [*(Column(planner) for planner in planners.split()), *(Column(name, path) for name, path in zip(distinct, paths))]
