"""Many traces judged at once, here or on other hosts: `nanobot-tools judge [NUMBER] < RUNS`."""

from __future__ import annotations

import os
import re
from typing import Dict, Iterable, Iterator, List, NamedTuple, Optional, Tuple

from .program import Runs

OK = re.compile(r"ok energy (-?\d+) steps (\d+)")
# The longest name that the system opens.
LONGEST = 4095


class Run(NamedTuple):
    """The names of a run's files; "-" is the empty model. `shown` is the trace's name in the table, if it is not
    `trace`."""

    source: str
    target: str
    trace: str
    shown: str = ""


class Outcome(NamedTuple):
    """The line that a run prints, and the host that it was on, if not this machine."""

    run: Run
    line: str
    host: str = ""

    @property
    def name(self) -> str:
        return self.run.shown or self.run.trace

    @property
    def cost(self) -> Optional[Tuple[int, int]]:
        """The energy and the steps of an accepted trace."""
        match = OK.fullmatch(self.line)
        return (int(match[1]), int(match[2])) if match else None

    def record(self) -> Dict[str, object]:
        energy, steps = self.cost or (None, None)
        files = {"trace": self.run.trace, "source": self.run.source, "target": self.run.target}
        return {**files, "energy": energy, "steps": steps, "host": self.host or None, "line": self.line}


def record_of_run(outcome: Outcome) -> Dict[str, object]:
    """Returns the record of a run among those of models."""
    record: Dict[str, object] = {"model": None}
    return {**record, **outcome.record()}


def record_of_model(name: str, line: str) -> Dict[str, object]:
    """Returns the record of a refused model, with the fields of a run's."""
    record: Dict[str, object] = {
        "model": name,
        "trace": None,
        "source": None,
        "target": None,
        "energy": None,
        "steps": None,
        "host": None,
    }
    return {**record, "line": line}


def runs_of(text: str) -> List[Run]:
    """Returns the runs of lines SOURCE TARGET TRACE. Raises ValueError for a line that is none."""
    runs = []
    for line in text.splitlines():
        words = line.split()
        if not words or words[0].startswith("#"):
            continue
        if len(words) != 3 or re.search(r"[\"'\\]", line) or any(len(os.fsencode(word)) > LONGEST for word in words):
            raise ValueError(f"no line SOURCE TARGET TRACE: {line[:200]}")
        runs.append(Run(*words))
    return runs


def judge_here(runs: List[Run], jobs: int, seconds: Optional[int]) -> List[Outcome]:
    """Judges traces by processes of the program, at most `jobs` at a time."""
    with Runs(jobs, seconds) as program:
        answers = program.answers("judge", (("run", run.source, run.target, run.trace) for run in runs))
        return [Outcome(run, line) for run, (_, line) in zip(runs, answers)]


def accepted(outcomes: Iterable[Outcome]) -> bool:
    """Returns whether all traces are accepted."""
    return all(outcome.cost for outcome in outcomes)


def table(outcomes: List[Outcome]) -> Iterator[str]:
    """Yields the energy, the steps and the name of each trace, or why it is refused; then the sum, and how many are
    accepted."""
    yield f"{'energy':>18} {'steps':>10}  trace"
    for outcome in outcomes:
        energy, steps = outcome.cost or ("-", "-")
        refusal = "" if outcome.cost else f": {outcome.line}" + (f" (on {outcome.host})" if outcome.host else "")
        yield f"{energy:>18} {steps:>10}  {outcome.name}{refusal}"
    costs = [outcome.cost for outcome in outcomes if outcome.cost]
    yield f"{sum(energy for energy, _ in costs):>18} {'':>10}  {len(costs)} of {len(outcomes)} accepted"
