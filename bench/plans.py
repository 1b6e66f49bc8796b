"""The plans of all planners for the house, two full boxes and a forged model, or for the models that are named
(RESULTS.md, "Plans").

bench/bench plans [--program FILE] [--plan "crew - M"].. [MODEL..]

Prints a row of a table for each plan: the model, its arguments, energy, steps, commands and bytes, the seconds of one
processor to plan it from file to file and to run it, and the planner's peak memory, which is no less than this script's
20 MB; a refusal in place of the numbers. Takes a minute with the proved program, out/nanobot. The models are house,
full-R and forged-7-R, and the mazes of a resolution R of 250 at most, which take minutes each at 250:"""

from __future__ import annotations

import os
import re
import shutil
import subprocess
from pathlib import Path
from typing import List, NamedTuple

import mazes
import scratch
import synthetic
from arguments import PROGRAM, TOP, Parser

MODELS = ("house", "full-100", "full-248", "forged-7-100")
PLANS = ("layer - M", "layer M -", "group - M", "group M -", "crew - M", "crew M -", "void M -", "low - M", "swarm - M")


class Ran(NamedTuple):
    """What the program prints, its seconds of one processor, and the most megabytes that it held."""

    said: str
    seconds: float
    megabytes: int


def _run(program: Path, folder: Path, *words: str) -> Ran:
    with subprocess.Popen([program, *words], cwd=folder, stdout=subprocess.PIPE, text=True) as child:
        said = child.stdout.read() if child.stdout else ""
        _, status, used = os.wait4(child.pid, 0)
        child.returncode = os.waitstatus_to_exitcode(status)
    return Ran(said.strip(), used.ru_utime, used.ru_maxrss * 1024 // 10**6)


def _resolution(model: str) -> int:
    """The number at the end of a model's name; 0 if there is none, or no model of that name."""
    found = re.fullmatch(rf"(?:full|forged-7|{'|'.join(mazes.MAZES)})-([1-9][0-9]*)", model)
    return int(found[1]) if found else 0


def _make(program: Path, folder: Path, model: str) -> None:
    path, kind = folder / f"{model}.mdl", model.rpartition("-")[0]
    if model == "house":
        shutil.copy(TOP / "examples/house.mdl", path)
    elif kind == "forged-7":
        _run(program, folder, "make", "7", str(_resolution(model)), path.name)
    elif kind == "full":
        path.write_bytes(synthetic.full_model(_resolution(model)))
    else:
        path.write_bytes(mazes.maze(kind, _resolution(model)))


def _row(program: Path, folder: Path, model: str, shown: str) -> str:
    words = shown.replace("M", f"{model}.mdl").split()
    plan = _run(program, folder, "plan", *words, "plan.nbt")
    if not plan.said.startswith("plan "):
        return f"| {model} | `{shown}` | {plan.said} | | | | {plan.seconds:.3f} | | {plan.megabytes} |"
    energy, steps, commands, size = plan.said.split()[2::2]
    run = _run(program, folder, "run", *words[1:], "plan.nbt")
    if run.said != f"ok energy {energy} steps {steps}":
        raise ValueError(f"{model}, {shown}: {run.said}")
    costs = f"{energy} | {steps} | {commands} | {size} | {plan.seconds:.3f} | {run.seconds:.3f} | {plan.megabytes}"
    return f"| {model} | `{shown}` | {costs} |"


def main(words: List[str]) -> int:
    shapes = "\n".join(f"    {name + '-R':19} {shape.__doc__}" for name, shape in mazes.MAZES.items())
    parser = Parser("plans", f"{__doc__}\n\n{shapes}")
    parser.add_argument("--program", type=Path, default=PROGRAM)
    parser.add_argument("--plan", action="append", choices=PLANS)
    parser.add_argument("models", nargs="*", metavar="MODEL")
    given = parser.parse_args(words)
    program = parser.existing(given.program)
    for model in given.models:
        if model != "house" and not 1 <= _resolution(model) <= 250:
            parser.error(f"there is no model {model}")
    head = "Model | Plan | Energy | Steps | Commands | Bytes | Planned, s | Run, s | Peak, MB"
    print(f"| {head} |\n|{'---|' * 9}")
    with scratch.folder() as name:
        for model in given.models or MODELS:
            _make(program, Path(name), model)
            for shown in given.plan or PLANS:
                print(_row(program, Path(name), model, shown), flush=True)
    return 0
