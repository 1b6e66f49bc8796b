"""Whole runs of the program: their seconds, or the instructions of smaller ones.

bench/bench runs [--count] [--rounds N] [--program FILE].. [NAME..]

Times each run, or those that are named, with out/nanobot or with the programs that are given: seconds of one processor,
from start to end, the least of N rounds (5). The programs take turns. --count counts millions of instructions by
valgrind, which other work on the machine does not change, on the smaller runs, voxel-100 and planes-250-high; it takes
some minutes. Prints a table, with a column for each program."""

from __future__ import annotations

import re
import resource
import subprocess
import tempfile
from pathlib import Path
from typing import Callable, Dict, List, NamedTuple, Tuple

import scratch
import synthetic
from arguments import PROGRAM, TOP, Parser


class Run(NamedTuple):
    """A run: what it shows, its source and target, None if they are the empty model, and its trace."""

    shows: str
    make: Callable[[], Tuple[bytes | None, bytes | None, bytes]]


def _still(model: bytes, commands: bytes) -> Tuple[bytes, bytes, bytes]:
    return model, model, commands + synthetic.HALT


def _forged(resolution: int) -> Tuple[None, bytes, bytes]:
    """What `make 7 R` stores, and a trace that builds it."""
    with tempfile.TemporaryDirectory() as folder:
        path = Path(folder, "model")
        subprocess.run([TOP / "nanobot", "make", "7", str(resolution), path], check=True, stdout=subprocess.DEVNULL)
        model = path.read_bytes()
    return None, model, synthetic.build(model, synthetic.FLIP)


def _fill(side: int, harmonics: bytes) -> Tuple[None, bytes, bytes]:
    model = synthetic.full_model(side)
    return None, model, synthetic.build(model, harmonics)


def _void(side: int) -> Tuple[bytes, None, bytes]:
    model = synthetic.full_model(side)
    return model, None, synthetic.take_down(model)


def _planes(harmonics: bytes) -> Tuple[bytes, None, bytes]:
    return synthetic.full_model(250), None, synthetic.planes(250, harmonics)


def _forty(rounds: int, edits: bool) -> Tuple[bytes, None, bytes]:
    return synthetic.empty_model(42), None, synthetic.forty_rounds(rounds, edits)


RUNS: Dict[str, Run] = {
    "voxel-100": Run(
        "one voxel of a full 100-cube filled and voided a million times",
        lambda: _still(synthetic.full_model(100), b"\x73\x72" * 1_000_000),
    ),
    "fill-200-high": Run("one bot fills a 200-cube under High", lambda: _fill(200, synthetic.FLIP)),
    "fill-150-low": Run("one bot fills a 150-cube under Low", lambda: _fill(150, b"")),
    "void-150-low": Run("one bot voids a 150-cube under Low", lambda: _void(150)),
    "forged-7-250": Run("one bot builds `make 7 250` under High", lambda: _forged(250)),
    "move-40": Run("forty bots move (200,000 steps)", lambda: _forty(200_000, False)),
    "move-fill-void-40": Run("forty bots move, fill and void (100,000 rounds)", lambda: _forty(100_000, True)),
    "planes-250-low": Run("four bots void a 250-cube by planes of 31 by 31 under Low", lambda: _planes(b"")),
    "planes-250-high": Run("the planes of planes-250-low under High", lambda: _planes(synthetic.FLIP)),
    "bridge": Run(
        "a plate on two posts, the foot of one of them voided and filled 5,000 times",
        lambda: _still(synthetic.plate_model(60), b"\xba\xbb" * 5_000),
    ),
}
SMALLER: Dict[str, Run] = {
    "fill-100-high": Run("as fill-200-high", lambda: _fill(100, synthetic.FLIP)),
    "void-100-low": Run("as void-150-low", lambda: _void(100)),
    "forged-7-100": Run("as forged-7-250", lambda: _forged(100)),
    "move-40-20000": Run("as move-40", lambda: _forty(20_000, False)),
    "fill-40-10000": Run("as move-fill-void-40", lambda: _forty(10_000, True)),
    "bridge-500": Run("as bridge", lambda: _still(synthetic.plate_model(60), b"\xba\xbb" * 500)),
}
COUNTED = ("voxel-100", "planes-250-high", *SMALLER)


def _files(run: Run, folder: Path) -> List[str]:
    """Writes the files of a run, and returns their names; the empty model is -."""
    names = []
    for name, data in zip(("source", "target", "trace"), run.make()):
        if data is not None:
            (folder / name).write_bytes(data)
        names.append("-" if data is None else name)
    return names


def _seconds(program: Path, words: List[str], folder: Path) -> float:
    before = resource.getrusage(resource.RUSAGE_CHILDREN)
    subprocess.run([program, "run", *words], cwd=folder, check=True, stdout=subprocess.DEVNULL)
    after = resource.getrusage(resource.RUSAGE_CHILDREN)
    return after.ru_utime + after.ru_stime - before.ru_utime - before.ru_stime


def _millions(program: Path, words: List[str], folder: Path) -> float:
    valgrind = "valgrind --tool=cachegrind --cache-sim=no --cachegrind-out-file=/dev/null".split()
    done = subprocess.run([*valgrind, program, "run", *words], cwd=folder, capture_output=True, text=True, check=True)
    return int(re.findall(r"I *refs: *([0-9,]+)", done.stderr)[0].replace(",", "")) / 1e6


def _measured(run: Run, programs: List[Path], rounds: int, folder: Path) -> List[float]:
    """The least seconds of the rounds by each program, or the millions of instructions if there are none."""
    files = _files(run, folder)
    if not rounds:
        return [_millions(program, files, folder) for program in programs]
    found = [[_seconds(program, files, folder) for program in programs] for _ in range(rounds)]
    return [min(column) for column in zip(*found)]


def main(words: List[str]) -> int:
    known = {**RUNS, **SMALLER}
    parser = Parser("runs", f"{__doc__}\n\n" + "\n".join(f"{name:20} {run.shows}" for name, run in known.items()))
    parser.add_argument("--count", action="store_true")
    parser.add_argument("--rounds", type=int, default=5)
    parser.add_argument("--program", type=Path, action="append", default=[])
    parser.add_argument("names", nargs="*", metavar="NAME")
    given = parser.parse_args(words)
    for name in given.names:
        if name not in known:
            parser.error(f"there is no run {name}: --help lists them")
    programs = [parser.existing(program) for program in given.program or [PROGRAM]]
    print("| Run | Name | " + " | ".join(map(str, programs)) + " |\n|---|---|" + "---|" * len(programs))
    with scratch.folder() as folder:
        for name in given.names or (COUNTED if given.count else RUNS):
            found = _measured(known[name], programs, 0 if given.count else max(given.rounds, 1), Path(folder))
            cells = [known[name].shows, f"`{name}`", *(f"{it:.1f}" if given.count else f"{it:.3f}" for it in found)]
            print(f"| {' | '.join(cells)} |", flush=True)
    return 0
