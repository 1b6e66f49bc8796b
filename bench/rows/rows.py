#!/usr/bin/env python3
"""Counts the instructions of whole runs, on traces of the kinds that users run.

Usage: rows.py make FOLDER                     writes the models and traces of all rows into FOLDER (plans by nanobot)
       rows.py count FOLDER PROGRAM OUT [ROW..]  instructions of `PROGRAM run S T B` for each row, under valgrind, into OUT
       rows.py table OUT..                     a table of such files: millions, and the others relative to the first
       rows.py --help

Instructions are the same whatever else the machine does. PROGRAM is the proved program, or the one that bench/unproved builds.
"""
from __future__ import annotations

import math
import os
import re
import subprocess
import sys
from concurrent.futures import ThreadPoolExecutor
from pathlib import Path

sys.dont_write_bytecode = True
TOP = Path(__file__).resolve().parents[2]
sys.path.insert(0, str(TOP / "bench"))

import synthetic  # noqa: E402
import models  # noqa: E402
import traces  # noqa: E402

PLANS = [
    ("crew", "up down", "statue sphere tree hanging arch helix vase"),
    ("swarm", "up", "sphere vase arch"),
    ("group", "up down", "statue tree helix hanging"),
    ("layer", "up down", "statue sphere vase hanging"),
    ("low", "up", "sphere vase arch"),
    ("void", "down", "statue sphere tree helix solid hills full124"),
]
REBUILDS = [("crew", "lattice", "sphere"), ("layer", "ball", "vase")]


class Rows:
    """A folder of models and traces, and its list: a name, source, target and trace a line."""

    def __init__(self, folder: Path) -> None:
        self.folder = folder
        self.lines: list[str] = []

    def add(self, name: str, source: str, target: str, trace: bytes | None = None) -> None:
        if trace is not None:
            (self.folder / f"{name}.nbt").write_bytes(trace)
        self.lines.append(f"{name} {source} {target} {name}.nbt")

    def plan(self, name: str, planner: str, source: str, target: str) -> None:
        words = [str(TOP / "nanobot"), "plan", planner, source, target, f"{name}.nbt"]
        done = subprocess.run(words, cwd=self.folder, capture_output=True, text=True)
        if done.returncode:
            print(f"{name}: {done.stdout.strip()}", file=sys.stderr)
        else:
            self.add(name, source, target)


def write_model(path: Path, resolution: int, full: traces.Voxels) -> None:
    model = models.Model(resolution)
    for x, y, z in full:
        model.fill_bits(x, y, 1 << z)
    model.model().write(path)


def add_synthetic(rows: Rows) -> None:
    folder = rows.folder
    for side in (60, 100, 124):
        (folder / f"full{side}.mdl").write_bytes(synthetic.full_model(side))
    (folder / "empty50.mdl").write_bytes(synthetic.empty_model(50))
    (folder / "bridge.mdl").write_bytes(synthetic.bridge_model(62))
    rows.add("one-voxel", "full100.mdl", "full100.mdl", b"\x73\x72" * 1_000_000 + traces.HALT)
    rows.add("cube-high", "-", "full60.mdl", synthetic.build(synthetic.full_model(60), traces.FLIP))
    rows.add("cube-low", "-", "full60.mdl", synthetic.build(synthetic.full_model(60), b""))
    rows.add("forty-move", "empty50.mdl", "empty50.mdl", synthetic.forty_bots(10_000))
    rows.add("forty-fill", "empty50.mdl", "empty50.mdl", synthetic.forty_fill(2_500))
    rows.add("bridge", "bridge.mdl", "bridge.mdl", b"\xba\xbb" * 300 + traces.HALT)
    for name, overhang in (("boxes", False), ("boxes-over", True)):
        for way in ("up", "down"):
            trace, full = traces.boxes(overhang, way == "up")
            write_model(folder / f"{name}.mdl", 130, full)
            ends = ("-", f"{name}.mdl")
            rows.add(f"{name}-{way}", *(ends if way == "up" else ends[::-1]), trace)
    trace, full = traces.flips(100)
    write_model(folder / "flips.mdl", 100, full)
    rows.add("flips", "-", "flips.mdl", trace)


def add_examples(rows: Rows) -> None:
    """The plans of the sample planners in Python."""
    for script in ("planner", "strips"):
        for shape in ("statue", "sphere"):
            name = f"{script}-{shape}"
            words = [sys.executable, str(TOP / f"examples/planner/{script}.py"), f"{shape}.mdl", f"{name}.nbt"]
            subprocess.run(words, cwd=rows.folder, check=True, stdout=subprocess.DEVNULL)
            rows.add(name, "-", f"{shape}.mdl")


def make(folder: Path) -> None:
    folder.mkdir(parents=True, exist_ok=True)
    rows = Rows(folder)
    for _ in models.write_all(folder):
        pass
    add_synthetic(rows)
    subprocess.run([str(TOP / "nanobot"), "make", "7", "100", "forged.mdl"], cwd=folder, check=True, stdout=subprocess.DEVNULL)
    rows.plan("layer-up-forged", "layer", "-", "forged.mdl")
    for planner, ways, shapes in PLANS:
        for shape in shapes.split():
            for way in ways.split():
                ends = ("-", f"{shape}.mdl")
                rows.plan(f"{planner}-{way}-{shape}", planner, *(ends if way == "up" else ends[::-1]))
    for planner, source, target in REBUILDS:
        rows.plan(f"{planner}-{source}-{target}", planner, f"{source}.mdl", f"{target}.mdl")
    add_examples(rows)
    (folder / "list").write_text("".join(f"{line}\n" for line in rows.lines))
    print(f"{len(rows.lines)} rows")


def count_one(folder: Path, program: Path, line: str) -> str:
    name, *files = line.split()
    words = ["valgrind", "--tool=cachegrind", "--cache-sim=no", "--cachegrind-out-file=/dev/null", str(program), "run", *files]
    done = subprocess.run(words, cwd=folder, capture_output=True, text=True)
    found = re.search(r"I *refs: *([0-9,]+)", done.stderr)
    return f"{name} {found[1].replace(',', '') if found else 0}"


def count(folder: Path, program: Path, out: Path, chosen: list[str]) -> None:
    lines = [line for line in (folder / "list").read_text().splitlines() if not chosen or line.split()[0] in chosen]
    jobs = int(os.environ.get("JOBS", "2"))
    with ThreadPoolExecutor(jobs) as pool:
        counted = list(pool.map(lambda line: count_one(folder, program.resolve(), line), lines))
    out.write_text("".join(f"{line}\n" for line in counted))


def table(files: list[Path]) -> None:
    columns = [dict(line.split() for line in file.read_text().splitlines()) for file in files]
    print("| Row | " + " | ".join(file.name for file in files) + " |")
    print("|---|" + "---|" * len(files))
    ratios: list[list[float]] = [[] for _ in columns[1:]]
    for name, first in columns[0].items():
        cells = [f"{int(first) / 1e6:.1f}"]
        for column, kept in zip(columns[1:], ratios):
            ratio = int(column.get(name, 0)) / int(first) if int(first) else 0.0
            if ratio:
                kept.append(ratio)
            cells.append(f"{100 * (ratio - 1):+.1f} %" if ratio else "-")
        print(f"| {name} | " + " | ".join(cells) + " |")
    means = [f"{100 * (math.exp(sum(map(math.log, kept)) / len(kept)) - 1):+.1f} %" if kept else "-" for kept in ratios]
    print("| geometric mean | | " + " | ".join(means) + " |")


def main(words: list[str]) -> int:
    name, given = (words[0], words[1:]) if words else ("", [])
    if name == "--help" and not given:
        print((__doc__ or "").strip())
    elif name == "make" and len(given) == 1:
        make(Path(given[0]))
    elif name == "count" and len(given) >= 3:
        count(Path(given[0]), Path(given[1]), Path(given[2]), given[3:])
    elif name == "table" and given:
        table([Path(file) for file in given])
    else:
        print("usage: rows.py make FOLDER | count FOLDER PROGRAM OUT [ROW..] | table OUT.. | --help", file=sys.stderr)
        return 2
    return 0


if __name__ == "__main__":
    sys.exit(main(sys.argv[1:]))
