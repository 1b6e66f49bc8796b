"""The library against the program, and the calls of a machine that is kept (RESULTS.md has a section of that name).

bench/bench calls [COUNT]

Judges the house, and a forged model of resolution 20 with its plan of one bot, COUNT times (10000): through the static
library, from C, and by starting the program as often. Then times calls of a machine from C, Rust and Python (steps,
judgements, copies, counts of what differs; from Python also reading a model and the steps of a long trace), and a step
of the program beside them. Needs cc, cargo and the proved program and library; takes some minutes."""

from __future__ import annotations

import os
import subprocess
import time
from pathlib import Path
from typing import List

import scratch
from arguments import PROGRAM, TOP, Parser

SOURCES = TOP / "bench/linked"
LIBRARY = TOP / "out/libnanobot.a"
CARGO = """[package]
name = "machine"
version = "0.0.0"
edition = "2021"

[dependencies]
nanobot = {{ path = "{path}" }}
"""


def _call(folder: Path, *words: object, **environment: str) -> None:
    subprocess.run([str(word) for word in words], cwd=folder, check=True, env={**os.environ, **environment})


def _compile(folder: Path, name: str) -> None:
    flags = f"-std=c11 -D_POSIX_C_SOURCE=200809L -O2 -I{TOP}/include -o {name}".split()
    _call(folder, "cc", *flags, SOURCES / f"{name}.c", LIBRARY)


def _time(folder: Path, what: str, words: List[str], count: int = 1) -> None:
    start = time.monotonic()
    for _ in range(count):
        subprocess.run([PROGRAM, "run", *words], cwd=folder, check=True, stdout=subprocess.DEVNULL)
    print(f"    the program: {what} in {time.monotonic() - start:.3f} s", flush=True)


def _judge(folder: Path, count: int) -> None:
    _compile(folder, "often")
    _call(folder, PROGRAM, "make", 7, 20, "forged.mdl")
    _call(folder, PROGRAM, "plan", "layer", "-", "forged.mdl", "forged.nbt")
    for words in (["-", f"{TOP}/examples/house.mdl", f"{TOP}/examples/house.nbt"], ["-", "forged.mdl", "forged.nbt"]):
        _call(folder, "./often", count, *words)
        _time(folder, f"{count} starts", words, count)


def _keep(folder: Path) -> None:
    """The calls of a machine from C, Rust and Python."""
    _compile(folder, "machine")
    for resolution in (20, 100, 250):
        for notes in (0, 100):
            _call(folder, "./machine", resolution, notes)
    (folder / "rust/src").mkdir(parents=True)
    (folder / "rust/src/main.rs").write_bytes((SOURCES / "machine.rs").read_bytes())
    (folder / "rust/Cargo.toml").write_text(CARGO.format(path=TOP / "bindings/rust"))
    build = "cargo build --quiet --release --offline --manifest-path rust/Cargo.toml --target-dir rust/target".split()
    _call(folder, *build, NANOBOT_LIB=str(LIBRARY.parent))
    _call(folder, "cc", "-shared", "-o", "libnanobot.so", "-Wl,--whole-archive", LIBRARY, "-Wl,--no-whole-archive")
    for resolution in (20, 250):
        _call(folder, "rust/target/release/machine", resolution)
        package = {"NANOBOT_LIBRARY": f"{folder}/libnanobot.so", "PYTHONPATH": f"{TOP}/bindings/python"}
        _call(folder, "python3", "-B", SOURCES / "machine.py", resolution, **package)


def main(words: List[str]) -> int:
    parser = Parser("calls", __doc__)
    parser.add_argument("count", nargs="?", type=int, default=10_000)
    count = parser.parse_args(words).count
    for made in (PROGRAM, LIBRARY):
        parser.existing(made)
    with scratch.folder() as name:
        folder = Path(name)
        _judge(folder, count)
        _keep(folder)
        (folder / "empty.mdl").write_bytes(bytes([20]) + bytes(1000))
        for what, commands in (
            ("a million moves", b"\x34\x10\x34\x0e" * 500_000),
            ("a million fills and voids", b"\x73\x72" * 500_000),
        ):
            (folder / "trace.nbt").write_bytes(commands + b"\xff")
            _time(folder, what, ["empty.mdl", "empty.mdl", "trace.nbt"])
    return 0
