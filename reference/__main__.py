"""Answers some of nanobot's commands, slowly: `python3 -m reference run S T B`, `run light S T B`, `check M`, `asm X B`, `dis B X` and
`make N R M`, with the same printed lines and exit statuses."""
from __future__ import annotations

import pathlib
import re
import sys
from typing import Callable

from reference import machine, models, traces
from reference.models import Model


class Stop(Exception):
    """A status other than 0, with the printed line, or none."""


def file(name: str) -> bytes:
    try:
        return pathlib.Path(name).read_bytes()
    except OSError:
        raise Stop(5, "") from None


def store(name: str, data: bytes) -> None:
    try:
        pathlib.Path(name).write_bytes(data)
    except OSError:
        raise Stop(5, "") from None


def legal_model(name: str, who: str) -> Model:
    try:
        model = models.read_model(file(name))
        models.check_legal(model)
        return model
    except models.ModelRefused as refusal:
        raise Stop(3, f"{who} {refusal}") from None


def trace(name: str) -> list[traces.Command]:
    try:
        return traces.read_trace(file(name))
    except traces.TraceRefused as refusal:
        raise Stop(4, f"trace {refusal}") from None


def run(profile: machine.Profile, source_name: str, target_name: str, trace_name: str) -> str:
    source = None if source_name == "-" else legal_model(source_name, "source")
    target = None if target_name == "-" else legal_model(target_name, "target")
    source = source or Model(target.resolution, frozenset())  # type: ignore[union-attr]
    target = target or Model(source.resolution, frozenset())
    if source.resolution != target.resolution:
        raise Stop(3, f"resolutions {source.resolution} {target.resolution}")
    verdict = machine.run(source, target, trace(trace_name), profile)
    if isinstance(verdict, str):
        raise Stop(1, verdict)
    return f"ok energy {verdict.energy} steps {verdict.steps}"


def check(name: str) -> str:
    model = legal_model(name, "model")
    return f"legal resolution {model.resolution} full {len(model.full)}"


def asm(text_name: str, trace_name: str) -> str:
    try:
        commands = traces.read_text(file(text_name))
    except traces.TextRefused as refusal:
        raise Stop(8, f"text {refusal}") from None
    data = b"".join(map(traces.spelling, commands))
    store(trace_name, data)
    return f"commands {len(commands)} bytes {len(data)}"


def dis(trace_name: str, text_name: str) -> str:
    commands = trace(trace_name)
    data = "".join(map(traces.printed, commands)).encode()
    store(text_name, data)
    return f"commands {len(commands)} bytes {len(data)}"


def make(number: str, resolution: str, name: str) -> str:
    model = models.forge(int(number), int(resolution))
    store(name, models.write_model(model))
    return f"model resolution {resolution} full {len(model.full)}"


def action(words: list[str]) -> Callable[[], str]:
    """What the arguments ask for."""
    head, *names = words or [""]
    if head == "run" and len(names) in (3, 4) and (len(names) == 3 or names[0] == "light"):
        source, target, name = names[-3:]
        if (source, target) != ("-", "-") and name != "-":
            return lambda: run(machine.LIGHT if len(names) == 4 else machine.FULL, source, target, name)
    elif (head, len(names)) in (("check", 1), ("asm", 2), ("dis", 2)) and "-" not in names:
        return lambda: {"check": check, "asm": asm, "dis": dis}[head](*names)
    elif head == "make" and len(names) == 3 and names[2] != "-" and all(re.fullmatch("0|[1-9][0-9]*", name) for name in names[:2]):
        if int(names[0]) < 2**32 and 1 <= int(names[1]) <= models.MOST_WIDE:
            return lambda: make(*names)
    raise Stop(2, "words not understood")


def main(words: list[str]) -> int:
    if words in (["-h"], ["--help"]):
        print(__doc__)
        return 0
    try:
        print(action(words)())
        return 0
    except Stop as stop:
        status, line = stop.args
        if line:
            print(line)
        return status


if __name__ == "__main__":
    sys.exit(main(sys.argv[1:]))
