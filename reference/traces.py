"""Commands, trace files and trace text: docs/FORMATS.md, "Trace files" and "Trace text"."""
from __future__ import annotations

import re
from typing import NamedTuple

from reference.geometry import AXES, ORIGIN, Coord, is_far, is_linear, is_near


class Command(NamedTuple):
    """A command: its word, its differences, and the m of a Fission."""

    word: str
    first: Coord = ORIGIN
    second: Coord = ORIGIN
    m: int = 0


class TraceRefused(Exception):
    """A trace of which the command at an offset is bad or cut: `bad at 3`."""


class TextRefused(Exception):
    """The first faulty line of a text: `2 UnknownWord line 7`."""


# The commands of one byte, the last three bits of those with a near difference, and how many differences a word takes.
SINGLE = {0xFF: "Halt", 0xFE: "Wait", 0xFD: "Flip"}
NEAR = {7: "FusionP", 6: "FusionS", 5: "Fission", 3: "Fill", 2: "Void", 1: "GFill", 0: "GVoid"}
DIFFERENCES = {**{word: 0 for word in SINGLE.values()}, **{word: 1 for word in NEAR.values()}, "SMove": 1, "LMove": 2, "GFill": 2, "GVoid": 2}


def _axis(d: Coord) -> tuple[int, int]:
    """The number of the axis of a linear difference, and its component."""
    (at,) = (i for i, n in enumerate(d) if n)
    return at + 1, d[at]


def _along(axis: int, n: int) -> Coord:
    x, y, z = AXES[axis - 1]
    return n * x, n * y, n * z


def spelling(command: Command) -> bytes:
    word, first, second, m = command
    for byte, name in SINGLE.items():
        if name == word:
            return bytes([byte])
    if word == "SMove":
        a, n = _axis(first)
        return bytes([a << 4 | 0b0100, n + 15])
    if word == "LMove":
        (a, i), (b, j) = _axis(first), _axis(second)
        return bytes([b << 6 | a << 4 | 0b1100, (j + 5) << 4 | (i + 5)])
    (kind,) = (bits for bits, name in NEAR.items() if name == word)
    head = bytes([(9 * (first[0] + 1) + 3 * (first[1] + 1) + first[2] + 1) << 3 | kind])
    if word == "Fission":
        return head + bytes([m])
    return head + bytes(n + 30 for n in second) if word in ("GFill", "GVoid") else head


def read_trace(data: bytes) -> list[Command]:
    commands, at = [], 0
    while at < len(data):
        try:
            command = _command(data[at : at + 4])
        except IndexError:
            raise TraceRefused(f"cut at {at}") from None
        if command is None:
            raise TraceRefused(f"bad at {at}")
        commands.append(command)
        at += len(spelling(command))
    return commands


def _command(data: bytes) -> Command | None:
    """The command whose spelling begins these bytes; None if they begin none. IndexError if they end within one."""
    head = data[0]
    if head in SINGLE:
        return Command(SINGLE[head])
    if head & 0b111 == 0b100:
        return _move(data)
    n = head >> 3
    near = n // 9 - 1, n // 3 % 3 - 1, n % 3 - 1
    if n > 26 or not is_near(near):
        return None
    word = NEAR[head & 0b111]
    if word == "Fission":
        return Command(word, near, m=data[1])
    if word in ("GFill", "GVoid"):
        if any(byte > 60 for byte in data[1:4]):
            return None
        far = data[1] - 30, data[2] - 30, data[3] - 30
        return Command(word, near, far) if is_far(far) else None
    return Command(word, near)


def _move(data: bytes) -> Command | None:
    a, b = data[0] >> 4 & 0b11, data[0] >> 6
    if data[0] & 0b1000:
        if not a or not b:
            return None
        first, second = _along(a, (data[1] & 0b1111) - 5), _along(b, (data[1] >> 4) - 5)
        return Command("LMove", first, second) if is_linear(first, 5) and is_linear(second, 5) else None
    if not a or b:
        return None
    first = _along(a, data[1] - 15)
    return Command("SMove", first) if is_linear(first, 15) else None


def printed(command: Command) -> str:
    """The line of a command."""
    parts = ["<%d,%d,%d>" % d for d in (command.first, command.second)[: DIFFERENCES[command.word]]]
    return " ".join([command.word, *parts] + ([str(command.m)] if command.word == "Fission" else [])) + "\n"


NUMBER = r"[ \t]*(-?[0-9]{1,3})[ \t]*"
DIFFERENCE = rf"[ \t]*<{NUMBER},{NUMBER},{NUMBER}>"


def read_text(text: bytes) -> list[Command]:
    lines = text.split(b"\n")
    if not lines[-1]:
        lines.pop()
    return [command for number, line in enumerate(lines, 1) for command in _read_line(line, number)]


def _read_line(raw: bytes, number: int) -> list[Command]:
    """The command of a line, or none."""
    if any(byte > 0x7F for byte in raw):
        raise TextRefused(f"1 NotAscii line {number}")
    line = raw.decode("ascii")
    if line.endswith("\r"):
        line = line[:-1]
    line = line.split("#")[0].strip(" \t")
    if not line:
        return []
    word = re.match("[A-Za-z]*", line)[0]  # type: ignore[index]
    if word not in DIFFERENCES:
        raise TextRefused(f"2 UnknownWord line {number}")
    form = DIFFERENCE * DIFFERENCES[word] + (NUMBER if word == "Fission" else "")
    found = re.fullmatch(form, line[len(word) :])
    if not found:
        raise TextRefused(f"3 Shape line {number}")
    command = _of_numbers(word, [int(part) for part in found.groups()])
    if not _is_in_range(command):
        raise TextRefused(f"4 Range line {number}")
    return [command]


def _of_numbers(word: str, numbers: list[int]) -> Command:
    differences = [(x, y, z) for x, y, z in zip(numbers[0::3], numbers[1::3], numbers[2::3])]
    first, second = (differences + [ORIGIN, ORIGIN])[:2]
    return Command(word, first, second, numbers[3] if word == "Fission" else 0)


def _is_in_range(command: Command) -> bool:
    word, first, second, m = command
    if word == "SMove":
        return is_linear(first, 15)
    if word == "LMove":
        return is_linear(first, 5) and is_linear(second, 5)
    if word in SINGLE.values():
        return True
    return is_near(first) and 0 <= m <= 255 and (word not in ("GFill", "GVoid") or is_far(second))
