"""What a bot's command names: coordinates, boxes and regions."""

from __future__ import annotations

from itertools import product
from typing import List, Optional, Tuple

from .commands import Command, Difference
from .errors import Coord

Box = Tuple[Coord, Coord]


def plus(c: Coord, d: Difference) -> Coord:
    return Coord(c.x + d[0], c.y + d[1], c.z + d[2])


def _box(a: Coord, b: Coord) -> Box:
    pairs = list(zip(a, b))
    return Coord(*(min(pair) for pair in pairs)), Coord(*(max(pair) for pair in pairs))


def named(at: Coord, command: Command) -> List[Coord]:
    """Returns the coordinates that a bot's command names, one after another."""
    out: List[Coord] = []
    for d in command.differences:
        out.append(plus(out[-1] if out else at, d))
    return out


def boxes(at: Coord, command: Command) -> List[Box]:
    """Returns the volatile coordinates of a bot with this command, as boxes, in addition to its own position."""
    ends = [at, *named(at, command)]
    if command.word in ("GFill", "GVoid"):
        return [_box(ends[1], ends[2])]
    if command.word in ("FusionP", "FusionS"):
        return []
    return [_box(a, b) for a, b in zip(ends, ends[1:])]


def region(at: Coord, command: Command) -> Optional[Box]:
    """Returns the region that a command fills or voids, if it does so."""
    if command.word in ("Fill", "Void"):
        c = plus(at, command.differences[0])
        return c, c
    return boxes(at, command)[0] if command.word in ("GFill", "GVoid") else None


def has(box: Box, c: Coord) -> bool:
    return all(low <= n <= high for low, n, high in zip(box[0], c, box[1]))


def meets(one: Box, other: Box) -> bool:
    """Returns whether two boxes have a coordinate in common."""
    return all(low <= end and begin <= high for low, high, begin, end in zip(*one, *other))


def corners_of(box: Box) -> List[Coord]:
    """Returns the corners of a box, in order."""
    return sorted({Coord(*corner) for corner in product(*zip(*box))})


def volume(box: Box) -> int:
    x, y, z = (high - low + 1 for low, high in zip(*box))
    return x * y * z


def is_near(a: Coord, b: Coord) -> bool:
    """Returns whether a near difference leads from one coordinate to the other."""
    apart = [abs(m - n) for m, n in zip(a, b)]
    return max(apart) == 1 and sum(apart) <= 2
