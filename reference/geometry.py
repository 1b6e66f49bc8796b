"""Coordinates, differences, regions and grounding: docs/FORMATS.md, "Geometry"."""
from __future__ import annotations

from typing import Iterable, Iterator, Set, Tuple

# A coordinate or a difference; coordinates are ordered as tuples are: by x, then y, then z.
Coord = Tuple[int, int, int]

ORIGIN: Coord = (0, 0, 0)
AXES = ((1, 0, 0), (0, 1, 0), (0, 0, 1))
FACES = tuple((sign * x, sign * y, sign * z) for x, y, z in AXES for sign in (1, -1))


def plus(a: Coord, b: Coord) -> Coord:
    return a[0] + b[0], a[1] + b[1], a[2] + b[2]


def mlen(d: Coord) -> int:
    return sum(map(abs, d))


def clen(d: Coord) -> int:
    return max(map(abs, d))


def is_linear(d: Coord, most: int) -> bool:
    return sum(n != 0 for n in d) == 1 and mlen(d) <= most


def is_near(d: Coord) -> bool:
    return clen(d) == 1 and mlen(d) <= 2


def is_far(d: Coord) -> bool:
    return 1 <= clen(d) <= 30


def is_inside(c: Coord, r: int) -> bool:
    return all(0 <= n < r for n in c)


def region(a: Coord, b: Coord) -> Iterator[Coord]:
    """The coordinates of the box between two coordinates, ends included. Of a straight line they are its coordinates."""
    spans = [range(min(m, n), max(m, n) + 1) for m, n in zip(a, b)]
    return ((x, y, z) for x in spans[0] for y in spans[1] for z in spans[2])


def place(c: Coord, r: int) -> int:
    return c[0] * r * r + c[1] * r + c[2]


def coordinate(place: int, r: int) -> Coord:
    return place // (r * r), place // r % r, place % r


def levels(full: Iterable[Coord]) -> dict[Coord, int]:
    """The level of each grounded coordinate: the number of moves to the floor along full coordinates, at the fewest."""
    there: Set[Coord] = set(full)
    found = {c: 0 for c in there if c[1] == 0}
    frontier = list(found)
    while frontier:
        reached = []
        for c in frontier:
            for face in FACES:
                neighbor = plus(c, face)
                if neighbor in there and neighbor not in found:
                    found[neighbor] = found[c] + 1
                    reached.append(neighbor)
        frontier = reached
    return found


def ungrounded(full: Iterable[Coord]) -> set[Coord]:
    there = set(full)
    return there - levels(there).keys()
