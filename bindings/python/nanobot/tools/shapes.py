"""Models to try planners on, and models as text: `python -m nanobot model ..`.

    model empty R MODEL                        the empty model of a resolution
    model box R X Y Z X Y Z [--hollow] MODEL   the box between two corners, or its shell
    model sphere R [--hollow] MODEL            the largest ball on the floor, or its shell
    model text TEXT MODEL                      the model of a text, as `layers` prints it
    layers MODEL [Y..]                         the layers of a model as text

What a shape has outside the legal box is left out, and so is what no path of full voxels joins with the floor."""

from __future__ import annotations

import math
import re
from typing import Dict, Iterable, Iterator, List, Optional, Tuple

from ..models import Model

HEAD = re.compile(r"resolution (\d+)(?:, \d+ full voxels?)?")
LAYER = re.compile(r"y (\d+)(?: to (\d+))?, x from (\d+), z from (\d+)")


class Rows:
    """A model in the making: for each x and y the bits of a row along z."""

    def __init__(self, resolution: int) -> None:
        self.resolution = resolution
        self.bits = [[0] * resolution for _ in range(resolution)]

    def fill(self, x: int, y: int, low: int, high: int) -> None:
        """Fills a row from `low` to `high`, as far as it lies in the legal box."""
        self.fill_bits(x, y, run(low, high))

    def fill_bits(self, x: int, y: int, bits: int) -> None:
        """Fills the voxels of a row whose bits are set, as far as they lie in the legal box."""
        last = self.resolution - 2
        if 1 <= x <= last and 0 <= y <= last:
            self.bits[x][y] |= bits & run(1, last)

    def keep_grounded(self) -> None:
        """Leaves out the voxels that no path of full voxels joins with the floor."""
        grounded = [[row[0], *[0] * (self.resolution - 1)] for row in self.bits]
        pending = [(x, 0) for x in range(self.resolution)]
        while pending:
            x, y = pending.pop()
            grounded[x][y] = reached = _spread(grounded[x][y], self.bits[x][y])
            for u, v in ((x - 1, y), (x + 1, y), (x, y - 1), (x, y + 1)):
                if 0 <= u < self.resolution and 0 <= v < self.resolution and reached & self.bits[u][v] & ~grounded[u][v]:
                    grounded[u][v] |= reached & self.bits[u][v]
                    pending.append((u, v))
        self.bits = grounded

    def model(self) -> Model:
        """Returns the model with these voxels."""
        r = self.resolution
        data = bytearray((r**3 + 7) // 8 + r)
        for x, wall in enumerate(self.bits):
            for y, row in enumerate(wall):
                place, shift = divmod((x * r + y) * r, 8)
                for i, byte in enumerate((row << shift).to_bytes((r + 14) // 8, "little")):
                    data[place + i] |= byte
        return Model(r, bytes(data[: (r**3 + 7) // 8]))


def run(low: int, high: int) -> int:
    """Returns the bits from `low` to `high`, both included; a negative `low` counts as 0."""
    low = max(low, 0)
    return (1 << (high + 1)) - (1 << low) if low <= high else 0


def _spread(bits: int, row: int) -> int:
    while (more := (bits | bits << 1 | bits >> 1) & row) != bits:
        bits = more
    return bits


def _size(resolution: int) -> Rows:
    if not 1 <= resolution <= 400:
        raise ValueError(f"the resolution is 1 to 400, not {resolution}")
    return Rows(resolution)


def box(resolution: int, one: Tuple[int, int, int], other: Tuple[int, int, int], hollow: bool = False) -> Model:
    """Returns the model of the box between two corners, or of its shell."""
    rows = _size(resolution)
    (left, right), (floor, top), (near, far) = (sorted(ends) for ends in zip(one, other))
    for x in range(left, right + 1):
        for y in range(floor, top + 1):
            if not hollow or x in (left, right) or y in (floor, top):
                rows.fill(x, y, near, far)
            else:
                rows.fill(x, y, near, near)
                rows.fill(x, y, far, far)
    rows.keep_grounded()
    return rows.model()


def sphere(resolution: int, hollow: bool = False) -> Model:
    """Returns the model of the largest ball that touches the floor, or of its shell of two voxels."""
    rows = _size(resolution)
    radius = max((resolution - 3) / 2, 0)
    middle, height = (resolution - 1) / 2, radius - 0.5  # half a voxel lower than a ball that touches the floor, so it rests on a cap
    for x in range(resolution):
        for y in range(resolution):
            apart = (x - middle) ** 2 + (y - height) ** 2
            outer = _half(radius, apart)
            if outer is None:
                continue
            inner = _half(radius - 2, apart) if hollow else None
            if inner is None:
                rows.fill(x, y, math.ceil(middle - outer), math.floor(middle + outer))
            else:
                rows.fill(x, y, math.ceil(middle - outer), math.ceil(middle - inner) - 1)
                rows.fill(x, y, math.floor(middle + inner) + 1, math.floor(middle + outer))
    rows.keep_grounded()
    return rows.model()


def _half(radius: float, apart: float) -> Optional[float]:
    """Half of the chord of a ball at a squared distance from its middle line, None if it does not meet the ball."""
    return math.sqrt(radius**2 - apart) if radius >= 0 and apart <= radius**2 else None


# ---- as text


def _layers(model: Model) -> List[List[str]]:
    r = model.resolution
    bits = "".join(f"{byte:08b}"[::-1] for byte in model.bits).translate({48: ".", 49: "#"})
    walls = [[bits[(x * r + y) * r : (x * r + y + 1) * r] for x in range(r)] for y in range(r)]
    return [["".join(row) for row in zip(*columns)] for columns in walls]


def _bounds(tests: Iterable[bool]) -> Tuple[int, int]:
    """Returns the first and the one past the last that hold."""
    hold = [place for place, test in enumerate(tests) if test]
    return hold[0], hold[-1] + 1


def text_of(model: Model, wanted: Iterable[int] = ()) -> Iterator[str]:
    """Yields the lines of a model as text: each layer with a full voxel, # for a full voxel and . for a void one, x to the right and z down,
    within the box of all full voxels. Equal layers that follow one another are printed once; `wanted` chooses layers."""
    layers, chosen = _layers(model), set(wanted)
    full = [y for y, layer in enumerate(layers) if any("#" in row for row in layer)]
    yield f"resolution {model.resolution}, {len(model.full)} full voxels"
    if not full:
        return
    first_z, end_z = _bounds(any("#" in layers[y][z] for y in full) for z in range(model.resolution))
    first_x, end_x = _bounds(any(row[x] == "#" for y in full for row in layers[y]) for x in range(model.resolution))
    shown: Dict[int, List[str]] = {y: [row[first_x:end_x] for row in layers[y][first_z:end_z]] for y in full}
    left = [y for y in full if not chosen or y in chosen]
    while left:
        y = end = left.pop(0)
        while left and left[0] == end + 1 and shown[left[0]] == shown[y]:
            end = left.pop(0)
        yield f"y {y}" + (f" to {end}" if end > y else "") + f", x from {first_x}, z from {first_z}"
        yield from shown[y]


def model_of(text: str) -> Model:
    """Returns the model of a text as `text_of` yields it. Raises ValueError with the line that is none."""
    rows: Optional[Rows] = None
    heights, x_from, z = range(0), 0, 0
    for number, line in enumerate(text.splitlines(), 1):
        line = line.strip()
        if not line:
            continue
        if rows is None:
            head = HEAD.fullmatch(line)
            if not head:
                raise ValueError(f"line {number}: the first line is `resolution R`")
            rows = _size(int(head[1]))
        elif layer := LAYER.fullmatch(line):
            heights, x_from, z = range(int(layer[1]), int(layer[2] or layer[1]) + 1), int(layer[3]), int(layer[4])
        elif heights and set(line) <= {"#", "."}:
            _put(rows, number, heights, x_from, z, line)
            z += 1
        else:
            raise ValueError(f"line {number}: a layer begins with `y A to B, x from X, z from Z`, and its rows have # and . alone")
    if rows is None:
        raise ValueError("line 1: the first line is `resolution R`")
    return rows.model()


def _put(rows: Rows, number: int, heights: range, x_from: int, z: int, line: str) -> None:
    """Fills the voxels of a line of a layer."""
    r = rows.resolution
    if heights.stop > r or z >= r or x_from + len(line) > r:
        raise ValueError(f"line {number}: out of resolution {r}")
    for x, voxel in enumerate(line, x_from):
        if voxel == "#":
            for y in heights:
                rows.bits[x][y] |= 1 << z
