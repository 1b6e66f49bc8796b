"""Models with curves, arches and hanging parts, for measuring. All of them are legal: what is not grounded is left out."""
from __future__ import annotations

import math
import sys
from collections.abc import Callable, Iterator
from pathlib import Path

sys.path.insert(0, str(Path(__file__).resolve().parents[2] / "bindings/python"))

from nanobot.tools.shapes import Rows, run  # noqa: E402

Point = tuple[float, float, float]


class Model(Rows):
    """A model in the making, with curves."""

    def box(self, low: tuple[int, int, int], high: tuple[int, int, int]) -> None:
        for x in range(low[0], high[0] + 1):
            for y in range(low[1], high[1] + 1):
                self.fill(x, y, low[2], high[2])

    def ball(self, center: Point, radius: float, inner: float = 0.0) -> None:
        """Fills the voxels whose distance from the center is at least `inner` and at most `radius`."""
        for x in near(center[0], radius):
            for y in near(center[1], radius):
                apart = (x - center[0]) ** 2 + (y - center[1]) ** 2
                self.fill_bits(x, y, chord(center[2], radius**2 - apart) & ~hole(center[2], inner**2 - apart))

    def tube(self, start: Point, end: Point, radius: float) -> None:
        """Fills the balls along a line."""
        count = int(2 * max(abs(a - b) for a, b in zip(start, end))) + 1
        for i in range(count + 1):
            self.ball(between(start, end, i / count), radius)

    def turned(self, x: float, z: float, heights: range, ring: Callable[[int], tuple[float, float]]) -> None:
        """Fills a body of revolution: `ring` answers its inner and outer radius at each height."""
        for y in heights:
            inner, outer = ring(y)
            for column in near(x, outer):
                apart = (column - x) ** 2
                self.fill_bits(column, y, chord(z, outer**2 - apart) & ~hole(z, inner**2 - apart))


def near(center: float, radius: float) -> range:
    return range(math.floor(center - radius), math.ceil(center + radius) + 1)


def chord(center: float, square: float) -> int:
    """The bits of the numbers whose squared distance from the center is at most `square`."""
    if square < 0:
        return 0
    half = math.sqrt(square)
    return run(math.ceil(center - half), math.floor(center + half))


def hole(center: float, square: float) -> int:
    """The bits of the numbers whose squared distance from the center is less than `square`."""
    if square <= 0:
        return 0
    half = math.sqrt(square)
    return run(math.floor(center - half) + 1, math.ceil(center + half) - 1)


def between(start: Point, end: Point, part: float) -> Point:
    x, y, z = (a + (b - a) * part for a, b in zip(start, end))
    return x, y, z


def sphere() -> Model:
    model = Model(60)
    model.ball((29.5, 26.5, 29.5), 27, 24)
    return model


def ball() -> Model:
    model = Model(100)
    model.ball((49.5, 44, 49.5), 45)
    return model


def arch() -> Model:
    model = Model(50)
    for x in range(1, 49):
        for y in range(48):
            if 15 <= math.hypot(x - 24.5, y) <= 21:
                model.fill_bits(x, y, run(18, 31))
    return model


def tree() -> Model:
    model = Model(80)
    model.tube((40, 0, 40), (40, 45, 40), 4)
    for i, (dx, dz) in enumerate([(1.0, 0.2), (-0.8, 0.7), (0.1, -1.0), (0.6, 0.8), (-0.9, -0.6)]):
        height = 20 + 5 * i
        end = (40 + 22 * dx, height + 20, 40 + 22 * dz)
        model.tube((40, height, 40), end, 1.8)
        model.ball(end, 11)
    model.ball((40, 58, 40), 15)
    return model


def statue() -> Model:
    model = Model(150)
    model.box((40, 0, 40), (110, 8, 110))
    model.tube((65, 8, 75), (68, 60, 75), 8)
    model.tube((85, 8, 75), (82, 60, 75), 8)
    for i in range(45):
        part = i / 44
        model.tube((66 - 3 * part, 55 + 50 * part, 75), (84 + 3 * part, 55 + 50 * part, 75), 10)
    for start, end, radius in [
        ((62, 104, 75), (38, 98, 75), 6),
        ((38, 98, 75), (30, 62, 85), 5),
        ((88, 104, 75), (112, 108, 78), 6),
        ((112, 108, 78), (118, 140, 84), 4.5),
        ((75, 108, 75), (75, 118, 75), 6),
    ]:
        model.tube(start, end, radius)
    model.ball((30, 58, 86), 6.5)
    model.ball((75, 128, 75), 13)
    return model


def lattice() -> Model:
    model = Model(60)
    beams = sum(1 << z for z in range(60) if z % 8 < 2)
    for x in range(1, 59):
        for y in range(58):
            crossings = (x % 8 < 2) + (y % 8 < 2)
            model.fill_bits(x, y, [0, beams, run(1, 58)][crossings])
    return model


def hills() -> Model:
    model = Model(120)
    for x in range(1, 119):
        for z in range(1, 119):
            height = 20 + 14 * math.sin(x / 17) + 12 * math.cos(z / 11) + 6 * math.sin((x + z) / 5)
            for y in range(int(max(height, 1))):
                model.fill_bits(x, y, 1 << z)
    return model


def hanging() -> Model:
    """A post and a roof, from which rods hang."""
    model = Model(70)
    model.box((33, 0, 33), (36, 60, 36))
    model.box((8, 60, 8), (61, 61, 61))
    for i in range(7):
        for k in range(7):
            x, z = 10 + 8 * i, 10 + 8 * k
            if abs(x - 34) > 4 or abs(z - 34) > 4:
                model.box((x, 20 + (i * 5 + k * 3) % 20, z), (x + 1, 59, z + 1))
    return model


def helix() -> Model:
    model = Model(90)
    model.tube((45, 0, 45), (45, 85, 45), 3)
    for i in range(2000):
        turn = 31 * i / 2000
        place = (45 + 34 * math.cos(turn), 3 + 80 * i / 2000, 45 + 34 * math.sin(turn))
        model.ball(place, 3)
        if i % 100 == 0:
            model.tube((45, place[1], 45), place, 1.2)
    return model


def vase() -> Model:
    def ring(y: int) -> tuple[float, float]:
        outer = 22 + 16 * math.sin(7 * y / 95) + 6 * y / 95
        return (0.0 if y < 4 else outer - 4), outer

    model = Model(100)
    model.turned(49.5, 49.5, range(95), ring)
    return model


def solid() -> Model:
    """A cone, a torus around it and a ball on it."""
    def torus(y: int) -> tuple[float, float]:
        half = math.sqrt(18**2 - (y - 130) ** 2)
        return 85 - half, 85 + half

    model = Model(250)
    model.turned(125, 125, range(120), lambda y: (0.0, 90 - 0.45 * y))
    model.turned(125, 125, range(112, 149), torus)
    model.ball((125, 175, 125), 70)
    return model


SHAPES: dict[str, Callable[[], Model]] = {
    "arch": arch,
    "ball": ball,
    "hanging": hanging,
    "helix": helix,
    "hills": hills,
    "lattice": lattice,
    "solid": solid,
    "sphere": sphere,
    "statue": statue,
    "tree": tree,
    "vase": vase,
}


def write_all(folder: Path) -> Iterator[str]:
    """Writes every model as FOLDER/NAME.mdl; yields the names."""
    for name, make in SHAPES.items():
        made = make()
        made.keep_grounded()
        made.model().write(folder / f"{name}.mdl")
        yield name
