"""Legal models with long ways from the floor, or with many parts: the slowest that planners of many bots were found to meet."""

from __future__ import annotations

import sys
from collections.abc import Callable, Iterator
from pathlib import Path

sys.path.insert(0, str(Path(__file__).resolve().parents[1] / "bindings/python"))

from nanobot.tools.shapes import Rows, run  # noqa: E402

# Every second voxel of a row, from the first one on.
COMB = sum(1 << z for z in range(1, 400, 2))


class Maze(Rows):
    """A model in the making, with the limits of its legal box."""

    def __init__(self, resolution: int) -> None:
        super().__init__(resolution)
        self.last = resolution - 2
        self.whole = run(1, self.last)

    def sides(self, every: int = 1) -> range:
        return range(1, self.last + 1, every)

    def column(self, x: int, z: int, low: int = 0) -> None:
        for y in range(low, self.last + 1):
            self.fill_bits(x, y, 1 << z)

    def walls(self, bits: Callable[[int, int], int]) -> None:
        """Fills each row with the bits for its x and y."""
        for x in self.sides():
            for y in range(self.last + 1):
                self.fill_bits(x, y, bits(x, y))

    def layer(self, y: int) -> int:
        """Fills a path through a layer, and returns the z of its end."""
        for x in self.sides(2):
            self.fill_bits(x, y, self.whole)
        for x in range(2, self.last, 2):
            self.fill_bits(x, y, 1 << (self.last if x % 4 == 2 else 1))
        return self.last if len(self.sides(2)) % 2 else 1


def columns(maze: Maze) -> None:
    """Columns that do not touch."""
    maze.walls(lambda x, y: COMB * (x % 2))


def checker(maze: Maze) -> None:
    """Columns that touch along edges alone."""
    maze.walls(lambda x, y: COMB if x % 2 else COMB << 1)


def comb_across(maze: Maze) -> None:
    """A wall with teeth along x at every second y and z."""
    maze.walls(lambda x, y: maze.whole if x == 1 else COMB * (1 - y % 2))


def comb_along(maze: Maze) -> None:
    """A wall with teeth along z at every second x and y."""
    maze.walls(lambda x, y: 2 | maze.whole * (x % 2) * (1 - y % 2))


def dots(maze: Maze) -> None:
    """Combs in every second layer, joined at one corner."""
    maze.walls(lambda x, y: (2 | maze.whole * (x % 2)) * (1 - y % 2))
    maze.column(1, 1)


def snake(maze: Maze) -> None:
    """One path through every second layer from the floor on."""
    _snake(maze, 0)


def snake_on_foot(maze: Maze) -> None:
    """The same, one layer higher, on one voxel."""
    maze.fill_bits(1, 0, 2)
    _snake(maze, 1)


def _snake(maze: Maze, low: int) -> None:
    last = maze.sides(2)[-1]
    for k, y in enumerate(range(low, maze.last + 1, 2)):
        end = maze.layer(y)
        if y + 2 <= maze.last:
            maze.fill_bits(1 if k % 2 else last, y + 1, 2 if k % 2 else 1 << end)


def snake_of_columns(maze: Maze) -> None:
    """One path up and down columns, on one voxel."""
    maze.fill_bits(1, 0, 2)
    way = list(_rows_there_and_back(maze))
    for k, (x, z) in enumerate(way):
        maze.column(x, z, 1)
        if k + 1 < len(way):
            (u, w), y = way[k + 1], 1 if k % 2 else maze.last
            maze.fill_bits((x + u) // 2, y, 1 << (z + w) // 2)


def _rows_there_and_back(maze: Maze) -> Iterator[tuple[int, int]]:
    for i, x in enumerate(maze.sides(2)):
        for z in maze.sides(2)[:: -1 if i % 2 else 1]:
            yield x, z


def hanging(maze: Maze) -> None:
    """A ceiling on one column, from which columns hang."""
    maze.walls(lambda x, y: maze.whole if y == maze.last else COMB * (x % 2) * (y > 0))
    maze.column(1, 1)


MAZES: dict[str, Callable[[Maze], None]] = {
    "columns": columns,
    "checker": checker,
    "comb-across": comb_across,
    "comb-along": comb_along,
    "dots": dots,
    "snake": snake,
    "snake-on-foot": snake_on_foot,
    "snake-of-columns": snake_of_columns,
    "hanging": hanging,
}


def maze(name: str, resolution: int) -> bytes:
    """The model file of a maze."""
    made = Maze(resolution)
    MAZES[name](made)
    return bytes(made.model())
