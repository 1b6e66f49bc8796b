"""Traces that no planner of nanobot makes: eight bots that fill or void whole boxes, and one bot that flips all the time."""
from __future__ import annotations

from collections.abc import Callable, Iterable

Move = tuple[int, int, int]
Voxels = set[tuple[int, int, int]]
HALT, WAIT, FLIP = b"\xff", b"\xfe", b"\xfd"
SIDE, BOXES, GAP = 31, 3, 2


def near(d: Move) -> int:
    return 9 * (d[0] + 1) + 3 * (d[1] + 1) + d[2] + 1


def straight(axis: int, length: int) -> bytes:
    return bytes([(axis + 1) << 4 | 4, length + 15])


def legs(length: int) -> Iterable[int]:
    """A way of any length in moves of at most 15."""
    while length:
        leg = max(-15, min(15, length))
        yield leg
        length -= leg


class Team:
    """Bots that start as one and act together; collects the trace."""

    def __init__(self) -> None:
        self.places = {1: [0, 0, 0]}
        self.seeds = {1: list(range(2, 41))}
        self.trace = bytearray()

    def step(self, commands: dict[int, bytes]) -> None:
        for bid in sorted(self.places):
            self.trace += commands.get(bid, WAIT)

    def move(self, bids: Iterable[int], axis: int, length: int) -> None:
        chosen = list(bids)
        for leg in legs(length):
            self.step({bid: straight(axis, leg) for bid in chosen})
            for bid in chosen:
                self.places[bid][axis] += leg

    def split(self, bid: int, d: Move, given: int) -> int:
        new, *rest = self.seeds[bid]
        self.step({bid: bytes([near(d) << 3 | 5, given])})
        self.places[new] = [a + b for a, b in zip(self.places[bid], d)]
        self.seeds[new], self.seeds[bid] = rest[:given], rest[given:]
        return new

    def join(self, pairs: list[tuple[int, int]], d: Move) -> None:
        back = (-d[0], -d[1], -d[2])
        commands = {first: bytes([near(d) << 3 | 7]) for first, _ in pairs}
        commands |= {second: bytes([near(back) << 3 | 6]) for _, second in pairs}
        self.step(commands)
        for _, second in pairs:
            del self.places[second]


class BoxTeam(Team):
    """Eight bots beside the corners of a box of SIDE voxels along each axis, which move from box to box."""

    def __init__(self) -> None:
        super().__init__()
        self.at = [0, 0, 0]
        self.move([1], 0, 1)
        right = self.split(1, (1, 0, 0), 3)
        self.move([right], 0, SIDE)
        self.move([1, right], 2, 1)
        behind = [self.split(1, (0, 0, 1), 1), self.split(right, (0, 0, 1), 1)]
        self.move(behind, 2, SIDE - 2)
        self.low = [1, right, *behind]
        self.high = [self.split(bid, (0, 1, 0), 0) for bid in self.low]
        self.move(self.high, 1, SIDE - 2)

    def go(self, axis: int, box: int) -> None:
        self.move(list(self.places), axis, (box - self.at[axis]) * (SIDE + (GAP if axis == 0 else 0)))
        self.at[axis] = box

    def visit(self, box: Move) -> None:
        if box[0] != self.at[0]:
            self.go(1, BOXES)
            self.go(2, box[2])
            self.go(0, box[0])
        self.go(2, box[2])
        self.go(1, box[1])

    def act(self, kind: int) -> None:
        """GFill (1) or GVoid (0) of the box between the eight."""
        low = self.places[1]
        commands = {}
        for bid, place in self.places.items():
            ends = [1 if place[axis] > low[axis] else 0 for axis in range(3)]
            far = [30 - (SIDE - 1) if end else 30 + SIDE - 1 for end in ends]
            commands[bid] = bytes([near((-1 if ends[0] else 1, 0, 0)) << 3 | kind, *far])
        self.step(commands)

    def finish(self) -> bytes:
        for axis, box in ((1, BOXES), (0, 0), (2, 0), (1, 0)):
            self.go(axis, box)
        self.move(self.high, 1, 2 - SIDE)
        self.join(list(zip(self.low, self.high)), (0, 1, 0))
        first, right, behind, across = self.low
        self.move([behind, across], 2, 2 - SIDE)
        self.join([(first, behind), (right, across)], (0, 0, 1))
        self.move([first, right], 2, -1)
        self.move([right], 0, -SIDE)
        self.join([(first, right)], (1, 0, 0))
        self.move([first], 0, -1)
        self.step({first: HALT})
        return bytes(self.trace)


def box_order(overhang: bool) -> list[Move]:
    """All boxes, from the floor up; with overhangs all but the first column of each wall from the top down."""
    boxes = []
    for x in range(BOXES):
        for z in range(BOXES):
            heights = range(BOXES)
            boxes += [(x, y, z) for y in (reversed(heights) if overhang and z else heights)]
    return boxes


def boxes(overhang: bool, build: bool) -> tuple[bytes, Voxels]:
    team = BoxTeam()
    order = box_order(overhang)
    for box in order if build else reversed(order):
        team.visit(box)
        team.act(1 if build else 0)
    corner: Callable[[Move], Move] = lambda b: (2 + b[0] * (SIDE + GAP), b[1] * SIDE, 1 + b[2] * SIDE)
    side = range(SIDE)
    full = {(x + u, y + v, z + w) for x, y, z in map(corner, order) for u in side for v in side for w in side}
    return team.finish(), full


def flips(resolution: int) -> tuple[bytes, Voxels]:
    """One bot fills a plate of two layers, and turns harmonics High and Low again for each column."""
    team = Team()
    full: Voxels = set()
    team.move([1], 1, 1)
    team.move([1], 2, 1)
    team.move([1], 0, 2)
    last = resolution - 2
    for z in range(1, resolution - 1):
        forward = z % 2 == 1
        ahead = -1 if forward else 1
        for x in range(1, resolution - 1) if forward else range(last, 0, -1):
            team.move([1], 0, x - ahead - team.places[1][0])
            for command in (FLIP, bytes([near((ahead, 0, 0)) << 3 | 3]), bytes([near((ahead, -1, 0)) << 3 | 3]), FLIP):
                team.step({1: command})
            full |= {(x, 1, z), (x, 0, z)}
        if z < last:
            team.move([1], 2, 1)
            team.move([1], 0, ahead)
    team.move([1], 1, 1)
    for axis in (0, 2, 1):
        team.move([1], axis, -team.places[1][axis])
    team.step({1: HALT})
    return bytes(team.trace), full
