"""Models and traces that are made for a benchmark, as bytes."""

from __future__ import annotations

import functools
import itertools
from collections.abc import Iterator

HALT, FLIP, WAIT = b"\xff", b"\xfd", b"\xfe"
X, Y, Z = 0x14, 0x24, 0x34


def legs(axis: int, by: int) -> list[bytes]:
    """SMoves along an axis, each of at most 15."""
    parts = [15 if by > 0 else -15] * (abs(by) // 15)
    rest = by - sum(parts)
    return [bytes([axis, part + 15]) for part in parts + ([rest] if rest else [])]


def move(axis: int, by: int) -> bytes:
    """SMove along an axis, in as many commands as it takes."""
    return b"".join(legs(axis, by))


def empty_model(r: int) -> bytes:
    return bytes([r]) + bytes((r ** 3 + 7) // 8)


def full_model(r: int) -> bytes:
    """All of the legal box."""
    line = f"{'1' * (r - 2):0^{r}}"
    plane = line * (r - 1) + "0" * r
    bits = "0" * (r * r) + plane * (r - 2) + "0" * (r * r)
    return bytes([r]) + int(bits[::-1], 2).to_bytes((r**3 + 7) // 8, "little")


def line_of_bots(count: int) -> bytes:
    """The first bot and its young, one after another, in a line along z."""
    return b"".join(WAIT * (k - 1) + b"\x75" + bytes([39 - k]) for k in range(1, count))


def forty_bots(steps: int) -> bytes:
    """Forty bots in a line move to and fro, and join again."""
    fro = (move(X, 1) * 40 + move(X, -1) * 40) * (steps // 2)
    join = b"".join(WAIT * (k - 2) + b"\x77\x66" for k in range(40, 1, -1))
    return line_of_bots(40) + fro + join + HALT


def forty_fill(pairs: int) -> bytes:
    """Forty bots in a line each fill and void the voxel beside them, and join again."""
    join = b"".join(WAIT * (k - 2) + b"\x77\x66" for k in range(40, 1, -1))
    return line_of_bots(40) + (b"\xb3" * 40 + b"\xb2" * 40) * pairs + join + HALT


def bridge_model(r: int) -> bytes:
    """Two posts and a beam from the top of the one to that of the other."""
    posts = [(x, y, 1) for x in (1, r - 2) for y in range(r - 2)]
    beam = [(x, r - 2, 1) for x in range(1, r - 1)]
    bits = sum(1 << ((x * r + y) * r + z) for x, y, z in posts + beam)
    return bytes([r]) + bits.to_bytes((r ** 3 + 7) // 8, "little")


def plate_model(r: int) -> bytes:
    """A plate at half the height on two posts, in opposite corners."""
    height, line = r // 2, ((1 << (r - 2)) - 1) << 1
    bits = sum(line << (x * r + height) * r for x in range(1, r - 1))
    bits += sum(1 << (end * r + y) * r + end for end in (1, r - 2) for y in range(height))
    return bytes([r]) + bits.to_bytes((r**3 + 7) // 8, "little")


class Route:
    """A trace in the making, of bots that all move together, and the place of the first of them."""

    def __init__(self, bots: int, at: tuple[int, int, int]) -> None:
        self.parts: list[bytes] = []
        self.bots = bots
        self.at = dict(zip((X, Y, Z), at))

    def go(self, x: int, y: int, z: int, order: tuple[int, int, int] = (X, Y, Z)) -> None:
        to = {X: x, Y: y, Z: z}
        for axis in order:
            self.parts += [leg * self.bots for leg in legs(axis, to[axis] - self.at[axis])]
        self.at = to


def full_rows(model: bytes, heights: range) -> Iterator[tuple[int, int, int]]:
    """The x and y of each row with a full voxel, and its bits."""
    r = model[0]
    for y, x in itertools.product(heights, range(r)):
        start = (x * r + y) * r
        row = int.from_bytes(model[1 + start // 8 : 2 + (start + r) // 8], "little") >> start % 8 & (1 << r) - 1
        if row:
            yield x, y, row


@functools.cache
def above_row(row: int, back: bool, command: bytes) -> tuple[int, int, bytes]:
    """The first and the last z of a row's full voxels, and the commands of a bot that goes above them from the one to the other."""
    at = [z for z in range(row.bit_length()) if row >> z & 1][:: -1 if back else 1]
    return at[0], at[-1], command + b"".join(move(Z, there - here) + command for here, there in zip(at, at[1:]))


def sweep(route: Route, model: bytes, heights: range, command: bytes) -> bytes:
    """A bot makes a command above each full voxel, layer by layer, along z there and back by turns, and goes home."""
    for x, y, row in full_rows(model, heights):
        first, last, commands = above_row(row, x % 2 == 1, command)
        route.go(x, y + 1, first, (Y, X, Z))
        route.parts.append(commands)
        route.at[Z] = last
    route.go(0, 0, 0, (X, Z, Y))
    return b"".join(route.parts)


def build(model: bytes, harmonics: bytes) -> bytes:
    """One bot builds a model from the floor up, each voxel from above."""
    return harmonics + sweep(Route(1, (0, 0, 0)), model, range(model[0] - 1), b"\x53") + harmonics + HALT


def take_down(model: bytes) -> bytes:
    """One bot takes a model down from the top, each voxel from above."""
    route = Route(1, (0, 0, 0))
    route.go(0, model[0] - 1, 0)
    return sweep(route, model, range(model[0] - 2, -1, -1), b"\x52") + HALT


def planes(r: int, harmonics: bytes) -> bytes:
    """Four bots at the corners of a square of at most 31 by 31 void the legal box from the top down, layer by layer."""
    side = min(31, r - 2)
    apart = side - 1
    out = [harmonics, move(Y, r - 1), b"\xb5\x01", *(WAIT + leg for leg in legs(X, apart - 1))]
    out += [b"\x75\x00" * 2, *(WAIT * 2 + leg * 2 for leg in legs(Z, apart - 1))]
    ends = [(30 + a * apart, 30 + b * apart) for a, b in ((1, 1), (-1, 1), (-1, -1), (1, -1))]
    void = b"".join(bytes([0x50, x, 30, z]) for x, z in ends)
    stops = [*range(1, r - 1 - side, side), r - 1 - side]
    route = Route(4, (0, r - 1, 0))
    for x, y, z in visits(stops, range(r - 1, 0, -1)):
        route.go(x, y, z, (Y, X, Z))
        route.parts.append(void)
    route.go(0, 0, 0)
    out += [*route.parts, *(WAIT * 2 + leg * 2 for leg in legs(Z, 1 - apart)), b"\x77\x77\x66\x66"]
    out += [*(WAIT + leg for leg in legs(X, 1 - apart)), b"\xb7\x26", harmonics, HALT]
    return b"".join(out)


def visits(stops: list[int], heights: range) -> list[tuple[int, int, int]]:
    """The stops along x and z of each height, along z there and back by turns."""
    return [(x, y, z) for y in heights for i, x in enumerate(stops) for z in (stops[::-1] if i % 2 else stops)]


def forty_rounds(rounds: int, edits: bool) -> bytes:
    """Forty bots in a line go round a square; with edits every second one also makes two moves of two legs on the second side, and
    fills and voids a voxel on the last one."""
    turn = [move(X, 15) * 40, move(Y, 7) * 40, move(X, -15) * 40, move(Y, -7) * 40]
    if edits:
        turn[1] += b"".join((WAIT + command) * 20 for command in (b"\x9c\x66", b"\x6c\x44"))
        turn[3] += b"".join((WAIT + command) * 20 for command in (b"\xb3", b"\xb2"))
    join = b"".join(WAIT * (k - 2) + b"\x77\x66" for k in range(40, 1, -1))
    return line_of_bots(40) + b"".join(turn) * (rounds // 4) + join + HALT
