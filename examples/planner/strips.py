#!/usr/bin/env python3
"""A planner of several bots to copy: each builds a strip of the model, and all make the same moves at once.

Usage: strips.py MODEL TRACE

At most twenty bots are in a row along x, each at the begin of its strip. They come from one by Fissions, move through their strips
side by side as the one bot of planner.py does, and fuse again. No two ever get in each other's way: strips are equally wide, and all
bots are at the same position of theirs. Nothing is judged, as in planner.py."""
import sys

from planner import FILL_BELOW, FLIP, HALT, X, Y, Z, full_voxels, moves

MOST_BOTS = 20
WAIT = b"\xfe"
SPLIT, PRIMARY, SECONDARY = 22 << 3 | 5, bytes([22 << 3 | 7]), bytes([4 << 3 | 6])  # <1,0,0>, <1,0,0> and <-1,0,0>


def strips(voxels, r):
    """Returns the begin of the first strip, their width, and their number: as many as possible, and none leaves the matrix."""
    first, last = min(v[X] for v in voxels), max(v[X] for v in voxels)
    for width in range(1, last - first + 2):
        count = (last - first) // width + 1
        if count <= MOST_BOTS and first + count * width <= r:
            return first, width, count


def spread(width, count):
    """Returns the steps, each with a command for each bot, in which the last bot of the row splits and the new one moves on."""
    for bots in range(1, count):
        yield [WAIT] * (bots - 1) + [bytes([SPLIT, count - bots - 1])]
        yield from ([WAIT] * bots + [move] for move in moves((1, 0, 0), (width, 0, 0), (X,)))


def gather(width, count):
    """Returns the same backwards: the last bot moves next to the one before it, and both fuse."""
    for bots in range(count, 1, -1):
        yield from ([WAIT] * (bots - 1) + [move] for move in moves((width, 0, 0), (1, 0, 0), (X,)))
        yield [WAIT] * (bots - 2) + [PRIMARY, SECONDARY]


def sweep(voxels, first, width, count):
    """Returns the steps of all bots through their strips, layer by layer and line by line, every other line backwards."""
    here = (0, 0, 0)
    places = {((x - first) % width, y, z) for x, y, z in voxels}
    for x, y, z in sorted(places, key=lambda p: (p[Y], p[X], p[Z] if p[X] % 2 else -p[Z])):
        yield from ([move] * count for move in moves(here, (x, y + 1, z), (Y, X, Z)))
        yield [FILL_BELOW if (first + k * width + x, y, z) in voxels else WAIT for k in range(count)]
        here = (x, y + 1, z)
    yield from ([move] * count for move in moves(here, (0, 0, 0), (X, Z, Y)))


def plan(voxels, r):
    first, width, count = strips(voxels, r)
    there, back = moves((0, 0, 0), (first, 0, 0), (X,)), moves((first, 0, 0), (0, 0, 0), (X,))
    steps = [[move] for move in there] + [*spread(width, count), [FLIP] + [WAIT] * (count - 1)]
    steps += [*sweep(voxels, first, width, count), [FLIP] + [WAIT] * (count - 1), *gather(width, count)]
    return b"".join(command for step in steps + [[move] for move in back] + [[HALT]] for command in step)


if __name__ == "__main__":
    if len(sys.argv) != 3:
        sys.exit(__doc__)
    with open(sys.argv[1], "rb") as model:
        data = model.read()
    voxels = set(full_voxels(data))
    with open(sys.argv[2], "wb") as trace:
        trace.write(plan(voxels, data[0]) if voxels else HALT)
