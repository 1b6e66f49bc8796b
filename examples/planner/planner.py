#!/usr/bin/env python3
"""A planner to copy: one bot under High fills a model layer by layer, from one layer above.

Usage: planner.py MODEL TRACE

Reads a model of the contest's form and writes a trace (docs/FORMATS.md has the bytes of both). It judges nothing: that is what
`nanobot run - MODEL TRACE` is for."""
import sys

FLIP, HALT = b"\xfd", b"\xff"
FILL_BELOW = bytes([(9 * 1 + 3 * 0 + 1) << 3 | 3])  # <0,-1,0>: nine times dx + 1, three times dy + 1, dz + 1
X, Y, Z = range(3)


def full_voxels(data):
    r = data[0]
    places = (place for place in range(r**3) if data[1 + place // 8] >> place % 8 & 1)
    return [(place // (r * r), place // r % r, place % r) for place in places]


def moves(here, there, axes):
    """Returns SMoves of at most 15 along each of the axes, one after another."""
    for axis in axes:
        left = there[axis] - here[axis]
        while left:
            length = max(-15, min(15, left))
            yield bytes([(axis + 1) << 4 | 4, length + 15])
            left -= length


def plan(voxels):
    trace, here = [FLIP], (0, 0, 0)
    # layer by layer, row by row, every other row backwards
    for x, y, z in sorted(voxels, key=lambda v: (v[Y], v[X], v[Z] if v[X] % 2 else -v[Z])):
        trace += [*moves(here, (x, y + 1, z), (Y, X, Z)), FILL_BELOW]
        here = (x, y + 1, z)
    # all that is full lies below, so first over to the corner and then down
    return b"".join([*trace, *moves(here, (0, 0, 0), (X, Z, Y)), FLIP, HALT])


if __name__ == "__main__":
    if len(sys.argv) != 3:
        sys.exit(__doc__)
    with open(sys.argv[1], "rb") as model, open(sys.argv[2], "wb") as trace:
        trace.write(plan(full_voxels(model.read())))
