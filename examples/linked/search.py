#!/usr/bin/env python3
"""A search over two machines, from Python, as search.c from C: `search.py T B` builds towards the model T by the steps that are best two
moves deep, stores its trace as B, and prints the line of `nanobot run - T B` for it. It needs the package of
bindings/python."""

import itertools
import sys

import nanobot
from nanobot import BrokenRule, Fill, Halt, Machine, Model, NanobotError, SMove

STEPS, HALT = 12, Halt()


def moves():
    """Returns the fills of all near coordinates, and the moves by one."""
    for d in itertools.product((-1, 0, 1), repeat=3):
        if sum(map(abs, d)) in (1, 2):
            yield Fill(*d)
    for axis in range(3):
        for way in (-1, 1):
            yield SMove(*(way if axis == it else 0 for it in range(3)))


MOVES = list(moves())


def score(machine):
    """Returns the score of a state: first the number of wrong voxels, then the energy."""
    return machine.remaining, machine.energy


def accepts(machine, commands):
    """Returns the outcome of the step; None if it is refused."""
    try:
        return machine.judge(commands)
    except NanobotError:
        return None


def search(machine, depth):
    """Returns the best score after `depth` moves, and the first of them."""
    if depth == 0:
        return score(machine), None
    best = (2**32, 0), None
    for move in MOVES:
        judged = accepts(machine, move)
        if not judged:
            continue
        assert machine.step(move).energy == judged.energy
        found = search(machine, depth - 1)[0]
        machine.undo()
        if found < best[0]:
            best = found, move
    return best


def check(made, scout, trace):
    """Checks that both machines have the same state, and that the trace is that of its own text."""
    assert made.state[:5] == scout.state[:5] and made.count() == scout.count() and nanobot.version() >= "0.9.0"
    assert all(made.full((x, 0, 1)) == (made.level((x, 0, 1)) is not None) for x in range(made.state.resolution))
    assert nanobot.asm(nanobot.dis(trace)) == trace and nanobot.count_commands(trace) == made.steps


def main():
    if len(sys.argv) != 3:
        sys.exit(__doc__)
    target = Model.read(sys.argv[1])
    with Machine(resolution=target.resolution, notes=2, trace=True) as made, made.copy() as scout:
        made.aim(target)
        scout.aim(target)
        for _ in range(STEPS):
            if not made.remaining:
                break
            move = search(scout, 2)[1]
            made.step(move)
            scout.step(move)
        if not made.remaining and accepts(made, HALT):
            made.step(HALT)
            scout.step(HALT)
        trace = made.trace()
        check(made, scout, trace)
        with open(sys.argv[2], "wb") as file:
            file.write(trace)
        bots = made.bots()
        if not bots:
            print(f"ok energy {made.energy} steps {made.steps}")
            return 0
        print(BrokenRule(1, made.steps + 1, bots[0].bid, bots[0].at))
        return 1


sys.exit(main())
