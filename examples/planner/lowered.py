#!/usr/bin/env python3
"""A planner that asks the machine: it makes the commands of planner.py again, under High only while some voxel would float.

Usage: lowered.py MODEL TRACE

Each command is judged before it is made; if it would break rule 12, a Flip is made first, and Low is tried again after each
fill. Needs the Python package (bindings/python/README.md, "To install"). Takes some two seconds for the 34202 voxels that
`make 7 60` stores."""
import sys

import planner

try:
    import nanobot
except ImportError:
    sys.exit("lowered.py: needs the Python package: bindings/python/README.md, \"To install\"")


def accepts(machine, step):
    """Returns whether the machine would accept the step. The machine does not change."""
    try:
        machine.judge(step)
    except nanobot.BrokenRule as broken:
        if broken.name != "Ungrounded":
            raise  # no Flip helps
        return False
    return True


def lowered(model):
    steps = [nanobot.asm(line) for line in nanobot.dis(planner.plan(planner.full_voxels(model))).splitlines() if line != "Flip"]
    with nanobot.Machine(resolution=model[0], trace=True) as machine:
        for step in steps:
            if not accepts(machine, step):
                machine.step(planner.FLIP)
            machine.step(step)
            if machine.state.high and step == planner.FILL_BELOW and accepts(machine, planner.FLIP):
                machine.step(planner.FLIP)
        print(f"energy {machine.energy} steps {machine.steps}, {machine.differences(model)} voxels differ")
        return machine.trace()


if __name__ == "__main__":
    if len(sys.argv) != 3:
        sys.exit(__doc__)
    with open(sys.argv[1], "rb") as file:
        trace = lowered(file.read())
    with open(sys.argv[2], "wb") as file:
        file.write(trace)
