#!/usr/bin/env python3
"""A machine that persists between steps, from Python, as machine.c from C: `machine.py run [light] S T B` prints the line of `nanobot
run` for a run that is accepted or breaks a rule. Each step is made, undone, and made again, and half way the machine continues as a
copy; another machine plays the trace by one call. It needs the package of bindings/python."""

import sys

from nanobot import BrokenRule, Coord, Machine, Model
from nanobot.trace import orders_at


def step_twice(machine, commands):
    """Makes a step, undoes it, and makes it again."""
    before = machine.state, machine.bots(), machine.count()
    machine.step(commands)
    machine.undo()
    after = machine.state, machine.bots(), machine.count()
    assert before[0][:5] == after[0][:5] and before[1:] == after[1:]
    return machine.step(commands)


def finish(machine, target, left):
    """Returns the outcome at the end, with `left` bytes of commands left."""
    if left:
        raise BrokenRule(13, machine.steps, 0, Coord(0, 0, 0))
    wrong = machine.difference(target or Model.empty(machine.resolution))
    if wrong:
        raise BrokenRule(14, machine.steps, 0, wrong)
    return f"ok energy {machine.energy} steps {machine.steps}"


def run(machine, target, trace):
    at = 0
    while True:
        bots = machine.bots()
        if not bots:
            return finish(machine, target, len(trace) - at)
        orders, end = orders_at(trace, at, bots)
        if len(orders) < len(bots):
            bot = bots[len(orders)]
            raise BrokenRule(1, machine.steps + 1, bot.bid, bot.at)
        step_twice(machine, trace[at:end])
        if at < len(trace) // 2 <= end:
            copy = machine.copy()
            machine.close()
            machine = copy
        at = end


def main():
    light = sys.argv[2:3] == ["light"] and len(sys.argv) == 6
    source, target = (None if name == "-" else Model.read(name) for name in sys.argv[2 + light : 4 + light])
    machine = Machine(source or Model.empty(target.resolution), light=light, notes=4)
    other = machine.copy()
    with open(sys.argv[4 + light], "rb") as file:
        trace = file.read()
    refused = other.play(trace).refused
    try:
        print(run(machine, target, trace))
    except BrokenRule as broken:
        print(broken)
        assert broken.rule in (1, 13, 14) or str(refused) == str(broken)
        return 1
    assert not refused
    return 0


sys.exit(main())
