"""What calls of a kept machine take through the Python package, at the resolution that is given: steps and judgements of one bot and steps of
forty, a hundred thousand of each; a copy, a count of what differs, and reading a model whose lower half is full; and the steps of a long
trace, as explain makes them. NANOBOT_LIBRARY names the shared library."""
import sys
import time

import nanobot
from nanobot.trace import Player

TIMES, BOTS, LONG = 100_000, 40, 1_000_000
THERE, BACK, FILL, VOID, WAIT = b"\x34\x10", b"\x34\x0e", b"\x73", b"\x72", b"\xfe"


def nanoseconds(call, even, odd):
    """Nanoseconds a call with these commands, by turns."""
    began = time.perf_counter()
    for _ in range(TIMES // 2):
        call(even)
        call(odd)
    return 1e9 * (time.perf_counter() - began) / TIMES


def milliseconds(call):
    """The milliseconds of a call, the least of five."""
    times = []
    for _ in range(5):
        began = time.perf_counter()
        call()
        times.append(1e3 * (time.perf_counter() - began))
    return min(times)


def split(machine):
    """Forty bots in a row: the last one splits, and the others wait."""
    for bots in range(1, BOTS):
        machine.step(WAIT * (bots - 1) + bytes([0xB5, BOTS - 1 - bots]))


def half(r):
    """A model whose lower half is full but for its border."""
    return nanobot.Model.from_voxels(r, ((x, y, z) for x in range(1, r - 1) for y in range(r // 2) for z in range(1, r - 1)))


def play(resolution):
    """Makes a long trace of moves."""
    with nanobot.Machine(resolution=resolution) as machine:
        Player(machine, (THERE + BACK) * (LONG // 2)).play()
        assert machine.steps == LONG


def steps_of(resolution):
    """What steps take, as text."""
    with nanobot.Machine(resolution=resolution) as machine:
        told = f"move {nanoseconds(machine.step, THERE, BACK):.0f} ns, fill and void {nanoseconds(machine.step, FILL, VOID):.0f} ns"
        told += f", judge a move {nanoseconds(machine.judge, THERE, THERE):.0f} ns, a fill {nanoseconds(machine.judge, FILL, FILL):.0f} ns"
        move = nanobot.SMove(0, 0, 1)
        told += f", judge {{1: SMove}} {nanoseconds(machine.judge, {1: move}, {1: move}):.0f} ns"
        if resolution >= BOTS:
            split(machine)
            told += f", forty that wait {nanoseconds(machine.step, WAIT * BOTS, WAIT * BOTS):.0f} ns"
    return told


def main():
    resolution = int(sys.argv[1])
    print(f"Python: resolution {resolution}: {steps_of(resolution)}")
    model = half(resolution)
    data = bytes(model)
    with nanobot.Machine(model) as machine:
        print(f"Python: resolution {resolution}, half full: copy {milliseconds(lambda: machine.copy().close()):.2f} ms", end="")
        print(f", count differences {milliseconds(lambda: machine.differences(data)):.2f} ms, model() {milliseconds(machine.model):.2f} ms", end="")
    voxels = len(model.full)
    print(f", read the model {milliseconds(lambda: nanobot.Model.from_bytes(data)):.2f} ms", end="")
    print(f", and its {voxels} full voxels {milliseconds(lambda: list(nanobot.Model.from_bytes(data).full)):.0f} ms")
    print(f"Python: a trace of {LONG} moves {milliseconds(lambda: play(resolution)):.0f} ms")


main()
