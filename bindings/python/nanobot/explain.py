"""Why a trace is refused: `python -m nanobot explain S T B`."""

from __future__ import annotations

from itertools import islice
from typing import Iterator, Optional, Tuple

from . import _library as lib
from .commands import command_at
from .errors import BrokenRule, Coord, Refused
from .machine import Machine, Source, bytes_of
from .models import Model
from .progress import Progress
from .rows import judge, side
from .trace import Player, machine_of, orders_at, trace_ends
from .why import Row, spaced, why


def _around(data: bytes, offset: int) -> str:
    """Returns the bytes around an offset, with its own in brackets."""
    first = max(0, offset - 6)
    return " ".join(f"[{b:02x}]" if i == offset else f"{b:02x}" for i, b in enumerate(data[first : offset + 7], first))


def walk_to_the_end(machine: Machine, data: bytes) -> Tuple[int, Optional[BrokenRule], Row]:
    """Makes the steps of a trace as far as they go: the byte that comes next, the rule that stops it, and the step's commands."""
    player, progress = Player(machine, data), Progress("explain", len(data))
    try:
        refused = player.play(progress=progress)
    finally:
        progress.clear()
    bots = machine.bots()
    if not bots:
        return player.offset, None, []
    row, _ = orders_at(data, player.offset, bots)
    return player.offset, refused if isinstance(refused, BrokenRule) else trace_ends(machine, len(row)), row


class Runs:
    """The run of a trace from its source, started anew at each call."""

    def __init__(self, source: bytes, target: bytes, data: bytes, light: bool) -> None:
        """An empty source or target is the empty model of the other's resolution."""
        self.source, self.target, self.data, self.light = source, target, data, light

    def start(self) -> Machine:
        return machine_of(self.source or None, self.target or None, light=self.light)

    def wanted(self, resolution: int) -> Model:
        """Returns the target."""
        return Model.from_bytes(self.target) if self.target else Model.empty(resolution)


def _differences(machine: Machine, wanted: Model) -> Iterator[str]:
    """Yields the number of voxels that differ from the target, and the least ones."""
    made = machine.matrix()
    differing = (made ^ wanted).full
    yield f"{len(differing)} voxels differ from the target; the least:"
    for c in islice(differing, 10):
        here, there = ("full", "void") if made[c] else ("void", "full")
        yield f"  {spaced(c)} is {here}, wanted: {there}"


def _bad_bytes(machine: Machine, data: bytes, offset: int, is_cut: bool) -> Iterator[str]:
    """Yields the bytes around a bad or cut command, and the outcome of the steps before it."""
    yield f"the command at byte {offset} is {'cut' if is_cut else 'none'}: {_around(data, offset)}"
    start, broken, _ = walk_to_the_end(machine, data[:offset])
    if broken and broken.name == "TraceEnds":
        yield f"it is that of bot {broken.bid} in step {broken.step}, which begins at byte {start}"
    elif broken:
        yield f"before it, at byte {start}: {broken}"
    else:
        yield f"before it the last bot halts in step {machine.steps}, which ends at byte {start}"


def _first_step_with(runs: Runs, extra: Model, last: int) -> Tuple[int, Coord]:
    """Returns the step after which one of these voxels is full that are void at the start and full after the last step, and that voxel: the first
    such step, unless some of them are voided in between. It halves the steps, so that each is made some two times."""
    machine, found = runs.start(), extra
    low, high, offset = 0, last, 0
    progress = Progress("explain", len(runs.data))
    while low + 1 < high:
        middle = (low + high) // 2
        ahead = machine.copy()
        player = Player(ahead, runs.data, offset)
        player.play(middle - low, progress)
        there = ahead.matrix() & extra
        if there.full:
            high, found = middle, there
        else:
            machine, low, offset = ahead, middle, player.offset
    progress.clear()
    return high, next(iter(found.full))


def _first_extra(machine: Machine, runs: Runs) -> Iterator[str]:
    """Since which step a voxel is full that is full in neither the source nor the target, if there is one: a list of commands that is shifted
    shows so, long before a rule is broken."""
    made = machine.matrix()
    extra = made - runs.wanted(machine.resolution)
    if runs.source:
        extra = extra - Model.from_bytes(runs.source)
    if not extra.full:
        return
    step, at = _first_step_with(runs, extra, machine.steps)
    yield f"since step {step} the voxel {spaced(at)} is full, which is void in the target"


def _broken_run(machine: Machine, runs: Runs) -> Iterator[str]:
    """Yields the lines on a step that breaks a rule, or on the faults once no bot is left."""
    data = runs.data
    offset, broken, row = walk_to_the_end(machine, data)
    if broken:
        yield f"step {broken.step} begins at byte {offset}, with {len(row)} commands for {machine.state.active} bots"
        yield from why(machine, broken, row)
        yield from _first_extra(machine, runs)
    elif offset < len(data):
        yield f"the last bot halts in step {machine.steps}, and {len(data) - offset} bytes are left from byte {offset} on"
        yield f"wanted: no command there; it has {command_at(data, offset)}"
    else:
        yield from _differences(machine, runs.wanted(machine.resolution))


def explain(source: Optional[Source], target: Optional[Source], trace: Source, *, light: bool = False) -> Iterator[str]:
    """Yields the lines that say why a trace is refused, or what it costs: first the line that the program prints of it.

    Takes what `judge` takes. A trace is judged, and if it is refused its steps are made once, and once more to find the first voxel that
    the target has not. Raises ValueError if neither a source nor a target is given, TypeError, OSError or MemoryError."""
    data = bytes_of(trace, "the trace (after the source and the target)")
    runs = Runs(side(source, "the source"), side(target, "the target"), data, light)
    try:
        cost = judge(runs.source, runs.target, data, light=light)
        yield f"ok energy {cost.energy} steps {cost.steps}"
        return
    except Refused as it:
        refused = it
    yield refused.line
    if refused.status not in (lib.BROKEN, lib.TRACE):
        return
    with runs.start() as machine:
        if refused.status == lib.BROKEN:
            yield from _broken_run(machine, runs)
        elif " at " in refused.line:
            yield from _bad_bytes(machine, data, int(refused.line.split()[-1]), "cut" in refused.line)
