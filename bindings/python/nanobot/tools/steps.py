"""The commands of a trace with their steps and bots: `python -m nanobot steps TRACE [FIRST [LAST]]`."""

from __future__ import annotations

from typing import Dict, Iterator, List, Optional, Tuple

from ..commands import Command, command_at
from ..errors import BadCommands

Place = Tuple[int, int, int]
Bots = Dict[int, Tuple[Place, List[int]]]


def _sum(place: Place, difference: Place) -> Place:
    return place[0] + difference[0], place[1] + difference[1], place[2] + difference[2]


def after(bots: Bots, commands: List[Command]) -> Bots:
    """Returns the bots after a step: by bid the position and the seeds. Raises LookupError if the step breaks a rule that the trace alone shows."""
    later: Bots = {}
    fusing = []
    for (bid, (place, seeds)), command in zip(sorted(bots.items()), commands):
        if command.word == "Halt":
            continue
        if command.word == "Fission" and command.seeds is not None:
            later[seeds[0]] = (_sum(place, command.differences[0]), seeds[1 : command.seeds + 1])
            seeds = seeds[command.seeds + 1 :]
        if command.word in ("SMove", "LMove"):
            for difference in command.differences:
                place = _sum(place, difference)
        if command.word == "FusionP":
            fusing.append((bid, _sum(place, command.differences[0])))
        later[bid] = (place, seeds)
    for bid, other_place in fusing:
        other = next((it for it, (place, _) in later.items() if place == other_place), None)
        if other is None or other == bid or bid not in later:
            raise LookupError
        later[bid] = (later[bid][0], sorted([*later[bid][1], other, *later.pop(other)[1]]))
    return later


def _step(trace: bytes, offset: int, count: int) -> Tuple[List[Tuple[int, Command]], int, Optional[BadCommands]]:
    """Returns at most `count` commands from an offset on with their offsets, the offset after them, and the fault that ended them early."""
    row: List[Tuple[int, Command]] = []
    while len(row) < count and offset < len(trace):
        try:
            command = command_at(trace, offset)
        except BadCommands as bad:
            return row, offset, bad
        row.append((offset, command))
        offset += len(bytes(command))
    return row, offset, None


def listed(trace: bytes, first: int = 1, last: Optional[int] = None) -> Iterator[str]:
    """Yields a line for each command of the steps from `first` to `last`: its step, bot, byte, number, the bot's position before the step, and
    its text. The trace alone determines the bot of a command as long as no rule is broken; nothing is judged. The last line reports
    the end of that, if it is before the end of the trace."""
    bots: Bots = {1: ((0, 0, 0), list(range(2, 41)))}
    step = number = offset = 0
    while offset < len(trace) and bots and (last is None or step < last):
        step += 1
        row, offset, bad = _step(trace, offset, len(bots))
        for (bid, (place, _)), (at, command) in zip(sorted(bots.items()), row):
            if step >= first:
                yield f"step {step} bid {bid} byte {at} command {number} at {' '.join(map(str, place))}: {command}"
            number += 1
        if bad is not None:
            yield f"byte {bad.offset} command {number}: bad or cut: {trace[bad.offset : bad.offset + 4].hex(' ')}"
            return
        if len(row) < len(bots):
            return
        try:
            bots = after(bots, [command for _, command in row])
        except LookupError:
            yield f"step {step} breaks a rule: the trace alone shows no more"
            return
    if offset < len(trace) and not bots:
        row, _, _ = _step(trace, offset, 1)
        yield f"byte {offset} command {number}: no bot is left for {row[0][1] if row else 'it'}"
