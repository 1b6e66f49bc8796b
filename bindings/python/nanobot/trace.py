"""The steps of a trace: each bot's command with its first byte, one step after another, and a quick way through many."""

from __future__ import annotations

from typing import Iterator, List, NamedTuple, Optional, Sequence, Tuple

from .commands import SIZES, Command, Fill, GFill, GVoid, Void, command_at
from .errors import BrokenRule, Ended, NanobotError, WrongCount
from .geometry import region, volume
from .machine import Bot, Machine, Source, bytes_of
from .models import Model
from .progress import Progress

# The number of steps between two notes of the byte, and between two reads of the clock.
STRETCH = 1024
COSTS = {"SMove": 0, "LMove": 4, "Fission": 24, "FusionP": -24}


class Order(NamedTuple):
    """The command of a bot in a step, with its first byte in the trace."""

    bot: Bot
    command: Command
    offset: int


def orders_at(data: bytes, offset: int, bots: Sequence[Bot]) -> Tuple[List[Order], int]:
    """Returns the commands of the step that begins at this byte, one for each bot as far as there are any, and the byte behind them."""
    orders: List[Order] = []
    for bot in bots:
        if offset >= len(data):
            break
        orders.append(Order(bot, command_at(data, offset), offset))
        offset += SIZES[data[offset]]
    return orders, offset


def machine_of(source: Optional[Source], target: Optional[Source], *, light: bool = False, notes: int = 0) -> Machine:
    """Returns a machine over the source, or over the empty model of the target's resolution."""
    if source is not None:
        return Machine(source, light=light, notes=notes)
    if target is None:
        raise ValueError("neither a source nor a target")
    return Machine(resolution=Model.from_bytes(bytes_of(target)).resolution, light=light, notes=notes)


def trace_ends(machine: Machine, commands: int) -> BrokenRule:
    """Returns the broken rule of a trace that ends with `commands` commands in its last step, fewer than there are bots."""
    bot = machine.bots()[commands]
    return BrokenRule(1, machine.steps + 1, bot.bid, bot.at)


class Player:
    """Makes many steps of a trace on a machine, forwards and backwards, with a note of its byte now and then."""

    def __init__(self, machine: Machine, data: bytes, offset: int = 0) -> None:
        """Begins at a byte of the trace."""
        self.machine, self.data, self.offset = machine, data, offset
        self._marks = [(machine.steps, offset)]

    def play(self, most: Optional[int] = None, progress: Optional[Progress] = None) -> Optional[NanobotError]:
        """Makes at most `most` steps, or all. Returns the error of the next step if it is refused, otherwise None."""
        left = len(self.data) if most is None else most
        while left and self.offset < len(self.data):
            played = self.machine.play(self.data, min(left, STRETCH), self.offset)
            self.offset, left = played.used, left - played.made
            self._marks.append((played.steps, played.used))
            if progress:
                progress.show(self.offset)
            if played.refused:
                return played.refused
        return None

    def back_to(self, steps: int) -> bool:
        """Undoes steps until `steps` are left, and returns whether enough are noted; otherwise the machine is unchanged."""
        while len(self._marks) > 1 and self._marks[-1][0] > steps:
            self._marks.pop()
        first, offset = self._marks[-1]
        state = self.machine.state
        if state.steps - first > state.noted:
            return False
        for _ in range(state.steps - first):
            self.machine.undo()
        self.offset = offset
        self.play(steps - first)
        return True


class TracedStep(NamedTuple):
    """A step of a trace that was made.

    `number` counts from 1, `offset` is its first byte, and `orders` has each bot's command. `cost` is the energy of the step and `energy` that
    of all so far. `high` says whether harmonics were High when it began, `active` how many bots are left after it. `filled` voxels
    became full, and `voided` became void."""

    number: int
    offset: int
    orders: Tuple[Order, ...]
    cost: int
    energy: int
    high: bool
    active: int
    filled: int
    voided: int


def _regions(orders: Sequence[Order]) -> Tuple[int, int]:
    """Returns the numbers of voxels that the commands fill and void: each group's region once."""
    filled = {region(it.bot.at, it.command) for it in orders if isinstance(it.command, (Fill, GFill))}
    voided = {region(it.bot.at, it.command) for it in orders if isinstance(it.command, (Void, GVoid))}
    return sum(volume(box) for box in filled if box), sum(volume(box) for box in voided if box)


def _work(order: Order) -> int:
    """Returns the cost of a command without the voxels that it changes."""
    if order.command.word not in COSTS:
        return 0
    moved = sum(abs(n) for d in order.command.differences for n in d) if order.command.word in ("SMove", "LMove") else 0
    return COSTS[order.command.word] + 2 * moved


def _changes(orders: Sequence[Order], work: int, changed: int) -> Tuple[int, int]:
    """Returns the numbers of voxels that a step filled and voided, by the number of changed ones and its cost without upkeep and moves. A
    Fill costs 12 or, if the voxel was full, 6; a Void costs -12 or, if it was void, 3."""
    to_fill, to_void = _regions(orders)
    filled = (work - 6 * to_fill - 3 * to_void + 15 * changed) // 21
    return filled, changed - filled


def _raise_why(machine: Machine, refused: Optional[NanobotError]) -> None:
    """Raises why a step was refused, if one was. What follows a Halt is not looked at."""
    if isinstance(refused, WrongCount):
        raise trace_ends(machine, refused.given)
    if refused and not isinstance(refused, Ended):
        raise refused


def steps(
    source: Optional[Source], trace: Source, *, resolution: Optional[int] = None, light: bool = False, first: int = 1
) -> Iterator[TracedStep]:
    """Makes the steps of a trace on a machine of their own, and yields each from the `first` on with its commands, its cost and what it changed.

    The source is bytes, a `Model` or the name of a file, or None with the resolution of the empty model; the trace is bytes or the name of a
    file. The steps before the first are made by `Machine.play`. The energies are the machine's; `filled` and `voided` follow from them.

    Raises `BrokenRule` at a step that is refused, and at the end of a trace that ends too early; `BadCommands`; `RefusedModel`, TypeError,
    OSError or MemoryError. What follows a Halt is not looked at: `judge` does. 50,000 steps of one bot take about a second."""
    data = bytes_of(trace, "the trace")
    with Machine(source, resolution=resolution, light=light) as machine:
        player = Player(machine, data)
        _raise_why(machine, player.play(max(0, first - 1)))
        before, offset = machine.state, player.offset
        active, energy, high = before.active, before.energy, before.high
        while active:
            orders, end = orders_at(data, offset, machine.bots())
            if len(orders) < active:
                raise trace_ends(machine, len(orders))
            made = machine.step(data[offset:end])
            upkeep = (30 if high else 3) * before.resolution**3 + 20 * active
            cost = made.energy - energy
            filled, voided = _changes(orders, cost - upkeep - sum(map(_work, orders)), made.changed)
            yield TracedStep(made.steps, offset, tuple(orders), cost, made.energy, high, made.active, filled, voided)
            offset, active, energy, high = end, made.active, made.energy, made.high
