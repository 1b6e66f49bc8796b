"""The commands of a step that are related to the broken rule, and the rule's requirement."""

from __future__ import annotations

from typing import Callable, Dict, Iterator, List, Sequence

from .commands import Command
from .errors import BadCommands, BrokenRule, Coord, Ended, TooManySteps, WrongCount
from .geometry import Box, boxes, corners_of, has, is_near, meets, named, region
from .machine import Bot, Machine
from .trace import Order, orders_at

Row = Sequence[Order]

PAIRS = {"FusionP": "FusionS", "FusionS": "FusionP"}


def spaced(c: Coord) -> str:
    return f"{c.x} {c.y} {c.z}"


def described(row: Row) -> Iterator[str]:
    """Yields the bots of a step with their commands."""
    for bot, command, offset in row:
        yield f"  byte {offset}: bot {bot.bid} at {spaced(bot.at)}: {command}"


def command_of(row: Row, bot: Bot) -> Command:
    return next(it.command for it in row if it.bot.bid == bot.bid)


def group_of(row: Row, bot: Bot) -> Row:
    """Returns the bots that act together with this one: those that name the same region, or the other of a fusion."""
    own = command_of(row, bot)
    if own.word in ("GFill", "GVoid"):
        wanted = region(bot.at, own)
        return [it for it in row if it.command.word == own.word and region(it.bot.at, it.command) == wanted]
    if own.word in PAIRS:
        there = named(bot.at, own)[0]

        def is_partner(it: Order) -> bool:
            return it.bot.at == there and it.command.word == PAIRS[own.word] and named(it.bot.at, it.command)[0] == bot.at

        return [it for it in row if it.bot.bid == bot.bid or is_partner(it)]
    return [it for it in row if it.bot.bid == bot.bid]


def groups_of(row: Row) -> List[Row]:
    """Returns the groups of a step, in ascending order of their leaders."""
    out: List[Row] = []
    for bot, _, _ in row:
        if not any(bot.bid == it.bot.bid for members in out for it in members):
            out.append(group_of(row, bot))
    return out


def _uses(row: Row, c: Coord) -> bool:
    """Returns whether a coordinate is volatile for some bot."""
    return any(bot.at == c or any(has(box, c) for box in boxes(bot.at, command)) for bot, command, _ in row)


def _between(box: Box) -> str:
    return f"the region from {spaced(box[0])} to {spaced(box[1])}"


def _trace_ends(machine: Machine, broken: BrokenRule, row: Row, own: Row) -> Iterator[str]:
    bots = machine.bots()
    yield from described(row)
    for bot in bots[len(row) :]:
        yield f"  bot {bot.bid} at {spaced(bot.at)}: no command"
    yield f"wanted: a command for each of {len(bots)} bots"


def _halt_alone(machine: Machine, broken: BrokenRule, row: Row, own: Row) -> Iterator[str]:
    yield from described(own)
    yield "wanted: no other active bot; active are " + " ".join(str(bot.bid) for bot in machine.bots())


def _halt_origin(machine: Machine, broken: BrokenRule, row: Row, own: Row) -> Iterator[str]:
    yield from described(own)
    yield f"wanted: a bot at 0 0 0; it is at {spaced(own[0].bot.at)}"


def _halt_low(machine: Machine, broken: BrokenRule, row: Row, own: Row) -> Iterator[str]:
    yield from described(own)
    yield "wanted: Low harmonics; they are High"


def _out_of_space(machine: Machine, broken: BrokenRule, row: Row, own: Row) -> Iterator[str]:
    last = machine.state.resolution - 1
    yield from described(own)
    outside = next(c for c in named(own[0].bot.at, own[0].command) if not all(0 <= n <= last for n in c))
    yield f"wanted: coordinates from 0 0 0 to {last} {last} {last}; named is {spaced(outside)}"


def _blocked(machine: Machine, broken: BrokenRule, row: Row, own: Row) -> Iterator[str]:
    yield from described(own)
    yield f"wanted: a void voxel at {spaced(broken.at)}; it is full"


def _seeds(machine: Machine, broken: BrokenRule, row: Row, own: Row) -> Iterator[str]:
    bot, command, _ = own[0]
    yield from described(own)
    yield f"wanted: {(command.seeds or 0) + 1} seeds; bot {bot.bid} has {len(bot.seeds)}"


def _in_region(machine: Machine, broken: BrokenRule, row: Row, own: Row) -> Iterator[str]:
    bot, command, _ = own[0]
    yield from described(own)
    yield f"wanted: a bot outside its region; {_between(boxes(bot.at, command)[0])} has {spaced(bot.at)}"


def _partner(machine: Machine, broken: BrokenRule, row: Row, own: Row) -> Iterator[str]:
    bot, command, _ = own[0]
    there = named(bot.at, command)[0]
    beside = [it for it in row if it.bot.at == there]
    yield from described([*own, *beside])
    if not beside:
        yield f"  no bot is at {spaced(there)}"
    back = ",".join(str(-n) for n in command.differences[0])
    yield f"wanted: a bot at {spaced(there)} with {PAIRS[command.word]} <{back}>"


def _group_shape(machine: Machine, broken: BrokenRule, row: Row, own: Row) -> Iterator[str]:
    members, box = group_of(row, own[0].bot), boxes(own[0].bot.at, own[0].command)[0]
    corners = corners_of(box)
    yield f"the group of bot {members[0].bot.bid}:"
    yield from described(members)
    yield f"wanted: {len(corners)} bots, one for each corner of {_between(box)}"
    bids_at = {corner: [it.bot.bid for it in members if named(it.bot.at, it.command)[0] == corner] for corner in corners}
    for corner, bids in bids_at.items():
        if len(bids) > 1:
            yield f"the corner {spaced(corner)} is that of bots {' '.join(map(str, bids))}"
    lacking = [corner for corner, bids in bids_at.items() if not bids]
    for corner in lacking:
        yield f"the corner {spaced(corner)} has no bot"
    others = [it for it in row if it not in members and _may_belong(it, box, lacking)]
    if others:
        yield "bots near such a corner, or with a region that meets this one:"
        yield from described(others)


def _may_belong(order: Order, box: Box, lacking: Sequence[Coord]) -> bool:
    """Returns whether a bot outside the group is near a corner that lacks one, or fills or voids some of the group's region."""
    other = region(order.bot.at, order.command)
    return any(is_near(order.bot.at, corner) for corner in lacking) or (other is not None and meets(other, box))


def _interference(machine: Machine, broken: BrokenRule, row: Row, own: Row) -> Iterator[str]:
    for members in groups_of(row):
        if _uses(members, broken.at):
            yield f"the group of bot {members[0].bot.bid} uses {spaced(broken.at)}:"
            yield from described(members)


def _ungrounded(machine: Machine, broken: BrokenRule, row: Row, own: Row) -> Iterator[str]:
    yield "what fills, voids or flips in the step:"
    yield from described([it for it in row if region(it.bot.at, it.command) or it.command.word == "Flip"])
    yield f"wanted: a path of full voxels from {spaced(broken.at)} to the floor, as harmonics are Low after the step"


def _forbidden(machine: Machine, broken: BrokenRule, row: Row, own: Row) -> Iterator[str]:
    yield from described(own)
    yield "wanted: a command that the light profile allows: no Void, GFill or GVoid"


WHY: Dict[str, Callable[[Machine, BrokenRule, Row, Row], Iterator[str]]] = {
    "TraceEnds": _trace_ends,
    "HaltAlone": _halt_alone,
    "HaltOrigin": _halt_origin,
    "HaltLow": _halt_low,
    "OutOfSpace": _out_of_space,
    "Blocked": _blocked,
    "Seeds": _seeds,
    "InRegion": _in_region,
    "Partner": _partner,
    "GroupShape": _group_shape,
    "Interference": _interference,
    "Ungrounded": _ungrounded,
    "Forbidden": _forbidden,
}


def why(machine: Machine, broken: BrokenRule, row: Row) -> Iterator[str]:
    """Yields the lines that explain the refusal of a step, from a machine before it: the commands that break the rule, and its requirement."""
    own = [it for it in row if it.bot.bid == broken.bid]
    return WHY[broken.name](machine, broken, row, own)


def why_refused(machine: Machine, data: bytes) -> List[str]:
    """Returns the lines of `Machine.why` for the bytes of a step."""
    try:
        machine.judge(data)
    except BrokenRule as broken:
        return [str(broken), *why(machine, broken, orders_at(data, 0, machine.bots())[0])]
    except WrongCount as wrong:
        bots = machine.bots()
        row = orders_at(data, 0, bots)[0]
        lacking = [f"  bot {bot.bid} at {spaced(bot.at)}: no command" for bot in bots[len(row) :]]
        return [str(wrong), *described(row), *lacking]
    except (BadCommands, Ended, TooManySteps) as refused:
        return [str(refused)]
    return []
