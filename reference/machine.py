"""States, groups, steps and rules: docs/FORMATS.md, "State" to "Profiles"."""
from __future__ import annotations

import dataclasses
from typing import Dict, FrozenSet, Iterator, List, NamedTuple, Tuple

from reference.geometry import ORIGIN, Coord, is_inside, mlen, plus, region, ungrounded
from reference.models import Model
from reference.traces import DIFFERENCES, Command

RULES = """TraceEnds HaltAlone HaltOrigin HaltLow OutOfSpace Blocked Seeds InRegion Partner GroupShape Interference Ungrounded AfterHalt
WrongResult Forbidden""".split()
MOVES, FUSIONS, GROUPED = ("SMove", "LMove"), ("FusionP", "FusionS"), ("GFill", "GVoid")


class Profile(NamedTuple):
    seeds: int
    allowed: FrozenSet[str]


FULL = Profile(39, frozenset(DIFFERENCES))
LIGHT = Profile(19, FULL.allowed - {"Void", "GFill", "GVoid"})


class Bot(NamedTuple):
    position: Coord
    seeds: Tuple[int, ...]


# The commands of a step by the bids of their bots.
Step = Dict[int, Command]


class Broken(NamedTuple):
    rule: int
    bid: int
    at: Coord

    def line(self, step: int) -> str:
        return f"broken {self.rule} {RULES[self.rule - 1]} step {step} bid {self.bid} at %d %d %d" % self.at


@dataclasses.dataclass
class State:
    """A state: its full coordinates, harmonics, active bots by their bids, and energy."""

    resolution: int
    full: set[Coord]
    bots: dict[int, Bot]
    high: bool = False
    energy: int = 0
    profile: Profile = FULL

    @staticmethod
    def opening(source: Model, profile: Profile = FULL) -> State:
        return State(source.resolution, set(source.full), {1: Bot(ORIGIN, tuple(range(2, 2 + profile.seeds)))}, profile=profile)

    def copy(self) -> State:
        return dataclasses.replace(self, full=set(self.full), bots=dict(self.bots))

    def step_of(self, commands: List[Command]) -> Step:
        """The commands, each for the bot whose turn it is in rising order of bids."""
        return dict(zip(sorted(self.bots), commands))


# ---- what a command names


def named(at: Coord, command: Command) -> list[Coord]:
    """The coordinates that a command names: c', and c'' if there is one."""
    ends = [plus(at, command.first), plus(plus(at, command.first), command.second)]
    return ends[: DIFFERENCES[command.word]]


def ways(at: Coord, command: Command) -> set[Coord]:
    """The coordinates of a move's straight lines."""
    if command.word not in MOVES:
        return set()
    corners = [at, *named(at, command)]
    return {c for a, b in zip(corners, corners[1:]) for c in region(a, b)}


def region_of(at: Coord, command: Command) -> set[Coord]:
    """The region of a GFill or a GVoid."""
    return set(region(*named(at, command))) if command.word in GROUPED else set()


def volatile(at: Coord, command: Command) -> set[Coord]:
    """The volatile coordinates of a bot, whose command names coordinates of the matrix alone."""
    if command.word in FUSIONS:
        return {at}
    return {at} | (ways(at, command) or region_of(at, command) or set(named(at, command)))


# ---- groups


def partners(state: State, step: Step, bid: int) -> list[int]:
    """The other bot of a fusion's pair, if there is one."""
    at, command = state.bots[bid].position, step[bid]
    other = {"FusionP": "FusionS", "FusionS": "FusionP"}[command.word]
    there = [b for b, bot in state.bots.items() if bot.position == plus(at, command.first) and step[b].word == other]
    return [b for b in there if plus(state.bots[b].position, step[b].first) == at]


def group_of(state: State, step: Step, bid: int) -> list[int]:
    """The bids of a bot's group, in rising order."""
    command = step[bid]
    if command.word in FUSIONS:
        return sorted([bid, *partners(state, step, bid)])
    if command.word in GROUPED:
        its_region = region_of(state.bots[bid].position, command)
        same = [b for b in state.bots if step[b].word == command.word]
        return sorted(b for b in same if region_of(state.bots[b].position, step[b]) == its_region)
    return [bid]


def leaders(state: State, step: Step) -> list[int]:
    return sorted({group_of(state, step, bid)[0] for bid in state.bots})


# ---- rules


def broken_by_bot(state: State, step: Step, bid: int) -> Iterator[Broken]:
    """The rules of single bots that a bot breaks, in their order: 15, and 2 to 10."""
    (at, seeds), command = state.bots[bid], step[bid]
    word = command.word
    if word not in state.profile.allowed:
        yield Broken(15, bid, at)
    if word == "Halt" and len(state.bots) > 1:
        yield Broken(2, bid, at)
    if word == "Halt" and at != ORIGIN:
        yield Broken(3, bid, at)
    if word == "Halt" and state.high:
        yield Broken(4, bid, at)
    if not all(is_inside(c, state.resolution) for c in named(at, command)):
        yield Broken(5, bid, at)
        return  # The rules below speak of voxels of the matrix.
    blocked = state.full & (set(named(at, command)) if word == "Fission" else ways(at, command))
    if blocked:
        yield Broken(6, bid, min(blocked))
    if word == "Fission" and len(seeds) < command.m + 1:
        yield Broken(7, bid, at)
    if at in region_of(at, command):
        yield Broken(8, bid, at)
    if word in FUSIONS and not partners(state, step, bid):
        yield Broken(9, bid, at)
    if word in GROUPED and is_misshapen(state, step, bid):
        yield Broken(10, bid, at)


def is_misshapen(state: State, step: Step, bid: int) -> bool:
    """Whether a group has not as many members as its region has corners, or two members with the same c'."""
    members = group_of(state, step, bid)
    corners = {plus(state.bots[b].position, step[b].first) for b in members}
    dimension = sum(n != 0 for n in step[bid].second)
    return len(members) != 2**dimension or len(corners) < len(members)


def interference(state: State, step: Step) -> Broken | None:
    groups = [group_of(state, step, leader) for leader in leaders(state, step)]
    used = [set().union(*(volatile(state.bots[b].position, step[b]) for b in group)) for group in groups]
    for i, group in enumerate(groups):
        for other in used[i + 1 :]:
            if used[i] & other:
                return Broken(11, group[0], min(used[i] & other))
    return None


def broken(state: State, commands: List[Command]) -> Broken | None:
    """The first failure of a step that takes these commands, which are fewer than the active bots only at a trace's end."""
    bids = sorted(state.bots)
    if len(commands) < len(bids):
        bid = bids[len(commands)]
        return Broken(1, bid, state.bots[bid].position)
    step = state.step_of(commands)
    for bid in bids:
        for failure in broken_by_bot(state, step, bid):
            return failure
    failure = interference(state, step)
    if failure:
        return failure
    after = stepped(state, commands)
    floating = set() if after.high else ungrounded(after.full)
    return Broken(12, 0, min(floating)) if floating else None


# ---- effects


def upkeep(state: State) -> int:
    return (30 if state.high else 3) * state.resolution**3 + 20 * len(state.bots)


def paint(state: State, cells: set[Coord], fills: bool) -> None:
    """Makes voxels full or void, and pays for it."""
    full = len(cells & state.full)
    void = len(cells) - full
    state.energy += 12 * void + 6 * full if fills else 3 * void - 12 * full
    state.full = state.full | cells if fills else state.full - cells


def apply(state: State, step: Step, group: List[int]) -> None:
    """The effect and the cost of one group, which breaks no rule."""
    if step[group[0]].word in FUSIONS:
        return fuse(state, step, group)
    if step[group[0]].word in GROUPED:
        return paint(state, region_of(state.bots[group[0]].position, step[group[0]]), step[group[0]].word == "GFill")
    (bid,) = group
    (at, seeds), (word, first, second, m) = state.bots[bid], step[bid]
    if word == "Halt":
        del state.bots[bid]
    elif word == "Flip":
        state.high = not state.high
    elif word in MOVES:
        state.bots[bid] = Bot(named(at, step[bid])[-1], seeds)
        state.energy += 2 * (mlen(first) + (2 + mlen(second) if word == "LMove" else 0))
    elif word == "Fission":
        state.bots[seeds[0]] = Bot(plus(at, first), seeds[1 : m + 1])
        state.bots[bid] = Bot(at, seeds[m + 1 :])
        state.energy += 24
    elif word in ("Fill", "Void"):
        paint(state, {plus(at, first)}, word == "Fill")


def fuse(state: State, step: Step, group: List[int]) -> None:
    primary, secondary = sorted(group, key=lambda bid: step[bid].word)
    gone = state.bots.pop(secondary)
    position, seeds = state.bots[primary]
    state.bots[primary] = Bot(position, tuple(sorted((*seeds, secondary, *gone.seeds))))
    state.energy -= 24


def stepped(state: State, commands: List[Command]) -> State:
    """The state after a step that breaks none of the rules 1 to 11."""
    after, step = state.copy(), state.step_of(commands)
    after.energy += upkeep(state)
    for leader in leaders(state, step):
        apply(after, step, group_of(state, step, leader))
    return after


# ---- runs


class Accepted(NamedTuple):
    energy: int
    steps: int


def run(source: Model, target: Model, commands: List[Command], profile: Profile = FULL) -> Accepted | str:
    """The energy and steps of a whole trace, or the line of the first rule that it breaks."""
    state, steps, at = State.opening(source, profile), 0, 0
    while state.bots:
        row = commands[at : at + len(state.bots)]
        failure = broken(state, row)
        if failure:
            return failure.line(steps + 1)
        state, steps, at = stepped(state, row), steps + 1, at + len(row)
    if at < len(commands):
        return Broken(13, 0, ORIGIN).line(steps)
    wrong = state.full ^ target.full
    return Broken(14, 0, min(wrong)).line(steps) if wrong else Accepted(state.energy, steps)
