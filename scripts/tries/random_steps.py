"""Random steps and traces for the tries, which break no rule or a required one, by the states of the reference."""
from __future__ import annotations

import random
from typing import Iterator, List, Optional, Tuple

from reference.geometry import AXES, Coord, is_far, is_inside, is_near, plus, region
from reference.machine import State, broken, named, region_of, stepped, ways
from reference.traces import Command

NEAR = [d for d in region((-1, -1, -1), (1, 1, 1)) if is_near(d)]
HALT, WAIT, FLIP = Command("Halt"), Command("Wait"), Command("Flip")
Row = List[Command]


def minus(c: Coord, d: Coord) -> Coord:
    return c[0] - d[0], c[1] - d[1], c[2] - d[2]


def times(n: int, d: Coord) -> Coord:
    return n * d[0], n * d[1], n * d[2]


def linear(dice: random.Random, most: int) -> Coord:
    """Returns a difference along one axis."""
    return times(dice.choice([-1, 1]) * dice.randint(1, most), dice.choice(AXES))


def is_free(state: State, cells: set[Coord], taken: set[Coord]) -> bool:
    return all(is_inside(c, state.resolution) for c in cells) and not cells & taken


# ---- steps that break no rule


def alone(dice: random.Random, state: State, bid: int, taken: set[Coord]) -> Optional[Tuple[Command, set[Coord]]]:
    """Returns a command that the bot can perform outside the taken coordinates, with the coordinates that it takes."""
    at, seeds = state.bots[bid]
    kind = dice.choice(["SMove"] * 9 + ["LMove"] * 3 + ["Fission"] * 6 + ["Fill"] * 6 + ["Void"] * 3 + ["Flip"] * (dice.random() < 0.2))
    if kind == "Flip":
        return FLIP, {at}
    if kind == "Fission" and not seeds:
        return None
    first = {"SMove": linear(dice, 15), "LMove": linear(dice, 5)}.get(kind) or dice.choice(NEAR)
    second = linear(dice, 5) if kind == "LMove" else (0, 0, 0)
    command = Command(kind, first, second, dice.randint(0, len(seeds) - 1) if kind == "Fission" else 0)
    cells = {at, *named(at, command)} | ways(at, command)
    if not is_free(state, cells, taken) or kind in ("SMove", "LMove", "Fission") and cells & state.full:
        return None
    return command, cells


def pairs_of(state: State) -> Iterator[Tuple[int, int, Command, Command]]:
    """Yields the actions of two bots together: to fuse, or to fill a line."""
    for a, (p, _) in state.bots.items():
        for b, (q, _) in state.bots.items():
            between = minus(q, p)
            if between in NEAR:
                yield a, b, Command("FusionP", between), Command("FusionS", times(-1, between))
            for m in NEAR if a < b else []:
                start = minus(between, m)
                for n in NEAR:
                    far = plus(start, n)
                    if far.count(0) == 2 and is_far(far):
                        yield a, b, Command("GFill", m, far), Command("GFill", n, times(-1, far))


def together(dice: random.Random, state: State) -> Tuple[dict[int, Command], set[Coord]]:
    """Returns the commands of two bots that can act together, with what they take; none if there are no such bots."""
    positions = {bot.position for bot in state.bots.values()}
    pairs = list(pairs_of(state)) if 1 < len(state.bots) < 8 and dice.random() < 0.4 else []
    for _ in range(min(4, len(pairs))):
        a, b, one, two = dice.choice(pairs)
        own = {state.bots[a].position, state.bots[b].position}
        cells = region_of(state.bots[a].position, one)
        if is_free(state, cells, positions):
            if cells and dice.random() < 0.5:
                one, two = one._replace(word="GVoid"), two._replace(word="GVoid")
            return {a: one, b: two}, own | cells
    return {}, set()


def random_step(dice: random.Random, state: State) -> dict[int, Command]:
    """Commands for all bots, most of which can be done."""
    commands, taken = together(dice, state)
    taken |= {bot.position for bot in state.bots.values()}
    for bid in sorted(state.bots.keys() - commands.keys()):
        own = state.bots[bid].position
        tried = (alone(dice, state, bid, taken - {own}) for _ in range(6))
        command, cells = next((it for it in tried if it), (WAIT, {own}))
        commands[bid] = WAIT if command == FLIP and FLIP in commands.values() else command
        taken |= cells
    return commands


def good_step(dice: random.Random, state: State) -> Row:
    """Returns a step that breaks no rule."""
    for _ in range(20):
        commands = random_step(dice, state)
        row = [commands[bid] for bid in sorted(state.bots)]
        if not broken(state, row):
            return row
    return [WAIT for _ in state.bots]


# ---- steps that break a rule


def toward(dice: random.Random, state: State, at: Coord) -> Coord:
    """Returns a near difference, usually to a full voxel or a bot."""
    taken = state.full | {bot.position for bot in state.bots.values()}
    found = [d for d in NEAR if plus(at, d) in taken]
    return dice.choice(found) if found and dice.random() < 0.7 else dice.choice(NEAR)


def wrong_command(dice: random.Random, state: State, bid: int, rule: int) -> Command:
    """Returns a command that may break a rule."""
    near, grouped = toward(dice, state, state.bots[bid].position), dice.choice(["GFill", "GVoid"])
    if rule in (2, 3, 4):
        return HALT
    if rule == 7:
        return Command("Fission", dice.choice(NEAR), m=dice.randint(len(state.bots[bid].seeds), 255))
    if rule == 8:
        # Its region goes back through the bot, if the difference is along an axis.
        return Command(grouped, near, times(-2, near))
    if rule == 9:
        return Command(dice.choice(["FusionP", "FusionS"]), near)
    if rule == 10:
        return Command(grouped, dice.choice(NEAR), dice.choice([linear(dice, 5), (2, 1, 0), (1, 1, 1)]))
    moves = [Command("SMove", linear(dice, 15)), Command("LMove", linear(dice, 5), linear(dice, 5)), Command("Fission", near)]
    return dice.choice(moves if rule == 6 else moves + [Command("Fill", near), Command("Void", near)])


def same_corner(dice: random.Random, state: State, commands: dict[int, Command]) -> None:
    """Has two bots name one corner of a region, if they can."""
    a, b = dice.sample(sorted(state.bots), 2)
    near, away = dice.choice(NEAR), linear(dice, 5)
    other = minus(plus(state.bots[a].position, near), state.bots[b].position)
    if other in NEAR:
        commands[a], commands[b] = Command("GFill", near, away), Command("GFill", other, away)


def wrong_step(dice: random.Random, state: State, rule: int) -> Optional[Row]:
    """Returns a step that breaks this rule, if one is found."""
    bids = sorted(state.bots)
    for _ in range(60):
        commands = random_step(dice, state)
        if rule == 1:
            return [commands[bid] for bid in bids][: dice.randrange(len(bids))]
        if rule == 12:
            commands = {**commands, bids[0]: FLIP} if state.high else {bid: Command("Fill", dice.choice(NEAR)) for bid in bids}
        elif rule == 15:
            commands[dice.choice(bids)] = Command(dice.choice(["Void", "GFill", "GVoid"]), dice.choice(NEAR), linear(dice, 5))
        elif rule == 10 and len(bids) > 1 and dice.random() < 0.5:
            same_corner(dice, state, commands)
        else:
            for bid in dice.sample(bids, dice.randint(1, min(2, len(bids)))):
                commands[bid] = wrong_command(dice, state, bid, rule)
        row = [commands[bid] for bid in bids]
        failure = broken(state, row)
        if failure and failure.rule == rule:
            return row
    return None


def random_trace(dice: random.Random, source: State, steps: int, rule: int) -> List[Row]:
    """Returns the commands of each step: none breaks a rule but the last, which breaks this one if it can; with rule 0 none does."""
    state, rows = source.copy(), []  # type: State, List[Row]
    if rule == 0 and steps < 6:
        # There and back, to a halt.
        d = (0, 0, dice.randint(1, min(15, source.resolution - 1)))
        return [[Command("SMove", d)], [Command("SMove", times(-1, d))], [HALT]]
    for number in range(steps):
        # A Halt of the only bot, at the origin for one rule, is found early or not at all.
        if rule and number and (dice.random() < (0.8 if rule in (3, 4) else 0.3) or number == steps - 1):
            row = wrong_step(dice, state, rule)
            if row is not None:
                return rows + [row]
        row = [FLIP] if number == 0 and dice.random() < 0.8 else good_step(dice, state)
        rows.append(row)
        state = stepped(state, row)
        if not state.bots:
            break
    return rows


# ---- models


def random_full(dice: random.Random, r: int) -> set[Coord]:
    """Returns towers and arms, which usually make a legal model."""
    full: set[Coord] = set()
    for _ in range(dice.randint(0, 6) if r >= 3 else 0):
        x, z, high = dice.randint(1, r - 2), dice.randint(1, r - 2), dice.randint(0, r - 2)
        full |= set(region((x, 0, z), (x, high, z))) | set(region((x, high, z), (dice.randint(x, r - 2), high, z)))
    if dice.random() < 0.06:
        full.add((dice.randrange(r), dice.randrange(r), dice.randrange(r)))
    return full
