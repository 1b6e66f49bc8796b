"""What the calls raise. Each error keeps what it was made of, so it survives `pickle` and may cross processes."""

from __future__ import annotations

import re
from typing import Iterable, NamedTuple, Optional, Tuple


class Coord(NamedTuple):
    """A coordinate of a matrix. The axis y points up."""

    x: int
    y: int
    z: int


RULES = {
    1: "TraceEnds",
    2: "HaltAlone",
    3: "HaltOrigin",
    4: "HaltLow",
    5: "OutOfSpace",
    6: "Blocked",
    7: "Seeds",
    8: "InRegion",
    9: "Partner",
    10: "GroupShape",
    11: "Interference",
    12: "Ungrounded",
    13: "AfterHalt",
    14: "WrongResult",
    15: "Forbidden",
}

REFUSALS = {
    1: "NoByte",
    2: "Resolution",
    3: "Short",
    4: "Long",
    6: "Border",
    7: "Floating",
    8: "WideHead",
    9: "WideResolution",
    10: "WideRun",
    11: "WideShort",
    12: "WideLong",
}


def counted(number: int, noun: str) -> str:
    """`1 bot`, `2 bots`."""
    return f"{number} {noun}" if number == 1 else f"{number} {noun}s"


class NanobotError(Exception):
    """The base of all errors of this package. A call that raises leaves its machine as it was."""


class BrokenRule(NanobotError):
    """The commands break a rule.

    `rule` is its number and `name` its name (docs/FORMATS.md, "Rules"), `step` the number of the step, counted from 1, `bid` the bot
    (0 for rule 12), and `at` the coordinate that the rule names."""

    def __init__(self, rule: int, step: int, bid: int, at: Coord) -> None:
        super().__init__(rule, step, bid, at)
        self.rule, self.name, self.step, self.bid, self.at = rule, RULES[rule], step, bid, at

    def __str__(self) -> str:
        x, y, z = self.at
        return f"broken {self.rule} {self.name} step {self.step} bid {self.bid} at {x} {y} {z}"


BROKEN_LINE = re.compile(r"broken (\d+) \w+ step (\d+) bid (\d+) at (\d+) (\d+) (\d+)")


def broken_of(line: str) -> Optional[BrokenRule]:
    """Returns the broken rule that a line of the program names; None for any other line."""
    found = BROKEN_LINE.fullmatch(line)
    if not found:
        return None
    rule, step, bid, *at = map(int, found.groups())
    return BrokenRule(rule, step, bid, Coord(*at))


class Refused(NanobotError):
    """The program would end with another status than 0.

    `status` is that status and `line` the line that it prints (docs/FORMATS.md, "Printed lines"). If a rule is broken (status 1),
    `broken` is that `BrokenRule`, and `rule`, `name`, `step`, `bid` and `at` are its own; otherwise they are None."""

    def __init__(self, status: int, line: str) -> None:
        super().__init__(status, line)
        self.status, self.line, self.broken = status, line, broken_of(line)
        self.rule = self.broken and self.broken.rule
        self.name = self.broken and self.broken.name
        self.step = self.broken and self.broken.step
        self.bid = self.broken and self.broken.bid
        self.at = self.broken and self.broken.at

    def __str__(self) -> str:
        return self.line


class BadCommands(NanobotError):
    """The bytes are no commands: the command that begins at `offset` is bad or cut."""

    def __init__(self, offset: int) -> None:
        super().__init__(offset)
        self.offset = offset

    def __str__(self) -> str:
        return f"no command at byte {self.offset}"


class WrongCount(NanobotError):
    """There are more or fewer commands (`given`) than active bots (`active`): a step takes one command for each."""

    def __init__(self, active: int, given: int) -> None:
        super().__init__(active, given)
        self.active, self.given = active, given

    def __str__(self) -> str:
        return f"{counted(self.given, 'command')} for {counted(self.active, 'active bot')}"


class NoBot(NanobotError):
    """A command is for a bot that is not active: `bid` is that bot, and `active` has the bids of the active ones."""

    def __init__(self, bid: int, active: Iterable[int]) -> None:
        self.bid, self.active = bid, tuple(active)
        super().__init__(bid, self.active)

    def __str__(self) -> str:
        return f"no bot {self.bid} is active; active are {' '.join(map(str, self.active)) or 'none'}"


class Ended(NanobotError):
    """No bot is active any more: the run has ended."""


class NothingNoted(NanobotError):
    """No earlier step is noted, so none can be taken back: a machine notes as many steps as its `notes`."""


class Begun(NanobotError):
    """The machine has made steps, so its trace cannot begin here: ask for it by `Machine(.., trace=True)`."""


class OutOfSpace(NanobotError):
    """The coordinate `at` is out of space."""

    def __init__(self, at: Tuple[int, int, int]) -> None:
        super().__init__(at)
        self.at = Coord(*at)

    def __str__(self) -> str:
        x, y, z = self.at
        return f"{x} {y} {z} is out of space"


class RefusedModel(NanobotError):
    """The model is refused.

    `number` and `name` are those of the refusal (docs/FORMATS.md, "Model files"), `want` and `have` its numbers (0 if it has none), and
    `at` the voxel outside the border or the one that floats."""

    def __init__(self, number: int, want: int, have: int, at: Optional[Coord]) -> None:
        super().__init__(number, want, have, at)
        self.number, self.name, self.want, self.have, self.at = number, REFUSALS.get(number, ""), want, have, at

    def __str__(self) -> str:
        details = {2: f" {self.have}", 3: f" want {self.want} have {self.have}", 4: f" want {self.want}", 8: f" have {self.have}"}
        details.update({9: f" {self.have}", 10: f" index {self.have}", 11: f" have {self.have}"})
        at = f" at {self.at.x} {self.at.y} {self.at.z}" if self.at else ""
        return f"model {self.number} {self.name}{details.get(self.number, at)}"


class OtherResolution(NanobotError):
    """Two models are of different resolutions: `own` is the machine's or the first model's, and `other` the other's."""

    def __init__(self, own: int, other: int) -> None:
        super().__init__(own, other)
        self.own, self.other = own, other

    def __str__(self) -> str:
        return f"resolutions {self.own} and {self.other} differ"


class TooManySteps(NanobotError):
    """The machine has made 1073741824 steps, and makes no more."""


class Closed(NanobotError):
    """The machine was closed, or another thread uses it at this moment."""
