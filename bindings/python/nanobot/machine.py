"""A machine that is kept between steps."""

from __future__ import annotations

import os
from ctypes import byref, c_size_t, c_uint32
from functools import lru_cache
from operator import index
from typing import Any, List, Mapping, NamedTuple, Optional, Sequence, Tuple, Union

from . import _library as lib
from ._library import library
from .commands import SIZES, Command, Wait, joined, spelled
from .errors import (
    BadCommands,
    Begun,
    BrokenRule,
    Closed,
    Coord,
    Ended,
    NanobotError,
    NoBot,
    NothingNoted,
    OtherResolution,
    OutOfSpace,
    RefusedModel,
    TooManySteps,
    WrongCount,
    counted,
)
from .models import Model, resolution_of

Source = Union[bytes, bytearray, memoryview, Model, str, "os.PathLike[str]"]
OneCommand = Union[bytes, Command]
Commands = Union[OneCommand, Sequence[OneCommand], Mapping[int, OneCommand]]
At = Tuple[int, int, int]
MOST_BOTS = 40
MOST_NOTES = 4096
MOST_RESOLUTION = 400
MOST_NUMBER = 2**32 - 1
WAIT = bytes(Wait())


class Bot(NamedTuple):
    """An active bot: its bid, its position, and the bids of the bots that it can make."""

    bid: int
    at: Coord
    seeds: Tuple[int, ...]


class Step(NamedTuple):
    """A machine after a step: `energy` so far, `steps` made, how many bots are `active`, whether harmonics are `high`, and how many voxels the
    step `changed`."""

    energy: int
    steps: int
    active: int
    high: bool
    changed: int


class Played(NamedTuple):
    """The progress of a played trace: the steps `made`, of the first `used` bytes, and the `energy`, the `steps` so far, the `active` bots and
    whether harmonics are `high` after them. `refused` is the error that `step` raises for the next step, which begins at byte `used`; None
    if as many steps were made as were asked for, or the bytes ended."""

    made: int
    used: int
    energy: int
    steps: int
    active: int
    high: bool
    refused: Optional[NanobotError]


class Judged(NamedTuple):
    """The result that a step would have: the machine's `energy` after it, whether it `halts`, so that no bot is left, how many bots are
    `active` then, whether harmonics are `high`, and how many voxels it has `changed`."""

    energy: int
    halts: bool
    active: int
    high: bool
    changed: int


class State(NamedTuple):
    """A machine between two steps: `energy` so far, `steps` made, how many bots are `active`, the `resolution`, whether harmonics are
    `high`, and how many of the last steps are `noted`, so that `undo` takes them back."""

    energy: int
    steps: int
    active: int
    resolution: int
    high: bool
    noted: int


def bytes_of(source: Source, what: str = "it") -> bytes:
    """Returns the bytes themselves, those of a model, or those of a file. A number is no file: to `open` it would be a descriptor, which it
    closes."""
    if isinstance(source, (bytes, bytearray, memoryview, Model)):
        return bytes(source)
    if not isinstance(source, (str, os.PathLike)):
        raise TypeError(f"give {what} as bytes, or the name of a file as str or a path, not {type(source).__name__}")
    with open(source, "rb") as file:
        return file.read()


def number_of(name: str, number: int, least: int, most: int) -> int:
    """Returns a number within its bounds. A bool is none."""
    if isinstance(number, bool) or not hasattr(number, "__index__"):
        raise TypeError(f"{name} is a whole number, not {type(number).__name__}")
    if not least <= index(number) <= most:
        raise ValueError(f"{name} is {least} to {most}, not {index(number)}")
    return index(number)


def coord_of(at: At) -> Coord:
    """Returns a coordinate that a call takes. Raises `OutOfSpace` for numbers that no call takes."""
    if not isinstance(at, tuple) or len(at) != 3:
        raise TypeError(f"a coordinate is three whole numbers (x, y, z), not {at!r}")
    x, y, z = at
    if not type(x) is type(y) is type(z) is int:
        if not all(hasattr(n, "__index__") for n in at):
            raise TypeError(f"a coordinate is three whole numbers (x, y, z), not {at!r}")
        x, y, z = map(index, at)
    if not (0 <= x <= MOST_NUMBER and 0 <= y <= MOST_NUMBER and 0 <= z <= MOST_NUMBER):
        raise OutOfSpace((x, y, z))
    return Coord(x, y, z)


def refusal_of(result: lib.Refusal) -> RefusedModel:
    """Returns the error of a refused model."""
    at = Coord(result.x, result.y, result.z) if result.number in (6, 7) else None
    return RefusedModel(result.number, result.want, result.have, at)


@lru_cache(maxsize=4096)
def seeds_of(bits: int) -> Tuple[int, ...]:
    """Returns the numbers of the bits that are 1."""
    return tuple(bit for bit in range(64) if bits >> bit & 1)


def count_of(data: bytes) -> int:
    """Returns the number of commands in these bytes, all of which are commands."""
    count = at = 0
    while at < len(data):
        count, at = count + 1, at + SIZES[data[at]]
    return count


class Machine:
    """A machine over a legal model, or over the empty one of a resolution, kept between steps.

    `Machine(model)` takes bytes, a `Model` or the name of a file, `Machine(resolution=20)` the resolution of the empty model. Of its last
    steps as many as `notes` can be taken back, at most 4096; a noted step keeps 6 bytes for each voxel that it changed. With `trace` the
    commands of its steps are kept, and with `light` it has the light profile.

    Raises `RefusedModel` for a model that is not legal, and TypeError or ValueError for other arguments. Each call that raises leaves the
    machine as it was. It may move from thread to thread, but one at a time uses it. It is freed by `close`, at the end of a `with`, or
    when nothing refers to it any more. A start takes 0.1 ms at resolution 20, and 10 to 100 ms at 250."""

    def __new__(cls, *_: object, **__: object) -> "Machine":
        machine = super().__new__(cls)
        machine._handle = lib.Handle()
        machine._light, machine._bots = False, None
        return machine

    _handle: lib.Handle
    _light: bool
    _bots: Any  # the buffer of the bots, reused

    def __init__(
        self,
        model: Optional[Source] = None,
        *,
        resolution: Optional[int] = None,
        light: bool = False,
        notes: int = 0,
        trace: bool = False,
    ) -> None:
        if (model is None) == (resolution is None):
            raise TypeError("give either a model, or resolution=R for the empty one of that resolution")
        if isinstance(model, int):
            raise TypeError(f"a model is bytes, a Model or the name of a file, not {type(model).__name__}: did you mean resolution={model}?")
        notes = number_of("notes", notes, 0, MOST_NOTES)
        if model is None:
            number = number_of("resolution", resolution, 1, MOST_RESOLUTION)  # type: ignore[arg-type]
            self._check(library.machine_start_empty(number, light, notes, byref(self._handle)))
        else:
            self._start(bytes_of(model, "a model"), light, notes)
        self._light = bool(light)
        if trace:
            self.keep()

    def _start(self, data: bytes, light: bool, notes: int) -> None:
        result = lib.Refusal()
        status = library.machine_start(*lib.lend(data), light, notes, byref(self._handle), byref(result))
        if status == lib.MODEL:
            raise refusal_of(result)
        self._check(status)

    def _check(self, status: int) -> None:
        """Raises the error of a status that needs no details."""
        if status == lib.MEMORY:
            raise MemoryError("out of memory; the machine is as it was")
        if status == lib.NO_MACHINE:
            raise Closed("the machine was closed, or another thread uses it")
        if status != lib.DONE:
            raise NanobotError(f"status {status}")

    def __repr__(self) -> str:
        if not self._handle.at:
            return "<Machine, closed>"
        energy, steps, active, resolution, high, _ = self.state
        profile = " light" if self._light else ""
        return f"<Machine{profile} resolution={resolution} steps={steps} energy={energy} {counted(active, 'bot')} {'high' if high else 'low'}>"

    def close(self) -> None:
        """Frees the machine. Closing it again does nothing; any other call then raises `Closed`."""
        if self._handle.at:
            library.machine_end(byref(self._handle))

    def __enter__(self) -> "Machine":
        return self

    def __exit__(self, *_: object) -> None:
        self.close()

    def __del__(self) -> None:
        self.close()

    def __copy__(self) -> "Machine":
        return self.copy()

    def __reduce__(self) -> str:
        raise TypeError("a machine cannot be pickled: start one in the other process, and give it the trace")

    def copy(self) -> "Machine":
        """Returns another machine in the same state, with a trace of its own if one is kept.

        No step can be taken back in it until it makes some. It takes as long as a start over such a model: 0.01 ms for an empty one of
        resolution 20, 26 ms for 650,000 full voxels. Raises MemoryError, or `Closed`."""
        other = Machine.__new__(Machine)
        self._check(library.machine_copy(byref(self._handle), byref(other._handle)))
        other._light = self._light
        return other

    def _refusal(self, status: int, broken: lib.Broken, offset: int, data: bytes) -> Optional[NanobotError]:
        """Returns the error of a refused step of these bytes, or None for one that was made. Raises the error of a status that is no refusal."""
        if status == lib.BROKEN:
            return BrokenRule(broken.rule, broken.step, broken.bid, Coord(broken.x, broken.y, broken.z))
        if status == lib.TRACE:
            return BadCommands(offset)
        if status == lib.COUNT:
            return WrongCount(self.state.active, count_of(data))
        if status == lib.ENDED:
            return Ended("no bot is active any more")
        if status == lib.LONG:
            return TooManySteps("the machine has made 1073741824 steps, and makes no more")
        self._check(status)
        return None

    def _refuse(self, status: int, broken: lib.Broken, offset: int, data: bytes) -> None:
        """Raises why a step of these bytes is refused."""
        refused = self._refusal(status, broken, offset, data)
        if refused:
            raise refused

    def _spelled(self, commands: Commands) -> bytes:
        """Returns the bytes of a step: of a mapping, with Wait for each other active bot."""
        if isinstance(commands, bytes):
            return commands
        if isinstance(commands, Mapping):
            active = self.bids()
            for bid in commands:
                if bid not in active:
                    raise NoBot(bid, active)
            return joined([commands.get(bid, WAIT) for bid in active])
        if isinstance(commands, (list, tuple)):
            return joined(list(commands))
        return spelled(commands)

    def step(self, commands: Commands) -> Step:
        """Makes one step, and returns the energy, the steps made, the active bots, the harmonics and how many voxels changed.

        The commands are one for each active bot, in rising order of their bids: the bytes of a trace, a `Command` for the only bot, or
        several in a list. A dict from bids to commands, as `{1: SMove(0, 0, 2)}`, lets the other bots wait.

        Raises `BrokenRule`, `BadCommands` (bytes that are no commands), `WrongCount`, `NoBot` (a bid that is not active), `Ended`,
        `TooManySteps`, `Closed`, TypeError or MemoryError; the machine is then as it was. It takes some microseconds, and a
        time that grows with the voxels whose level changes."""
        result, data = lib.StepReport(), self._spelled(commands)
        status = library.machine_step(byref(self._handle), data, len(data), byref(result))
        if status:
            self._refuse(status, result.broken, result.offset, data)
        return Step(result.energy, result.steps, result.active, result.high == 1, result.changed)

    def play(self, trace: Source, most: Optional[int] = None, offset: int = 0) -> Played:
        """Makes the steps of a trace one after another, from an offset on, at most `most` or all, and returns the progress.

        The trace is bytes or the name of a file. Each step is made as by `step`, and can be undone as others. A refused
        step ends the call and is in `refused`; the machine is then in the state before that step. Nothing is refused if the bytes
        end after a step, also if bots are left. A step takes a fraction of a microsecond.

        Raises `Closed`, TypeError, ValueError, OSError or MemoryError; after a MemoryError the steps before it are made."""
        data, result = bytes_of(trace, "a trace"), lib.PlayedReport()
        begin = number_of("offset", offset, 0, len(data))
        steps = MOST_NUMBER if most is None else number_of("most", most, 0, MOST_NUMBER)
        status = library.machine_play(byref(self._handle), lib.address_of(data) + begin, len(data) - begin, steps, byref(result))
        used = begin + result.used
        refused = self._refusal(status, result.broken, begin + result.offset, data[used:]) if status else None
        return Played(result.made, used, result.energy, result.steps, result.active, result.high == 1, refused)

    def judge(self, commands: Commands) -> Judged:
        """Returns what `step` would, and whether no bot would be left; makes no step.

        Takes the same commands as `step`, and raises the same errors. The machine stays as it is. It takes as long as a step and an undo.
        If it breaks rule 12 by other changes than one filled voxel, it also searches for the least voxel that floats: up to 0.03 s at
        resolution 250."""
        result, data = lib.JudgedReport(), self._spelled(commands)
        status = library.machine_judge(byref(self._handle), data, len(data), byref(result))
        if status:
            self._refuse(status, result.broken, result.offset, data)
        return Judged(result.energy, result.halts == 1, result.active, result.high == 1, result.changed)

    def why(self, commands: Commands) -> List[str]:
        """Returns the lines that explain the refusal of a step of these commands, and none if it is not refused; makes no step.

        The first line is the error that `step` raises; the others are the commands related to the rule, and its requirement, as
        `python -m nanobot explain` prints them. Raises TypeError and `NoBot` as `step` does, `Closed` or MemoryError."""
        from .why import why_refused

        return why_refused(self, self._spelled(commands))

    def undo(self) -> None:
        """Takes the last step back. Raises `NothingNoted` if no step is noted, or `Closed`. It takes about as long as the step."""
        status = library.machine_undo(byref(self._handle))
        if status == lib.NO_NOTE:
            raise NothingNoted("no step is noted that can be taken back: Machine(.., notes=N) notes the last N")
        self._check(status)

    @property
    def state(self) -> State:
        """The energy, steps, active bots, resolution, harmonics and noted steps, in one call. Raises `Closed`."""
        result = lib.StateReport()
        self._check(library.machine_tell(byref(self._handle), byref(result)))
        return State(result.energy, result.steps, result.active, result.resolution, result.high == 1, result.noted)

    @property
    def energy(self) -> int:
        """The energy so far."""
        return self.state.energy

    @property
    def steps(self) -> int:
        """The number of steps made."""
        return self.state.steps

    @property
    def resolution(self) -> int:
        """The resolution of the matrix."""
        return self.state.resolution

    @property
    def high(self) -> bool:
        """Whether harmonics are High."""
        return self.state.high

    @property
    def light(self) -> bool:
        """Whether the machine has the light profile."""
        return self._light

    def _tell_bots(self) -> List[Any]:
        if self._bots is None:
            self._bots = (lib.BotReport * MOST_BOTS)()
        count = c_size_t()
        self._check(library.machine_bots(byref(self._handle), self._bots, MOST_BOTS, byref(count)))
        return self._bots[: count.value]  # type: ignore[no-any-return]

    def bots(self) -> List[Bot]:
        """Returns the active bots, in rising order of their bids. Raises `Closed`."""
        return [Bot(bot.bid, Coord(bot.x, bot.y, bot.z), seeds_of(bot.seeds)) for bot in self._tell_bots()]

    def bids(self) -> List[int]:
        """Returns the bids of the active bots, in rising order. Raises `Closed`."""
        return [bot.bid for bot in self._tell_bots()]

    def full(self, at: At) -> bool:
        """Returns whether the voxel at a coordinate is full. Raises `OutOfSpace`, TypeError or `Closed`."""
        c, result = coord_of(at), c_uint32()
        status = library.machine_full(byref(self._handle), *c, byref(result))
        if status == lib.OUTSIDE:
            raise OutOfSpace(c)
        self._check(status)
        return result.value == 1

    def level(self, at: At) -> Optional[int]:
        """Returns how far the voxel at a coordinate is from the floor along full voxels; None if it is void or not grounded.

        Raises `OutOfSpace`, TypeError, `Closed` or MemoryError. After a step that broke rule 12 on a machine without notes and
        target it takes as long as a start."""
        c, result = coord_of(at), c_uint32()
        status = library.machine_level(byref(self._handle), *c, byref(result))
        if status == lib.OUTSIDE:
            raise OutOfSpace(c)
        if status == lib.NO_LEVEL:
            return None
        self._check(status)
        return result.value

    def count(self) -> int:
        """Returns how many voxels are full. Raises `Closed`."""
        result = c_uint32()
        self._check(library.machine_count(byref(self._handle), byref(result)))
        return result.value

    def model(self) -> bytes:
        """Returns the matrix as the bytes of a model's file. Raises `Closed` or MemoryError. `matrix` returns it as a `Model`."""
        r = self.state.resolution
        status, data = lib.given(library.machine_model, byref(self._handle), room=1 + (r**3 + 7) // 8)
        self._check(status)
        return data

    def matrix(self) -> Model:
        """Returns the matrix as a `Model`, of which `full` are the full voxels. Raises `Closed` or MemoryError."""
        return Model.from_bytes(self.model())

    def _refuse_target(self, status: int, result: lib.Refusal, target: bytes) -> None:
        """Raises why a target is refused."""
        if status == lib.MODEL:
            raise refusal_of(result)
        if status == lib.RESOLUTION:
            raise OtherResolution(self.state.resolution, resolution_of(target))
        self._check(status)

    def difference(self, target: Source) -> Optional[Coord]:
        """Returns the least coordinate at which the matrix and a target differ; None if they are the same.

        The target is bytes, a `Model` or the name of a file, and need not be legal. Raises `OtherResolution`, `RefusedModel`, TypeError,
        OSError, `Closed` or MemoryError. Most of its time goes into reading the target: some 20 ms at resolution 250."""
        data, place, result = bytes_of(target, "the target"), lib.Place(), lib.Refusal()
        status = library.machine_compare(byref(self._handle), data, len(data), byref(place), byref(result))
        if status == lib.DIFFERS:
            return Coord(place.x, place.y, place.z)
        self._refuse_target(status, result, data)
        return None

    def differences(self, target: Source) -> int:
        """Returns at how many coordinates the matrix and a target differ.

        Takes and raises what `difference` does. It visits the whole matrix: 40 to 80 ms at resolution 250. `aim` and `remaining` keep the
        number up to date instead."""
        data, count, result = bytes_of(target, "the target"), c_uint32(), lib.Refusal()
        status = library.machine_differences(byref(self._handle), data, len(data), byref(count), byref(result))
        self._refuse_target(status, result, data)
        return count.value

    def aim(self, target: Source) -> int:
        """Makes a model the target, in place of the one before, and returns at how many coordinates the matrix differs from it.

        Takes and raises what `difference` does; if it raises, the target stays. Each step and each undo then updates `remaining`, at the
        cost of a comparison for each voxel that it changes. A copy has the same target."""
        data, count, result = bytes_of(target, "the target"), c_uint32(), lib.Refusal()
        status = library.machine_aim(byref(self._handle), data, len(data), byref(count), byref(result))
        self._refuse_target(status, result, data)
        return count.value

    @property
    def remaining(self) -> Optional[int]:
        """The number of coordinates at which the matrix differs from the target; None if `aim` set none. Nothing is counted again."""
        count = c_uint32()
        status = library.machine_remaining(byref(self._handle), byref(count))
        if status == lib.NO_TARGET:
            return None
        self._check(status)
        return count.value

    def keep(self) -> None:
        """Keeps the trace from here on. Raises `Begun` after the first step, or `Closed`."""
        status = library.machine_keep(byref(self._handle))
        if status == lib.BEGUN:
            raise Begun("steps were made before, so the trace cannot begin here: ask for it by Machine(.., trace=True)")
        self._check(status)

    def trace(self) -> Optional[bytes]:
        """Returns the bytes of the commands of all steps that were made and not taken back; None if they are not kept.

        Raises `Closed` or MemoryError."""
        status, data = lib.given(library.machine_trace, byref(self._handle), room=4096)
        if status == lib.NO_TRACE:
            return None
        self._check(status)
        return data


def version() -> str:
    """Returns the version of the library."""
    number = library.version()
    return f"{number // 10000}.{number // 100 % 100}.{number % 100}"
