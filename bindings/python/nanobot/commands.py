"""The twelve commands as values, with their bytes in both directions (docs/FORMATS.md, "Trace files").

`SMove(0, 0, 2)` is a command, `bytes(command)` its bytes and `str(command)` its text; `command_at` reads one from bytes."""

from __future__ import annotations

from dataclasses import dataclass
from functools import lru_cache
from typing import ClassVar, Dict, Iterator, List, Optional, Tuple, Type

from .errors import BadCommands

Difference = Tuple[int, int, int]

AXES = {1: 0, 2: 1, 3: 2}


def _text(difference: Difference) -> str:
    return "<%d,%d,%d>" % difference


def _whole(what: str, numbers: Tuple[int, ...], count: int) -> None:
    """Raises if these are not `count` whole numbers."""
    if not isinstance(numbers, tuple) or len(numbers) != count or not all(type(n) is int for n in numbers):
        raise TypeError(f"{what} is {count} whole numbers, not {numbers!r}")


def _near_code(word: str, d: Difference) -> int:
    """Returns the number of a near difference: at most 1 along each axis, and not more than two of them."""
    _whole(f"the difference of {word}", d, 3)
    if any(abs(n) > 1 for n in d) or not 1 <= sum(abs(n) for n in d) <= 2:
        raise ValueError(f"{word} {_text(d)}: a near difference has -1, 0 or 1 along each axis, and one or two that are not 0")
    return 9 * (d[0] + 1) + 3 * (d[1] + 1) + d[2] + 1


def _linear(word: str, d: Difference, most: int) -> Tuple[int, int]:
    """Returns the axis and the length of a linear difference."""
    _whole(f"the difference of {word}", d, 3)
    lengths = [(axis, n) for axis, n in enumerate(d, 1) if n]
    if len(lengths) != 1 or abs(lengths[0][1]) > most:
        raise ValueError(f"{word} {_text(d)}: a linear difference is along one axis, from -{most} to {most} and not 0")
    return lengths[0]


class Command:
    """A command: `bytes` of it are those of a trace, and `str` its text."""

    code: ClassVar[int]

    @property
    def word(self) -> str:
        """The word of the command, such as SMove."""
        return type(self).__name__

    @property
    def differences(self) -> Tuple[Difference, ...]:
        """The differences that the command names, in order."""
        return ()

    @property
    def seeds(self) -> Optional[int]:
        """How many seeds a Fission gives to the new bot; None of other commands."""
        return None

    def __bytes__(self) -> bytes:
        return bytes([self.code])

    def __str__(self) -> str:
        parts = [self.word, *map(_text, self.differences)]
        return " ".join(parts if self.seeds is None else [*parts, str(self.seeds)])


@dataclass(frozen=True)
class Halt(Command):
    """Ends the run: the only bot, at the origin, under Low harmonics."""

    code = 0xFF


@dataclass(frozen=True)
class Wait(Command):
    """Does nothing in the step: the bot stays."""

    code = 0xFE


@dataclass(frozen=True)
class Flip(Command):
    """Turns Low harmonics to High, and High to Low."""

    code = 0xFD


@dataclass(frozen=True)
class SMove(Command):
    """Moves the bot along one axis, by 1 to 15 either way: `SMove(0, 0, -4)`."""

    dx: int
    dy: int
    dz: int

    def __post_init__(self) -> None:
        _linear(self.word, self.differences[0], 15)

    @property
    def differences(self) -> Tuple[Difference, ...]:
        return ((self.dx, self.dy, self.dz),)

    def __bytes__(self) -> bytes:
        axis, length = _linear(self.word, self.differences[0], 15)
        return bytes([axis << 4 | 0b0100, length + 15])


@dataclass(frozen=True)
class LMove(Command):
    """Moves the bot along one axis and then along one, by 1 to 5 each: `LMove((3, 0, 0), (0, -5, 0))`."""

    first: Difference
    second: Difference

    def __post_init__(self) -> None:
        for d in self.differences:
            _linear(self.word, d, 5)

    @property
    def differences(self) -> Tuple[Difference, ...]:
        return self.first, self.second

    def __bytes__(self) -> bytes:
        (one, length), (two, then) = (_linear(self.word, d, 5) for d in self.differences)
        return bytes([two << 6 | one << 4 | 0b1100, then + 5 << 4 | length + 5])


@dataclass(frozen=True)
class _Near(Command):
    """A command with a near difference."""

    dx: int
    dy: int
    dz: int

    def __post_init__(self) -> None:
        _near_code(self.word, self.differences[0])

    @property
    def differences(self) -> Tuple[Difference, ...]:
        return ((self.dx, self.dy, self.dz),)

    def __bytes__(self) -> bytes:
        return bytes([_near_code(self.word, self.differences[0]) << 3 | self.code])


class FusionP(_Near):
    """Takes in the bot at the near difference, which commands a FusionS back: `FusionP(1, 0, 0)`."""

    code = 0b111


class FusionS(_Near):
    """Becomes a part of the bot at the near difference, which commands a FusionP back: `FusionS(-1, 0, 0)`."""

    code = 0b110


class Fill(_Near):
    """Makes the voxel at the near difference full: `Fill(0, -1, 0)`."""

    code = 0b011


class Void(_Near):
    """Makes the voxel at the near difference void: `Void(1, 0, 1)`."""

    code = 0b010


@dataclass(frozen=True)
class Fission(Command):
    """Makes a bot at the near difference, which gets the next `seeds` seeds: `Fission((0, 0, 1), 5)`."""

    near: Difference
    m: int

    code = 0b101

    def __post_init__(self) -> None:
        _near_code(self.word, self.near)
        _whole("the seeds of Fission", (self.m,), 1)
        if not 0 <= self.m <= 255:
            raise ValueError(f"Fission {_text(self.near)} {self.m}: the seeds are a number from 0 to 255")

    @property
    def differences(self) -> Tuple[Difference, ...]:
        return (self.near,)

    @property
    def seeds(self) -> Optional[int]:
        return self.m

    def __bytes__(self) -> bytes:
        return bytes([_near_code(self.word, self.near) << 3 | self.code, self.m])


@dataclass(frozen=True)
class _Group(Command):
    """A command for one corner of a region, from `near` to `far` beyond it."""

    near: Difference
    far: Difference

    def __post_init__(self) -> None:
        _near_code(self.word, self.near)
        _whole(f"the far difference of {self.word}", self.far, 3)
        if any(abs(n) > 30 for n in self.far) or self.far == (0, 0, 0):
            raise ValueError(f"{self.word} {_text(self.near)} {_text(self.far)}: a far difference is -30 to 30 along each axis, and not 0,0,0")

    @property
    def differences(self) -> Tuple[Difference, ...]:
        return self.near, self.far

    def __bytes__(self) -> bytes:
        return bytes([_near_code(self.word, self.near) << 3 | self.code, *(n + 30 for n in self.far)])


class GFill(_Group):
    """Makes a region full, one bot at each of its corners: `GFill((0, -1, 0), (10, -15, 20))`."""

    code = 0b001


class GVoid(_Group):
    """Makes a region void, one bot at each of its corners: `GVoid((1, 0, 0), (5, 5, -5))`."""

    code = 0b000


SINGLE: Dict[int, Command] = {it.code: it for it in (Halt(), Wait(), Flip())}
NEAR: Dict[int, Type[_Near]] = {it.code: it for it in (FusionP, FusionS, Fill, Void)}
GROUP: Dict[int, Type[_Group]] = {it.code: it for it in (GFill, GVoid)}


def _size(head: int) -> int:
    """Returns the size in bytes of a command with this first byte; 1 if it begins none."""
    if head in SINGLE:
        return 1
    return {0b100: 2, 0b101: 2, 0b001: 4, 0b000: 4}.get(head & 0b111, 1)


# How many bytes a command has, by its first byte.
SIZES = bytes(map(_size, range(256)))


def _along(axis: int, length: int) -> Difference:
    """Returns the difference along an axis from 1 to 3. Of another axis it is none, which no command takes."""
    return (length if axis == 1 else 0, length if axis == 2 else 0, length if axis == 3 else 0)


def _near(code: int) -> Difference:
    return (code // 9 - 1, code // 3 % 3 - 1, code % 3 - 1)


def _move(head: int, low: int) -> Command:
    if head & 0b1000:
        return LMove(_along(head >> 4 & 3, (low & 15) - 5), _along(head >> 6, (low >> 4) - 5))
    return SMove(*_along(head >> 4, low - 15))


def _spelled(data: bytes) -> Command:
    """Returns the command of these bytes. Raises ValueError if it is none."""
    head = data[0]
    if head in SINGLE:
        return SINGLE[head]
    if head & 0b111 == 0b100:
        return _move(head, data[1])
    near = _near(head >> 3)
    if head & 0b111 == Fission.code:
        return Fission(near, data[1])
    if head & 0b111 in NEAR:
        return NEAR[head & 0b111](*near)
    return GROUP[head & 0b111](near, (data[1] - 30, data[2] - 30, data[3] - 30))


_KNOWN: Dict[bytes, Command] = {}


def command_at(data: bytes, offset: int = 0) -> Command:
    """Returns the command that begins at this byte. Raises `BadCommands` with the offset if it is bad or cut."""
    spelled = data[offset : offset + SIZES[data[offset]]]
    found = _KNOWN.get(spelled)
    if found is None:
        try:
            found = _spelled(spelled)
        except (ValueError, IndexError):
            raise BadCommands(offset) from None
        if len(spelled) < 4:
            _KNOWN[spelled] = found
    return found


def read_commands(trace: bytes) -> Iterator[Command]:
    """Yields the commands of the bytes of a trace, one after another. Raises `BadCommands` at the first that is bad or cut."""
    offset = 0
    while offset < len(trace):
        yield command_at(trace, offset)
        offset += SIZES[trace[offset]]


@lru_cache(maxsize=65536)
def _bytes_of(command: Command) -> bytes:
    return bytes(command)


def spelled(command: object) -> bytes:
    """Returns the bytes of a command, or of bytes that are such. Raises TypeError for anything else."""
    if isinstance(command, Command):
        return _bytes_of(command)
    if isinstance(command, (bytes, bytearray, memoryview)):
        return bytes(command)
    hint = ": nanobot.asm makes bytes of a text" if isinstance(command, str) else ""
    raise TypeError(f"a command is bytes or a Command such as SMove(0, 0, 2), not {type(command).__name__}{hint}")


def joined(parts: List[object]) -> bytes:
    """Returns the bytes of commands, one after another."""
    return b"".join(map(spelled, parts))
