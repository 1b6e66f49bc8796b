"""Traces that are judged, models that are checked, and plans: the commands of the program, over bytes or files."""

from __future__ import annotations

from ctypes import byref, c_int64, c_uint32, c_uint64
from typing import NamedTuple, Optional, Union

from . import _library as lib
from ._library import library
from .errors import BadCommands, Refused
from .machine import Source, bytes_of


class Cost(NamedTuple):
    """The cost of an accepted run: its `energy`, and how many `steps` it has."""

    energy: int
    steps: int


def side(source: Optional[Source], what: str) -> bytes:
    """Returns the bytes of a source or a target. None of them, and the name "-", is the empty model of the other's resolution."""
    return b"" if source is None or source == "-" else bytes_of(source, what)


def _line(status: int, data: bytes) -> str:
    if status == lib.MEMORY:
        raise MemoryError("out of memory")
    return data.decode().rstrip("\n")


def judge(source: Optional[Source], target: Optional[Source], trace: Source, *, light: bool = False) -> Cost:
    """Judges a whole trace from the source model to the target model, as the program's `run` does, and returns its energy and steps.

    Each of the three is bytes or the name of a file, and the models may be a `Model` too. None for the source or the target, as the name
    "-", is the empty model of the other's resolution. `light` selects the light profile.

    Raises `Refused` with the program's line if the trace is not accepted: its `rule`, `step`, `bid` and `at` are the broken rule
    with its place. Raises TypeError, OSError or MemoryError too. A million steps of one bot take some 0.4 s."""
    data = bytes_of(trace, "the trace (after the source and the target)")
    models = side(source, "the source"), side(target, "the target")
    lent = [part for it in (*models, data) for part in lib.lend(it)]
    energy, steps = c_int64(), c_uint32()
    status = library.cost(*lent, light, byref(energy), byref(steps))
    if status == lib.DONE:
        return Cost(energy.value, steps.value)
    status, line = lib.given(library.judge, *lent, light)
    raise Refused(status, _line(status, line))


def check(model: Source) -> str:
    """Judges a model, and returns what the program prints of a legal one: `legal resolution R full N`.

    The model is bytes, a `Model` or the name of a file. Raises `Refused` with the program's line if it is not legal, and TypeError,
    OSError or MemoryError."""
    status, line = lib.given(library.check, *lib.lend(bytes_of(model, "a model")))
    if status == lib.DONE:
        return _line(status, line)
    raise Refused(status, _line(status, line))


def _stored(call: lib.Call, *parts: bytes, room: int) -> bytes:
    """Returns the file of a call."""
    status, made = lib.given(call, *(part for data in parts for part in lib.lend(data)), room=room)
    if status == lib.DONE:
        return made
    raise Refused(status, _line(status, made))


def count_commands(trace: Source) -> int:
    """Returns how many commands a trace has.

    The trace is bytes or the name of a file. Raises `BadCommands` with the first byte of a command that is bad or cut, and TypeError,
    OSError or MemoryError."""
    count, offset = c_uint64(), c_uint64()
    status = library.commands(*lib.lend(bytes_of(trace, "a trace")), byref(count), byref(offset))
    if status == lib.MEMORY:
        raise MemoryError("out of memory")
    if status == lib.TRACE:
        raise BadCommands(offset.value)
    return count.value


def asm(text: Union[str, bytes]) -> bytes:
    """Returns the bytes of the trace that a text spells, with one command a line (docs/FORMATS.md, "Trace text").

    Raises `Refused` with the program's line for a text that spells none, TypeError or MemoryError."""
    if not isinstance(text, (str, bytes, bytearray)):
        raise TypeError(f"a text is str or bytes, not {type(text).__name__}")
    data = text.encode() if isinstance(text, str) else bytes(text)
    return _stored(library.asm, data, room=100 + len(data))


def dis(trace: Source) -> str:
    """Returns the text of a trace, a line for each command.

    The trace is bytes or the name of a file, of at most 50,000,000 bytes. Raises `Refused` with the program's line, TypeError, OSError or
    MemoryError."""
    data = bytes_of(trace, "a trace")
    return _stored(library.dis, data, room=100 + 18 * len(data)).decode()


def _plan(call: lib.Call, *models: bytes) -> bytes:
    """Returns a plan. The first buffer has room for every plan, so that none is made twice."""
    return _stored(call, *models, room=lib.MOST_TRACE)


def plan_layer(source: Optional[Source], target: Optional[Source]) -> bytes:
    """Returns a trace from the source model to the target model by one bot at most, as the program's `plan layer` stores it.

    A model is bytes, a `Model` or the name of a file; None, as the name "-", is the empty model of the other's resolution. `judge` returns
    what the trace costs. Raises `Refused` with the program's line if a model is not legal or the resolutions differ, TypeError, OSError or
    MemoryError. Ctrl-C takes effect when the plan is made: use a process that can be ended to stop one."""
    return _plan(library.plan_layer, side(source, "the source"), side(target, "the target"))


def plan_group(source: Optional[Source], target: Optional[Source]) -> bytes:
    """Returns a trace from the source model to the target model by two bots at most, as the program's `plan group` stores it.

    A model is bytes, a `Model` or the name of a file; None, as the name "-", is the empty model of the other's resolution. `judge` returns
    what the trace costs. Raises `Refused` with the program's line if a model is not legal, the resolutions differ or the plan may be too
    long, TypeError, OSError or MemoryError. Ctrl-C takes effect when the plan is made."""
    return _plan(library.plan_group, side(source, "the source"), side(target, "the target"))


def plan_crew(source: Optional[Source], target: Optional[Source]) -> bytes:
    """Returns the cheapest trace that the planners find from the source model to the target model, by forty bots at most, as the program's
    `plan crew` stores it.

    A model is bytes, a `Model` or the name of a file; None, as the name "-", is the empty model of the other's resolution. `judge` returns
    what the trace costs. Raises `Refused` with the program's line if a model is not legal or the resolutions differ, TypeError, OSError or
    MemoryError. It takes as long as several planners, minutes for a large model at resolution 250, and Ctrl-C takes effect when the plan is
    made: use a process that can be ended to stop one."""
    return _plan(library.plan_crew, side(source, "the source"), side(target, "the target"))


def plan_void(source: Source) -> bytes:
    """Returns a trace that takes the source model down, by four bots at most, as the program's `plan void` stores it.

    The model is bytes, a `Model` or the name of a file. `judge(source, None, trace)` returns what the trace costs. Raises `Refused` with the
    program's line if the model is not legal, TypeError, OSError or MemoryError."""
    return _plan(library.plan_void, bytes_of(source, "the source"))


def plan_low(target: Source) -> bytes:
    """Returns a trace that builds the target model under Low harmonics all the time, by one bot, as the program's `plan low` stores it.

    The model is bytes, a `Model` or the name of a file. `judge(None, target, trace)` returns what the trace costs. Raises `Refused` with the
    program's line if the model is not legal, or a part of it is unsupported (status 9), TypeError, OSError or MemoryError."""
    return _plan(library.plan_low, bytes_of(target, "the target"))


def plan_swarm(target: Source) -> bytes:
    """Returns a trace that builds the target model by twenty bots at most, as the program's `plan swarm` stores it.

    The model is bytes, a `Model` or the name of a file. `judge(None, target, trace, light=True)` returns what the trace costs. Raises
    `Refused` with the program's line if the model is not legal, TypeError, OSError or MemoryError."""
    return _plan(library.plan_swarm, bytes_of(target, "the target"))
