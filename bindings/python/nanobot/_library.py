"""The shared library, and its calls as include/nanobot.h and include/nanobot_machine.h have them."""

from __future__ import annotations

import ctypes
import mmap
import os
from ctypes import POINTER, byref, c_bool, c_int64, c_size_t, c_uint8, c_uint32, c_uint64, c_void_p
from typing import Any, Callable, Dict, List, Tuple

NAME = "libnanobot.so"

DONE, BROKEN, WORDS, MODEL, TRACE, MEMORY, TEXT, UNSUPPORTED, TOO_SMALL = 0, 1, 2, 3, 4, 7, 8, 9, 10
NO_MACHINE, ENDED, COUNT, LONG, NO_NOTE, OUTSIDE, NO_LEVEL, DIFFERS, RESOLUTION, BEGUN, NO_TRACE, NO_TARGET = range(11, 23)


class Handle(ctypes.Structure):
    """A machine, or none."""

    _fields_ = [("at", c_void_p)]


class Refusal(ctypes.Structure):
    _fields_ = [(name, c_uint32) for name in ("number", "want", "have", "x", "y", "z")]


class Place(ctypes.Structure):
    _fields_ = [(name, c_uint32) for name in ("x", "y", "z")]


class Broken(ctypes.Structure):
    _fields_ = [(name, c_uint32) for name in ("rule", "step", "bid", "x", "y", "z")]


class StepReport(ctypes.Structure):
    _fields_ = [("energy", c_int64), ("offset", c_uint64), ("steps", c_uint32), ("active", c_uint32), ("broken", Broken), ("high", c_uint32), ("changed", c_uint32)]


class PlayedReport(ctypes.Structure):
    _fields_ = (
        [("energy", c_int64), ("used", c_uint64), ("offset", c_uint64)]
        + [(name, c_uint32) for name in ("made", "steps", "active", "high")]
        + [("broken", Broken)]
    )


class JudgedReport(ctypes.Structure):
    _fields_ = [("energy", c_int64), ("offset", c_uint64), ("halts", c_uint32), ("broken", Broken)] + [
        (name, c_uint32) for name in ("active", "high", "changed")
    ]


class StateReport(ctypes.Structure):
    _fields_ = [("energy", c_int64)] + [(name, c_uint32) for name in ("steps", "active", "resolution", "high")] + [("noted", c_uint64)]


class BotReport(ctypes.Structure):
    _fields_ = [("seeds", c_uint64)] + [(name, c_uint32) for name in ("bid", "x", "y", "z")]


# Bytes that a call reads. ctypes lends the inside of a `bytes` object, which ends with a zero byte: the pointer is never null.
BYTES = [c_void_p, c_size_t]
GIVEN = [POINTER(c_uint8), c_size_t, POINTER(c_size_t)]
MACHINE = POINTER(Handle)

# What each call takes. Each answers a status, but for the end of a machine, which answers nothing.
CALLS: Dict[str, List[Any]] = {
    "nanobot_judge": 3 * BYTES + [c_bool] + GIVEN,
    "nanobot_cost": 3 * BYTES + [c_bool, POINTER(c_int64), POINTER(c_uint32)],
    "nanobot_check": BYTES + GIVEN,
    "nanobot_plan_layer": 2 * BYTES + GIVEN,
    "nanobot_plan_group": 2 * BYTES + GIVEN,
    "nanobot_plan_crew": 2 * BYTES + GIVEN,
    "nanobot_plan_void": BYTES + GIVEN,
    "nanobot_plan_low": BYTES + GIVEN,
    "nanobot_plan_swarm": BYTES + GIVEN,
    "nanobot_asm": BYTES + GIVEN,
    "nanobot_dis": BYTES + GIVEN,
    "nanobot_machine_start": BYTES + [c_bool, c_uint32, MACHINE, POINTER(Refusal)],
    "nanobot_machine_start_empty": [c_uint32, c_bool, c_uint32, MACHINE],
    "nanobot_machine_step": [MACHINE] + BYTES + [POINTER(StepReport)],
    "nanobot_machine_play": [MACHINE] + BYTES + [c_uint32, POINTER(PlayedReport)],
    "nanobot_machine_judge": [MACHINE] + BYTES + [POINTER(JudgedReport)],
    "nanobot_machine_undo": [MACHINE],
    "nanobot_machine_copy": [MACHINE, MACHINE],
    "nanobot_machine_tell": [MACHINE, POINTER(StateReport)],
    "nanobot_machine_bots": [MACHINE, POINTER(BotReport), c_size_t, POINTER(c_size_t)],
    "nanobot_machine_full": [MACHINE, c_uint32, c_uint32, c_uint32, POINTER(c_uint32)],
    "nanobot_machine_level": [MACHINE, c_uint32, c_uint32, c_uint32, POINTER(c_uint32)],
    "nanobot_machine_count": [MACHINE, POINTER(c_uint32)],
    "nanobot_machine_model": [MACHINE] + GIVEN,
    "nanobot_machine_compare": [MACHINE] + BYTES + [POINTER(Place), POINTER(Refusal)],
    "nanobot_machine_differences": [MACHINE] + BYTES + [POINTER(c_uint32), POINTER(Refusal)],
    "nanobot_machine_aim": [MACHINE] + BYTES + [POINTER(c_uint32), POINTER(Refusal)],
    "nanobot_machine_remaining": [MACHINE, POINTER(c_uint32)],
    "nanobot_machine_keep": [MACHINE],
    "nanobot_machine_trace": [MACHINE] + GIVEN,
    "nanobot_machine_end": [MACHINE],
    "nanobot_commands": BYTES + [POINTER(c_uint64), POINTER(c_uint64)],
    "nanobot_version": [],
}



# The most bytes of a trace, and so of any plan.
MOST_TRACE = 2**30
# Buffers up to this size are filled with zeros; a larger one is mapped, and takes memory only as far as it is written.
SMALL_BUFFER = 2**16

Call = Callable[..., int]


def _path() -> str:
    """Returns the library that the environment names; otherwise the one in the package's folder."""
    named = os.environ.get("NANOBOT_LIBRARY")
    return named or os.path.join(os.path.dirname(os.path.abspath(__file__)), NAME)


class _Library:
    """The library, loaded at its first call."""

    def __init__(self) -> None:
        self._loaded: ctypes.CDLL | None = None

    def _load(self) -> ctypes.CDLL:
        if self._loaded is None:
            path = _path()
            if not os.path.exists(path):
                raise ImportError(f"there is no {path}: build it with bindings/python/build_library, or name it in NANOBOT_LIBRARY")
            self._loaded = ctypes.CDLL(path)
        return self._loaded

    def __getattr__(self, name: str) -> Call:
        loaded = self._load()
        try:
            call = getattr(loaded, "nanobot_" + name)
        except AttributeError:
            lacks = f"{_path()} has no nanobot_{name}: it is the library of another version"
            raise ImportError(f"{lacks}; build it with bindings/python/build_library") from None
        call.argtypes = CALLS["nanobot_" + name]
        call.restype = None if name == "machine_end" else c_uint32
        setattr(self, name, call)
        return call  # type: ignore[no-any-return]


library = _Library()


def lend(data: bytes) -> Tuple[bytes, int]:
    """Returns the arguments of a call for bytes: a pointer, which is never null, and a length."""
    return data, len(data)


def address_of(data: bytes) -> int:
    """Returns the address of the bytes, for a call that reads a part of them without a copy. It is never null."""
    return ctypes.cast(ctypes.c_char_p(data), c_void_p).value or 0


def _mapped(room: int, least: int) -> mmap.mmap:
    """Zeros that take memory only as far as they are written: as many as the room, or as the system gives, but not fewer than the least."""
    flags = mmap.MAP_PRIVATE | mmap.MAP_ANONYMOUS | getattr(mmap, "MAP_NORESERVE", 0x4000)
    while True:
        try:
            return mmap.mmap(-1, room, flags=flags)
        except (OSError, MemoryError):
            if room // 2 < least:
                raise MemoryError from None
            room //= 2


def _call_once(call: Call, lent: Tuple[Any, ...], room: int, least: int) -> Tuple[int, int, bytes]:
    """Returns the status, the size and the bytes of a call with a buffer of this room, which may be smaller, but has the least."""
    size = c_size_t()
    if room <= SMALL_BUFFER:
        buffer = (c_uint8 * room)()
        status = call(*lent, buffer, room, byref(size))
        return status, size.value, b"" if status == TOO_SMALL else ctypes.string_at(buffer, size.value)
    with _mapped(room, least) as pages:
        lent_pages = (c_uint8 * len(pages)).from_buffer(pages)
        status = call(*lent, lent_pages, len(pages), byref(size))
        del lent_pages  # what is lent cannot be unmapped
        return status, size.value, b"" if status == TOO_SMALL else pages[: size.value]


def given(call: Call, *lent: Any, room: int = 256) -> Tuple[int, bytes]:
    """Returns the status and the bytes of a call. If the room is too small, the call is made again with the required room."""
    least = 0
    while True:
        status, size, data = _call_once(call, lent, room, least)
        if status != TOO_SMALL:
            return status, data
        room = least = size
