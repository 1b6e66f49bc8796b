"""Models and their files: docs/FORMATS.md, "Model files" and "The forge"."""
from __future__ import annotations

from typing import FrozenSet, NamedTuple

from reference.geometry import Coord, coordinate, place, ungrounded

MOST_FIRST, MOST_WIDE = 250, 400


class Model(NamedTuple):
    resolution: int
    full: FrozenSet[Coord]


class ModelRefused(Exception):
    """A refusal: its printed line without who is refused."""


def read_model(data: bytes) -> Model:
    """The model of a file, whether it is legal or not."""
    if not data:
        raise ModelRefused("1 NoByte")
    return _read_wide(data) if data[0] == 0xFF else _read_first(data)


def _read_first(data: bytes) -> Model:
    r, have = data[0], len(data)
    if not 1 <= r <= MOST_FIRST:
        raise ModelRefused(f"2 Resolution {r}")
    want = 1 + (r**3 + 7) // 8
    if have < want:
        raise ModelRefused(f"3 Short want {want} have {have}")
    if have > want:
        raise ModelRefused(f"4 Long want {want}")
    return Model(r, frozenset(coordinate(p, r) for p in range(r**3) if data[1 + p // 8] >> p % 8 & 1))


def _read_wide(data: bytes) -> Model:
    if len(data) < 3:
        raise ModelRefused(f"8 WideHead have {len(data)}")
    r = int.from_bytes(data[1:3], "big")
    if not MOST_FIRST < r <= MOST_WIDE:
        raise ModelRefused(f"9 WideResolution {r}")
    full, total, at, index = [], 0, 3, 0
    while total < r**3:
        if len(data) - at < 4:
            raise ModelRefused(f"11 WideShort have {total}")
        run = int.from_bytes(data[at : at + 4], "big")
        if run == 0 and index or total + run > r**3:
            raise ModelRefused(f"10 WideRun index {index}")
        if index % 2:
            full += [coordinate(p, r) for p in range(total, total + run)]
        total, at, index = total + run, at + 4, index + 1
    if at < len(data):
        raise ModelRefused("12 WideLong")
    return Model(r, frozenset(full))


def write_model(model: Model) -> bytes:
    r, places = model.resolution, {place(c, model.resolution) for c in model.full}
    if r <= MOST_FIRST:
        bits = bytearray((r**3 + 7) // 8)
        for p in places:
            bits[p // 8] |= 1 << p % 8
        return bytes([r]) + bytes(bits)
    changes = [p for p in range(r**3) if (p in places) != (p - 1 in places)]
    ends = changes + [r**3]
    runs = [end - start for start, end in zip([0] + changes, ends)]
    return b"\xff" + r.to_bytes(2, "big") + b"".join(run.to_bytes(4, "big") for run in runs)


def check_legal(model: Model) -> None:
    r = model.resolution
    border = [c for c in model.full if not (1 <= c[0] <= r - 2 and c[1] <= r - 2 and 1 <= c[2] <= r - 2)]
    if border:
        raise ModelRefused("6 Border at %d %d %d" % min(border))
    floating = ungrounded(model.full)
    if floating:
        raise ModelRefused("7 Floating at %d %d %d" % min(floating))


def forge(number: int, r: int) -> Model:
    """The legal model of a number."""
    columns = {}
    for x in range(1, r - 1):
        for z in range(1, r - 1):
            w = (number + 71 * x + 113 * z + 5 * x * x * z) % 1024
            columns[x, z] = 0 if w % 3 else 1 + w % (r - 1)
    full = {(x, y, z) for (x, z), height in columns.items() for y in range(height)}
    top = max(columns.values(), default=0)
    if top:
        z0 = min(xz for xz, height in columns.items() if height == top)[1]
        full |= {(x, top - 1, z) for x, z in columns if x % 2 == 0 or z == z0}
    return Model(r, frozenset(full))
