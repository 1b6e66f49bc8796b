"""Models: which voxels of a matrix are full, read and written in both forms of a file (docs/FORMATS.md, "Model files")."""

from __future__ import annotations

import os
import re
from operator import and_, or_, xor
from typing import AbstractSet, Callable, Iterable, Iterator, List, Set, Tuple, Union

from .errors import Coord, OtherResolution, OutOfSpace, RefusedModel

WIDE = 0xFF
MOST_NARROW, MOST_WIDE = 250, 400
# The bits of each byte, from the least significant on.
BITS = [[bit for bit in range(8) if byte >> bit & 1] for byte in range(256)]
RUNS = re.compile(rb"\x00+|\xff+|[^\x00\xff]", re.DOTALL)


def _refused(number: int, want: int = 0, have: int = 0) -> RefusedModel:
    return RefusedModel(number, want, have, None)


def _size(resolution: int) -> int:
    """Returns the number of bytes with a bit for each voxel."""
    return (resolution**3 + 7) // 8


def _narrow_bits(data: bytes) -> Tuple[int, bytes]:
    """Returns the resolution and the bits of a model of the first form."""
    r = data[0]
    want = 1 + _size(r)
    if not 1 <= r <= MOST_NARROW:
        raise _refused(2, have=r)
    if len(data) < want:
        raise _refused(3, want, len(data))
    if len(data) > want:
        raise _refused(4, want)
    last = 0xFF >> -(r**3) % 8
    return r, data[1:-1] + bytes([data[-1] & last])


def _fill(bits: bytearray, begin: int, end: int) -> None:
    """Makes the places of a range full."""
    first, last = begin // 8, end // 8
    head, tail = 0xFF << begin % 8 & 0xFF, 0xFF >> 8 - end % 8
    if first == last:
        bits[first] |= head & tail
        return
    bits[first] |= head
    bits[first + 1 : last] = b"\xff" * (last - first - 1)
    if tail:
        bits[last] |= tail


def _wide_bits(data: bytes) -> Tuple[int, bytes]:
    """Returns the resolution and the bits of a model of the wide form."""
    if len(data) < 3:
        raise _refused(8, have=len(data))
    r = int.from_bytes(data[1:3], "big")
    if not MOST_NARROW < r <= MOST_WIDE:
        raise _refused(9, have=r)
    bits, place, at, whole = bytearray(_size(r)), 0, 3, r**3
    while place < whole:
        index = (at - 3) // 4
        if at + 4 > len(data):
            raise _refused(11, have=place)
        run = int.from_bytes(data[at : at + 4], "big")
        if place + run > whole or (run == 0 and index > 0):
            raise _refused(10, have=index)
        if index % 2 and run:
            _fill(bits, place, place + run)
        place, at = place + run, at + 4
    if at < len(data):
        raise _refused(12)
    return r, bytes(bits)


def _runs(bits: bytes, whole: int) -> Iterator[int]:
    """Yields the lengths of the runs of void and of full voxels by turns, beginning with void."""
    run, is_full = 0, False
    for found in RUNS.finditer(bits):
        part = found.group()
        if part[0] in (0, 0xFF):
            pieces = [(part[0] == 0xFF, 8 * len(part))]
        else:
            pieces = [(part[0] >> bit & 1 == 1, 1) for bit in range(8)]
        for piece_full, count in pieces:
            if piece_full != is_full:
                yield run
                run, is_full = 0, piece_full
            run += count
    extra = 8 * len(bits) - whole  # the last byte's bits that belong to no voxel, which are void
    if is_full or run > extra:
        yield run if is_full else run - extra


def resolution_of(model: bytes) -> int:
    """Returns the resolution that the bytes of a model begin with. Raises `RefusedModel` if they have none."""
    if not model:
        raise _refused(1)
    if model[0] == WIDE:
        return _wide_resolution(model)
    if not 1 <= model[0] <= MOST_NARROW:
        raise _refused(2, have=model[0])
    return model[0]


def _wide_resolution(model: bytes) -> int:
    if len(model) < 3:
        raise _refused(8, have=len(model))
    return int.from_bytes(model[1:3], "big")


class Voxels(AbstractSet[Coord]):
    """The full voxels of a model as a set of coordinates. It iterates in their order: x changes last, z first."""

    def __init__(self, model: "Model") -> None:
        self._model = model

    @classmethod
    def _from_iterable(cls, it: Iterable[Coord]) -> Set[Coord]:
        return set(it)

    def __contains__(self, at: object) -> bool:
        if not isinstance(at, tuple) or len(at) != 3:
            return False
        x, y, z = at
        return self._model.has((x, y, z)) and self._model[x, y, z]

    def __len__(self) -> int:
        return bin(int.from_bytes(self._model.bits, "little")).count("1")

    def __iter__(self) -> Iterator[Coord]:
        r, make, new = self._model.resolution, Coord, tuple.__new__
        for index, byte in enumerate(self._model.bits):
            if not byte:
                continue
            row, z = divmod(8 * index, r)
            x, y = divmod(row, r)
            if z + 8 <= r:
                for bit in BITS[byte]:
                    yield new(make, (x, y, z + bit))
            else:
                for bit in BITS[byte]:
                    row, z = divmod(8 * index + bit, r)
                    yield new(make, (row // r, row % r, z))

    def __repr__(self) -> str:
        return f"<{len(self)} full voxels at resolution {self._model.resolution}>"


class Model:
    """The full voxels of a matrix. A model is immutable.

    `Model.read(path)` and `Model.from_bytes(data)` read one, `Model.from_voxels(resolution, voxels)` makes one; `model.full` are its full
    voxels, `model[x, y, z]` says whether one is full, `bytes(model)` are the bytes of its file, and `a ^ b`, `a & b`, `a | b` and `a - b`
    compare two of one resolution. A model need not be legal: `nanobot.check(model)` says whether it is."""

    __slots__ = ("bits", "resolution")

    def __init__(self, resolution: int, bits: bytes) -> None:
        """Takes a bit for each voxel, in the order of the file's first form. `from_voxels` takes coordinates."""
        if isinstance(resolution, bool) or not isinstance(resolution, int):
            raise TypeError(f"the resolution is a whole number, not {type(resolution).__name__}")
        if not 1 <= resolution <= MOST_WIDE:
            raise ValueError(f"the resolution is 1 to {MOST_WIDE}, not {resolution}")
        if len(bits) != _size(resolution):
            raise ValueError(f"{len(bits)} bytes of bits; resolution {resolution} has {_size(resolution)}")
        self.resolution = resolution
        self.bits = bytes(bits)

    @classmethod
    def empty(cls, resolution: int) -> "Model":
        """Returns the model of this resolution without a full voxel."""
        return cls.from_voxels(resolution, ())

    @classmethod
    def from_voxels(cls, resolution: int, voxels: Iterable[Tuple[int, int, int]]) -> "Model":
        """Returns the model in which these voxels are full. Raises `OutOfSpace` for one outside the matrix."""
        if isinstance(resolution, bool) or not isinstance(resolution, int):
            raise TypeError(f"the resolution is a whole number, not {type(resolution).__name__}")
        bits, r = bytearray(_size(max(0, min(resolution, MOST_WIDE)))), resolution
        for x, y, z in voxels:
            if not (0 <= x < r and 0 <= y < r and 0 <= z < r):
                raise OutOfSpace((x, y, z))
            place = (x * r + y) * r + z
            bits[place >> 3] |= 1 << (place & 7)
        return cls(resolution, bits)

    @classmethod
    def from_bytes(cls, data: bytes) -> "Model":
        """Returns the model of a file's bytes, of either form. Raises `RefusedModel` if they are none; legality is not judged."""
        if not data:
            raise _refused(1)
        return cls(*(_wide_bits(data) if data[0] == WIDE else _narrow_bits(data)))

    @classmethod
    def read(cls, path: Union[str, "os.PathLike[str]"]) -> "Model":
        """Returns the model of a file, of either form. Raises `RefusedModel` if it has none, and OSError if it cannot be read."""
        if not isinstance(path, (str, os.PathLike)):
            raise TypeError(f"give the name of a file as str or a path, not {type(path).__name__}: Model.from_bytes takes bytes")
        with open(path, "rb") as file:
            return cls.from_bytes(file.read())

    def write(self, path: Union[str, "os.PathLike[str]"]) -> None:
        """Writes the model as a file, in the form of its resolution."""
        with open(path, "wb") as file:
            file.write(bytes(self))

    @property
    def full(self) -> Voxels:
        """The full voxels, as a set of coordinates that is iterated in order."""
        return Voxels(self)

    def has(self, at: Tuple[int, int, int]) -> bool:
        """Returns whether the coordinate is in the matrix."""
        return all(0 <= n < self.resolution for n in at)

    def __getitem__(self, at: Tuple[int, int, int]) -> bool:
        x, y, z = at
        if not self.has((x, y, z)):
            raise OutOfSpace((x, y, z))
        place = (x * self.resolution + y) * self.resolution + z
        return bool(self.bits[place >> 3] >> (place & 7) & 1)

    def __bytes__(self) -> bytes:
        r = self.resolution
        if r <= MOST_NARROW:
            return bytes([r]) + self.bits
        runs: List[int] = list(_runs(self.bits, r**3))
        return bytes([WIDE]) + r.to_bytes(2, "big") + b"".join(run.to_bytes(4, "big") for run in runs)

    def _with(self, other: "Model", combine: Callable[[int, int], int]) -> "Model":
        if not isinstance(other, Model):
            return NotImplemented
        if self.resolution != other.resolution:
            raise OtherResolution(self.resolution, other.resolution)
        both = combine(int.from_bytes(self.bits, "little"), int.from_bytes(other.bits, "little"))
        return Model(self.resolution, both.to_bytes(len(self.bits), "little"))

    def __xor__(self, other: "Model") -> "Model":
        return self._with(other, xor)

    def __and__(self, other: "Model") -> "Model":
        return self._with(other, and_)

    def __or__(self, other: "Model") -> "Model":
        return self._with(other, or_)

    def __sub__(self, other: "Model") -> "Model":
        return self._with(other, lambda own, others: own & ~others)

    def __eq__(self, other: object) -> bool:
        return isinstance(other, Model) and (self.resolution, self.bits) == (other.resolution, other.bits)

    def __hash__(self) -> int:
        return hash((self.resolution, self.bits))

    def __repr__(self) -> str:
        return f"<Model of resolution {self.resolution} with {len(self.full)} full voxels>"
