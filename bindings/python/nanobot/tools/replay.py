"""Plays the steps of a trace that the judge has accepted so far, and counts what they do (docs/FORMATS.md, "Commands").

Nothing is judged here: a step that breaks a rule must not be played."""

from __future__ import annotations

from dataclasses import dataclass, fields
from typing import Callable, List, Set, Tuple

from ..models import Model

Act = Callable[[int, int, int], int]

HALT, WAIT, FLIP = 0xFF, 0xFE, 0xFD
EIGHT = [bytes(byte >> bit & 1 for bit in range(8)) for byte in range(256)]


@dataclass
class Counts:
    """The counts of some steps: numbers of steps, of commands and of voxels."""

    steps: int = 0
    high: int = 0  # steps under High harmonics
    changing: int = 0  # steps that change a voxel
    bots: int = 0  # commands, one for each active bot of each step
    waits: int = 0
    moved: int = 0  # the energy of moves
    filled: int = 0  # voxels
    refilled: int = 0  # voxels that were full already
    voided: int = 0
    revoided: int = 0  # voxels that were void already
    split: int = 0  # Fissions
    joined: int = 0  # pairs of a FusionP and a FusionS
    flips: int = 0

    def minus(self, other: "Counts") -> "Counts":
        return Counts(*(getattr(self, it.name) - getattr(other, it.name) for it in fields(self)))

    def copy(self) -> "Counts":
        return Counts(*(getattr(self, it.name) for it in fields(self)))


class Player:
    """The bots, the voxels and the counts after the steps that were played."""

    def __init__(self, source: Model, trace: bytes) -> None:
        r = source.resolution
        self.counts = Counts()
        self.most_bots = 1
        self._trace, self._at, self._high = trace, 0, False
        self._voxels = bytearray(b"".join(map(EIGHT.__getitem__, source.bits)))
        # A voxel's place is (x * r + y) * r + z, so every difference is one number.
        self._resolution, self._strides = r, (0, r * r, r, 1)
        self._near = [(n // 9 - 1) * r * r + (n // 3 % 3 - 1) * r + n % 3 - 1 for n in range(32)]
        self._places: List[int] = [0]
        self._bids: List[int] = [1]
        self._seeds: List[List[int]] = [list(range(2, 41))]
        self._regions: Set[Tuple[int, int, int, int]] = set()
        self._born: List[Tuple[int, int, int]] = []
        self._fusing: List[Tuple[int, int]] = []
        self._halted = False
        self._acts = [self._act_of(head) for head in range(256)]

    def play(self, count: int) -> None:
        """Plays `count` steps, or fewer if no bot is left."""
        trace, acts, counts = self._trace, self._acts, self.counts
        for _ in range(count):
            bots, at, high = len(self._places), self._at, self._high
            if not bots:
                return
            before = counts.filled + counts.voided
            for index in range(bots):
                head = trace[at]
                at = acts[head](index, head, at)
            self._at = at
            counts.steps += 1
            counts.bots += bots
            if high:
                counts.high += 1
            if counts.filled + counts.voided != before:
                counts.changing += 1
            if self._regions:
                self._regions.clear()
            if self._born or self._fusing or self._halted:
                self._regroup()

    def _act_of(self, head: int) -> Act:
        if head in (HALT, WAIT, FLIP):
            return {HALT: self._halt, WAIT: self._wait, FLIP: self._flip}[head]
        if head & 7 == 4:
            return self._long if head & 8 else self._straight
        near = (self._group, self._group, self._void, self._fill, self._wait, self._fission, self._fusion_s, self._fusion_p)
        return near[head & 7]

    def _halt(self, index: int, head: int, at: int) -> int:
        self._halted = True
        return at + 1

    def _wait(self, index: int, head: int, at: int) -> int:
        self.counts.waits += 1
        return at + 1

    def _flip(self, index: int, head: int, at: int) -> int:
        self._high = not self._high
        self.counts.flips += 1
        return at + 1

    def _straight(self, index: int, head: int, at: int) -> int:
        length = self._trace[at + 1] - 15
        self._places[index] += length * self._strides[head >> 4]
        self.counts.moved += 2 * abs(length)
        return at + 2

    def _long(self, index: int, head: int, at: int) -> int:
        low = self._trace[at + 1]
        first, second = (low & 15) - 5, (low >> 4) - 5
        self._places[index] += first * self._strides[head >> 4 & 3] + second * self._strides[head >> 6]
        self.counts.moved += 2 * (abs(first) + abs(second) + 2)
        return at + 2

    def _fill(self, index: int, head: int, at: int) -> int:
        place = self._places[index] + self._near[head >> 3]
        if self._voxels[place]:
            self.counts.refilled += 1
        else:
            self._voxels[place] = 1
            self.counts.filled += 1
        return at + 1

    def _void(self, index: int, head: int, at: int) -> int:
        place = self._places[index] + self._near[head >> 3]
        if self._voxels[place]:
            self._voxels[place] = 0
            self.counts.voided += 1
        else:
            self.counts.revoided += 1
        return at + 1

    def _fission(self, index: int, head: int, at: int) -> int:
        self._born.append((index, self._places[index] + self._near[head >> 3], self._trace[at + 1]))
        return at + 2

    def _fusion_p(self, index: int, head: int, at: int) -> int:
        self._fusing.append((index, self._places[index] + self._near[head >> 3]))
        return at + 1

    def _fusion_s(self, index: int, head: int, at: int) -> int:
        return at + 1

    def _group(self, index: int, head: int, at: int) -> int:
        """Applies a GFill or a GVoid. The members of a group name the same region, which is changed once."""
        corner = self._places[index] + self._near[head >> 3]
        sides = [byte - 30 for byte in self._trace[at + 1 : at + 4]]
        low = corner + sum(min(side, 0) * stride for side, stride in zip(sides, self._strides[1:]))
        x, y, z = (abs(side) + 1 for side in sides)
        region = (low, x, y, z)
        if region not in self._regions:
            self._regions.add(region)
            self._paint(low, x, y, z, head & 1)
        return at + 4

    def _paint(self, low: int, x: int, y: int, z: int, full: int) -> None:
        voxels, (_, wall, row, _) = self._voxels, self._strides
        was = 0
        for first in range(low, low + x * wall, wall):
            for begin in range(first, first + y * row, row):
                was += voxels.count(1, begin, begin + z)
                voxels[begin : begin + z] = bytes([full]) * z
        if full:
            self.counts.filled += x * y * z - was
            self.counts.refilled += was
        else:
            self.counts.voided += was
            self.counts.revoided += x * y * z - was

    def _regroup(self) -> None:
        """Updates the bots after Fissions, Fusions and a Halt."""
        bots = {bid: (place, seeds) for bid, place, seeds in zip(self._bids, self._places, self._seeds)}
        for index, place, given in self._born:
            bid = self._bids[index]
            own, (new, *rest) = bots[bid][0], bots[bid][1]
            bots[new], bots[bid] = (place, rest[:given]), (own, rest[given:])
        for index, place in self._fusing:
            second = self._bids[self._places.index(place)]
            first = self._bids[index]
            bots[first] = (bots[first][0], sorted([*bots[first][1], second, *bots.pop(second)[1]]))
        self.counts.split += len(self._born)
        self.counts.joined += len(self._fusing)
        self._born.clear()
        self._fusing.clear()
        self._bids = [] if self._halted else sorted(bots)
        self._places = [bots[bid][0] for bid in self._bids]
        self._seeds = [bots[bid][1] for bid in self._bids]
        self.most_bots = max(self.most_bots, len(self._bids))
