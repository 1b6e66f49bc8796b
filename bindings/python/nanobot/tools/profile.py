"""The parts of a trace's energy: `python -m nanobot profile [--timeline] [--json] [light] S T B`."""

from __future__ import annotations

import json
from dataclasses import asdict, dataclass
from typing import Dict, Iterator, List, Optional

from ..errors import Refused
from ..machine import Source, bytes_of
from ..models import Model
from ..progress import Progress
from ..rows import judge
from .replay import Counts, Player
from .tables import aligned, share

PHASES, COLUMNS = 10, 60
BARS = " ▁▂▃▄▅▆▇█"


@dataclass
class Profile:
    """The costs of a trace: the line of its verdict, and the counts of its steps in equal parts, from first to last."""

    line: str
    resolution: int
    most_bots: int
    parts: List[Counts]

    @property
    def whole(self) -> Counts:
        """The counts of all steps."""
        return summed(self.parts)

    def phases(self) -> List[Counts]:
        """Returns the counts of the steps in ten parts."""
        size = COLUMNS // PHASES
        return [summed(self.parts[first : first + size]) for first in range(0, COLUMNS, size)]

    def energy(self, counts: Counts) -> Dict[str, int]:
        """Returns the energy of these steps by cause (docs/FORMATS.md, "Commands")."""
        volume = self.resolution**3
        return {
            "upkeep under Low": 3 * volume * (counts.steps - counts.high),
            "upkeep under High": 30 * volume * counts.high,
            "upkeep of bots": 20 * counts.bots,
            "moves": counts.moved,
            "fills": 12 * counts.filled + 6 * counts.refilled,
            "voids": 3 * counts.revoided - 12 * counts.voided,
            "splits and fusions": 24 * (counts.split - counts.joined),
        }


def summed(parts: List[Counts]) -> Counts:
    return Counts(*map(sum, zip(*(asdict(part).values() for part in parts))))


def source_model(source: Optional[Source], target: Optional[Source]) -> Model:
    """Returns the source model of a run."""
    if source is not None and source != "-":
        return Model.from_bytes(bytes_of(source, "the source"))
    return Model.empty(Model.from_bytes(bytes_of(target or b"", "the target")).resolution)


def profile(source: Optional[Source], target: Optional[Source], trace: Source, *, light: bool = False) -> Profile:
    """Returns the parts of a trace's energy, as far as no rule is broken.

    The models and the trace are given as for `judge`. Raises `Refused` if a model or a byte of the trace is refused. Takes one pass over the
    commands, about a microsecond each."""
    data = bytes_of(trace, "the trace")
    try:
        cost = judge(source, target, data, light=light)
        line, steps = f"ok energy {cost.energy} steps {cost.steps}", cost.steps
    except Refused as refused:
        if refused.broken is None:
            raise
        line, steps = refused.line, refused.broken.step - (0 if refused.broken.rule in (13, 14) else 1)
    model = source_model(source, target)
    player = Player(model, data)
    parts, progress = [], Progress("profile", COLUMNS)
    for column in range(COLUMNS):
        before = player.counts.copy()
        player.play(steps * (column + 1) // COLUMNS - steps * column // COLUMNS)
        parts.append(player.counts.minus(before))
        progress.show(column + 1)
    progress.clear()
    return Profile(line, model.resolution, player.most_bots, parts)


def causes(found: Profile) -> Iterator[str]:
    energy = found.energy(found.whole)
    total = sum(energy.values())
    rows = sorted(((cause, n) for cause, n in energy.items() if n), key=lambda row: -abs(row[1]))
    yield from aligned([["cause", "energy", "share"], *([cause, str(n), share(n, total)] for cause, n in rows)])


def phases(found: Profile) -> Iterator[str]:
    rows, first = [["steps", "energy", "under High", "that change", "voxels", "bots", "waits"]], 1
    for part in found.phases():
        if part.steps:
            spent = sum(found.energy(part).values())
            shares = [share(part.high, part.steps), share(part.changing, part.steps)]
            voxels = str(part.filled + part.voided)
            rows.append([f"{first} to {first + part.steps - 1}", str(spent), *shares, voxels, f"{part.bots / part.steps:.1f}", share(part.waits, part.bots)])
        first += part.steps
    yield from aligned(rows)


def advice(found: Profile) -> Iterator[str]:
    """Yields the points to improve, the greatest loss first."""
    whole = found.whole
    spent = found.energy(whole)
    total = max(sum(spent.values()), 1)
    idle = whole.steps - whole.changing
    if 10 * spent["upkeep under High"] > total:
        yield f"{share(spent['upkeep under High'], total)} of the energy is upkeep under High, in {share(whole.high, whole.steps)} of the steps: a step under Low costs a tenth"
    if 2 * idle > whole.steps:
        yield f"{share(whole.changing, whole.steps)} of the steps change a voxel: shorter ways, or bots that work while others move"
    if 3 * whole.waits > whole.bots:
        yield f"{share(whole.waits, whole.bots)} of the commands are Wait, with {whole.bots / max(whole.steps, 1):.1f} bots on average: the work is shared unevenly"
    if found.most_bots <= 2 and whole.changing > 100:
        yield f"no more than {found.most_bots} active at once: upkeep is paid by the step, so more bots cost less"
    if 20 * (whole.refilled + whole.revoided) > whole.filled + whole.voided:
        yield f"{whole.refilled + whole.revoided} voxels are filled while full or voided while void, at 6 and 3 each"


def bars(values: List[float]) -> str:
    top = max(values, default=0) or 1
    return "".join(BARS[min(8, int(8 * value / top + 0.999))] for value in values)


def timeline(found: Profile) -> Iterator[str]:
    parts = [part for part in found.parts if part.steps]
    rows = {
        "bots": [part.bots / part.steps for part in parts],
        "voxels": [(part.filled + part.voided) / part.steps for part in parts],
        "waits": [part.waits / part.bots for part in parts],
        "High": [part.high / part.steps for part in parts],
    }
    for name, values in rows.items():
        yield f"{name:6}  |{bars(values)}|  at most {max(values, default=0):.1f}"


def told(found: Profile, chart: bool) -> Iterator[str]:
    """Yields the lines of a profile."""
    whole = found.whole
    yield found.line
    yield f"resolution {found.resolution}, {whole.steps} steps, {whole.bots} commands, at most {found.most_bots} bots, {whole.bots / max(whole.steps, 1):.1f} on average"
    for lines in (causes(found), phases(found), timeline(found) if chart else iter(())):
        yield ""
        yield from lines
    hints = list(advice(found))
    if hints:
        yield ""
        yield from (f"- {hint}" for hint in hints)


def as_json(found: Profile) -> str:
    whole = found.whole
    table = {"line": found.line, "resolution": found.resolution, "most_bots": found.most_bots, "energy": found.energy(whole)}
    return json.dumps({**table, "whole": asdict(whole), "phases": [asdict(part) for part in found.phases()]}, indent=2)
