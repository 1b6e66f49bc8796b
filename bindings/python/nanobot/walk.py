"""A trace, walked step by step: `python -m nanobot walk S T B`."""

from __future__ import annotations

import cmd
from typing import Any, Optional

from .errors import BadCommands, BrokenRule, Coord, NanobotError, OutOfSpace, Refused
from .machine import Machine, Source, bytes_of
from .progress import Progress
from .rows import judge
from .trace import Player, machine_of, orders_at
from .why import Row, described, groups_of, spaced, why

NOTES = 4096


class Walk(cmd.Cmd):
    """The machine of a trace, which goes forwards and backwards to any step."""

    intro: Any = "step [N], back [N], to N, broken, state, bots, groups, voxel X Y Z, layer Y, help, quit"

    def __init__(self, source: Optional[Source], target: Optional[Source], trace: Source, *, light: bool = False, **options: Any) -> None:
        super().__init__(**options)
        self.is_asked = self.stdin.isatty()
        if not self.is_asked:
            self.intro = None
        self.data = bytes_of(trace)
        self._models, self._light = (source, target), light
        self._start()
        self._ask()

    def _start(self) -> None:
        """Goes to the place before the first step."""
        self.machine = machine_of(*self._models, light=self._light, notes=NOTES)
        self._player = Player(self.machine, self.data)

    def say(self, text: str) -> None:
        self.stdout.write(text + "\n")

    def _ask(self) -> None:
        """Sets the prompt, which a script that is piped in does not have."""
        self.prompt = f"{self.machine.steps}> " if self.is_asked else ""

    def _row(self) -> Row:
        return orders_at(self.data, self._player.offset, self.machine.bots())[0]

    def _told_row(self) -> Row:
        """Returns the next step, or none if its bytes are no commands, which is printed."""
        try:
            return self._row()
        except BadCommands as bad:
            self.say(str(bad))
            return []

    def _end(self) -> None:
        """Prints that no step is left, and the refusal of the whole trace, if it is refused."""
        self.say("ended")
        try:
            judge(*self._models, self.data, light=self._light)
        except Refused as refused:
            self.say(refused.line)

    def _say_why(self, refused: Optional[NanobotError]) -> None:
        """Says why the next step is not made."""
        active = self.machine.state.active
        if not active:
            self._end()
        elif isinstance(refused, BadCommands):
            self.say(str(refused))
        elif isinstance(refused, BrokenRule):
            self.say(str(refused))
            for line in why(self.machine, refused, self._row()):
                self.say(line)
        else:
            self.say(f"the trace ends: {len(self._row())} commands for {active} bots")

    def _play(self, most: Optional[int]) -> Optional[NanobotError]:
        """Makes `most` steps, or all, and returns the error of the next one, if it is refused."""
        progress = Progress("walk", len(self.data))
        try:
            return self._player.play(most, progress)
        finally:
            progress.clear()

    def _forwards(self, most: Optional[int] = None) -> None:
        """Makes `most` steps, or all, and prints the error of one that is refused."""
        wanted = None if most is None else self.machine.steps + most
        refused = self._play(most)
        if wanted is None or self.machine.steps < wanted:
            self._say_why(refused)

    def _back_to(self, wanted: int) -> None:
        """Undoes steps; past the notes the trace is walked again from its start."""
        if not self._player.back_to(wanted):
            self.machine.close()
            self._start()
            self._play(wanted)

    def _number(self, words: str, default: Optional[int]) -> Optional[int]:
        if not words and default is not None:
            return default
        if words.isdecimal():
            return int(words)
        self.say("that is no number")
        return None

    def _stand(self) -> None:
        state = self.machine.state
        self.say(f"step {state.steps} energy {state.energy} bots {state.active} {'high' if state.high else 'low'}")

    def _go(self, wanted: int) -> None:
        if self.machine.steps < wanted:
            self._forwards(wanted - self.machine.steps)
        elif self.machine.steps > wanted:
            self._back_to(wanted)
        self._stand()

    def do_step(self, words: str) -> None:
        """step [N]: makes N steps, or one."""
        n = self._number(words, 1)
        if n is not None:
            self._go(self.machine.steps + n)

    def do_back(self, words: str) -> None:
        """back [N]: takes N steps back, or one."""
        n = self._number(words, 1)
        if n is not None:
            self._go(max(0, self.machine.steps - n))

    def do_to(self, words: str) -> None:
        """to N: goes to the place after N steps."""
        n = self._number(words, None)
        if n is not None:
            self._go(n)

    def do_broken(self, _: str) -> None:
        """broken: goes on until a step is refused or the run ends."""
        self._forwards()
        self._stand()

    def do_state(self, _: str) -> None:
        """state: the state of the machine."""
        self._stand()

    def do_bots(self, _: str) -> None:
        """bots: the active bots with their next commands."""
        row = self._told_row()
        for line in described(row):
            self.say(line)
        for bot in self.machine.bots()[len(row) :]:
            self.say(f"  bot {bot.bid} at {spaced(bot.at)}: no command")

    def do_groups(self, _: str) -> None:
        """groups: the groups of the next step."""
        for members in groups_of(self._told_row()):
            self.say(f"group {members[0].bot.bid}: " + " ".join(str(it.bot.bid) for it in members))

    def do_voxel(self, words: str) -> None:
        """voxel X Y Z: whether a voxel is full, and its level."""
        parts = words.split()
        if len(parts) != 3 or not all(it.isdecimal() for it in parts):
            self.say("voxel X Y Z")
            return
        c = Coord(*map(int, parts))
        try:
            full, level = self.machine.full(c), self.machine.level(c)
        except OutOfSpace as outside:
            self.say(str(outside))
            return
        self.say("void" if not full else "full floating" if level is None else f"full level {level}")

    def do_layer(self, words: str) -> None:
        """layer Y: the voxels of a layer, x to the right and z down; bots by `o`."""
        y, r = self._number(words, 0), self.machine.state.resolution
        if y is None:
            return
        if y >= r:
            self.say(f"y is 0 to {r - 1}")
            return
        bots, matrix = {bot.at for bot in self.machine.bots()}, self.machine.matrix()
        for z in range(r):
            self.say("".join("o" if (x, y, z) in bots else "#" if matrix[x, y, z] else "." for x in range(r)))

    def do_quit(self, _: str) -> bool:
        """quit: ends."""
        return True

    do_EOF = do_quit

    def emptyline(self) -> bool:
        return False

    def postcmd(self, stop: bool, line: str) -> bool:
        self.stdout.flush()
        self._ask()
        return stop
