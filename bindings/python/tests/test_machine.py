"""Tests of the package: `python -m unittest discover -s tests` in bindings/python, with the library built."""

import concurrent.futures
import copy
import errno
import inspect
import mmap
import os
import pickle
import unittest
import unittest.mock

import nanobot
import nanobot._library as lib
from nanobot import Coord, Machine

TOP = os.path.dirname(os.path.dirname(os.path.dirname(os.path.dirname(os.path.abspath(__file__)))))
HOUSE = f"{TOP}/examples/house.mdl"
HALT, WAIT, FLIP = b"\xff", b"\xfe", b"\xfd"
# SMove <0,0,1>, Fill <0,0,1>, Fill <0,1,0>, Fission <0,0,1> 5
MOVE, FILL_BESIDE, FILL_ABOVE, SPLIT = b"\x34\x10", b"\x73", b"\x83", b"\x75\x05"


class Steps(unittest.TestCase):
    def test_a_step_costs_its_upkeep(self):
        with Machine(resolution=20) as machine:
            self.assertEqual(machine.step(WAIT), (3 * 8000 + 20, 1, 1, False, 0))
            self.assertEqual(machine.step(FLIP), (2 * (3 * 8000 + 20), 2, 1, True, 0))
            self.assertEqual(machine.step(WAIT).energy, 2 * (3 * 8000 + 20) + 30 * 8000 + 20)
            self.assertTrue(machine.state.high)

    def test_a_fission_makes_two_bots(self):
        with Machine(resolution=3) as machine:
            self.assertEqual(machine.step(SPLIT).active, 2)
            first, second = machine.bots()
            self.assertEqual((first.bid, first.at, first.seeds), (1, (0, 0, 0), tuple(range(8, 41))))
            self.assertEqual((second.bid, second.at, second.seeds), (2, (0, 0, 1), tuple(range(3, 8))))
            with self.assertRaises(nanobot.WrongCount) as caught:
                machine.step(WAIT)
            self.assertEqual(caught.exception.active, 2)
            self.assertEqual(machine.step(WAIT + WAIT).steps, 2)

    def test_a_voxel_that_floats_leaves_the_machine_as_it_was(self):
        with Machine(resolution=4, notes=3) as machine:
            machine.step(WAIT)
            before = machine.state
            with self.assertRaises(nanobot.BrokenRule) as caught:
                machine.step(FILL_ABOVE)
            broken = caught.exception
            self.assertEqual((broken.rule, broken.name, broken.step, broken.bid, broken.at), (12, "Ungrounded", 2, 0, (0, 1, 0)))
            self.assertEqual(machine.state, before)
            self.assertFalse(machine.full((0, 1, 0)))
            self.assertIsNone(machine.level((0, 1, 0)))
            machine.undo()
            self.assertEqual(machine.step(FILL_BESIDE).energy, 3 * 64 + 20 + 12)
            self.assertEqual((machine.full((0, 0, 1)), machine.level((0, 0, 1)), machine.count()), (True, 0, 1))

    def test_a_run_ends_once(self):
        with Machine(resolution=1) as machine:
            self.assertEqual(machine.step(HALT).active, 0)
            self.assertEqual(machine.bots(), [])
            with self.assertRaises(nanobot.Ended):
                machine.step(WAIT)

    def test_bytes_that_are_no_commands(self):
        with Machine(resolution=2) as machine:
            for data, offset in ((b"\x04", 0), (b"\xfe\x00", 1), (b"\x75", 0)):
                with self.assertRaises(nanobot.BadCommands) as caught:
                    machine.step(data)
                self.assertEqual(caught.exception.offset, offset)

    def test_the_light_profile_forbids_to_void(self):
        with Machine(resolution=2, light=True) as machine:
            with self.assertRaises(nanobot.BrokenRule) as caught:
                machine.step(b"\x72")
            self.assertEqual(caught.exception.rule, 15)


class Telling(unittest.TestCase):
    def test_harmonics_and_how_many_voxels_changed(self):
        for notes in (0, 5):
            with Machine(resolution=4, notes=notes) as machine:
                result = [machine.step(it)[3:] for it in (FILL_BESIDE, FILL_BESIDE, FLIP, bytes(nanobot.Void(0, 0, 1)))]
                self.assertEqual(result, [(False, 1), (False, 0), (True, 0), (True, 1)])


class Playing(unittest.TestCase):
    # Two bots; they wait; one waits and the other moves; the other halts, which it may not beside another.
    TRACE = bytes.fromhex("7505 fefe fe1410 feff")

    def setUp(self):
        self.machine = Machine(resolution=3, notes=9)

    def test_so_many_steps(self):
        played = self.machine.play(self.TRACE, 2)
        self.assertEqual(played[:2] + played[3:], (2, 4, 2, 2, False, None))
        self.assertEqual((played.energy, self.machine.steps), (self.machine.energy, 2))

    def test_from_a_byte_to_a_step_that_is_refused(self):
        self.machine.play(self.TRACE, 2)
        played = self.machine.play(self.TRACE, offset=4)
        self.assertEqual((played.made, played.used, played.steps), (1, 7, 3))
        self.assertEqual(str(played.refused), "broken 2 HaltAlone step 4 bid 2 at 1 0 1")
        with self.assertRaises(nanobot.BrokenRule):
            self.machine.step(self.TRACE[7:])

    def test_each_step_is_noted(self):
        self.machine.play(self.TRACE)
        for steps in (2, 1, 0):
            self.machine.undo()
            self.assertEqual(self.machine.steps, steps)

    def test_bytes_that_end_or_are_no_commands(self):
        self.machine.play(self.TRACE, 1)
        self.assertIsNone(self.machine.play(b"").refused)
        self.assertEqual(self.machine.play(self.TRACE, 0, offset=2)[:2], (0, 2))
        self.assertEqual(str(self.machine.play(b"\xfe").refused), "1 command for 2 active bots")
        refused = self.machine.play(bytes.fromhex("fdfd fefe fe14"), offset=2).refused
        self.assertEqual((type(refused), refused.offset, self.machine.steps), (nanobot.BadCommands, 5, 2))

    def test_behind_the_halt(self):
        played = self.machine.play(b"\xff\xfe")
        self.assertEqual((played.made, played.used, played.active, type(played.refused)), (1, 1, 0, nanobot.Ended))

    def test_arguments(self):
        for trace, most, offset in ((b"\xfe", -1, 0), (b"\xfe", 2**32, 0), (b"\xfe", 1, 2), (b"\xfe", 1, -1)):
            with self.assertRaises(ValueError):
                self.machine.play(trace, most, offset)
        for trace in (7, None, [1]):
            with self.assertRaises(TypeError):
                self.machine.play(trace)
        self.assertEqual(self.machine.steps, 0)


class Judging(unittest.TestCase):
    def test_a_step_that_is_judged_is_not_made(self):
        with Machine(resolution=4, notes=1) as machine:
            self.assertEqual(machine.judge(FILL_BESIDE), (3 * 64 + 20 + 12, False, 1, False, 1))
            self.assertEqual(machine.judge(HALT), (3 * 64 + 20, True, 0, False, 0))
            with self.assertRaises(nanobot.BrokenRule) as caught:
                machine.judge(FILL_ABOVE)
            self.assertEqual((caught.exception.rule, caught.exception.at), (12, (0, 1, 0)))
            self.assertRaises(nanobot.WrongCount, machine.judge, b"")
            self.assertRaises(nanobot.BadCommands, machine.judge, b"\x04")
            self.assertEqual(machine.state, (0, 0, 1, 4, False, 0))
            self.assertEqual(machine.count(), 0)
            machine.step(FILL_BESIDE)
            self.assertEqual(machine.judge(WAIT).energy, 2 * (3 * 64 + 20) + 12)
            machine.undo()
            self.assertEqual(machine.count(), 0)


class Commands(unittest.TestCase):
    """A step's commands as bytes, as values, in a list, and by the bots' bids."""

    def test_each_form(self):
        two = [nanobot.Wait(), nanobot.SMove(0, 0, 1)]
        for form in (b"\xfe\x34\x10", bytearray(b"\xfe\x34\x10"), two, tuple(two), [b"\xfe", two[1]], {2: two[1]}, {1: b"\xfe", 2: two[1]}):
            with self.subTest(form=form), Machine(resolution=5) as machine:
                machine.step(nanobot.Fission((0, 0, 1), 5))
                judged = machine.judge(form)
                self.assertEqual(machine.step(form).energy, judged.energy)
                self.assertEqual([bot.at for bot in machine.bots()], [(0, 0, 0), (0, 0, 2)])
                self.assertEqual(machine.bids(), [1, 2])

    def test_a_bot_that_is_not_active(self):
        with Machine(resolution=5) as machine:
            with self.assertRaises(nanobot.NoBot) as caught:
                machine.step({1: nanobot.Wait(), 3: nanobot.Wait()})
            self.assertEqual((caught.exception.bid, caught.exception.active, machine.steps), (3, (1,), 0))
            with self.assertRaises(nanobot.WrongCount) as wrong:
                machine.step([nanobot.Wait(), nanobot.Wait()])
            self.assertEqual(str(wrong.exception), "2 commands for 1 active bot")
            machine.step(nanobot.Halt())
            self.assertRaises(nanobot.Ended, machine.step, {})

    def test_why_a_step_is_refused(self):
        with Machine(resolution=4) as machine:
            self.assertEqual(machine.why(nanobot.Wait()), [])
            said = machine.why(nanobot.Fill(0, 1, 0))
            self.assertEqual((said[0], said[2]), ("broken 12 Ungrounded step 1 bid 0 at 0 1 0", "  byte 0: bot 1 at 0 0 0: Fill <0,1,0>"))
            self.assertEqual(machine.why(b"\x04"), ["no command at byte 0"])
            machine.step(SPLIT)
            self.assertEqual(machine.why(WAIT)[::2], ["1 command for 2 active bots", "  bot 2 at 0 0 1: no command"])
            self.assertEqual(machine.state.steps, 1)


class Threads(unittest.TestCase):
    def test_a_machine_moves_to_another_thread(self):
        machine = Machine(resolution=4, notes=2)
        machine.step(WAIT)
        with concurrent.futures.ThreadPoolExecutor(2) as pool:
            self.assertEqual(pool.submit(machine.step, WAIT).result().steps, 2)
            copies = [machine.copy() for _ in range(4)]
            energies = list(pool.map(lambda it: [it.step(WAIT).energy for _ in range(500)][-1], copies))
            self.assertEqual(set(energies), {502 * (3 * 64 + 20)})
            pool.submit(machine.undo).result()
            self.assertEqual(machine.steps, 1)
            pool.submit(machine.close).result()
        self.assertRaises(nanobot.Closed, machine.undo)


class Shown(unittest.TestCase):
    def test_a_machine(self):
        with Machine(resolution=20, light=True) as machine:
            machine.step(FLIP)
            self.assertEqual(repr(machine), "<Machine light resolution=20 steps=1 energy=24020 1 bot high>")
            self.assertEqual((machine.resolution, machine.high, machine.light, machine.copy().light), (20, True, True, True))
        self.assertEqual(repr(machine), "<Machine, closed>")


class Helping(unittest.TestCase):
    def test_each_call_has_a_page_of_its_own(self):
        for name in nanobot.__all__:
            page = inspect.getdoc(getattr(nanobot, name)) or ""
            with self.subTest(name=name):
                self.assertGreater(len(page), 15)
                self.assertNotIn("he same", page.split("\n")[0])
        for name, call in inspect.getmembers(Machine, inspect.isfunction):
            if not name.startswith("_"):
                with self.subTest(method=name):
                    self.assertTrue(inspect.getdoc(call))


class Traces(unittest.TestCase):
    def test_the_commands_that_were_made(self):
        with Machine(resolution=3, notes=2, trace=True) as machine:
            self.assertEqual(machine.trace(), b"")
            machine.step(SPLIT)
            machine.step(WAIT + WAIT)
            self.assertRaises(nanobot.BrokenRule, machine.step, WAIT + HALT)
            self.assertEqual(machine.trace(), SPLIT + WAIT + WAIT)
            with machine.copy() as other:
                machine.undo()
                self.assertEqual((machine.trace(), other.trace()), (SPLIT, SPLIT + WAIT + WAIT))
                self.assertRaises(nanobot.Begun, other.keep)

    def test_none_is_kept(self):
        with Machine(resolution=3) as machine:
            self.assertIsNone(machine.trace())
            machine.step(WAIT)
            self.assertRaises(nanobot.Begun, machine.keep)


class Undoing(unittest.TestCase):
    def test_as_many_as_are_noted(self):
        with Machine(resolution=2, notes=2) as machine:
            states = []
            for _ in range(4):
                states.append(machine.state[:5])
                machine.step(WAIT)
            self.assertEqual(machine.state.noted, 2)
            for wanted in (states[3], states[2]):
                machine.undo()
                self.assertEqual(machine.state[:5], wanted)
            with self.assertRaises(nanobot.NothingNoted):
                machine.undo()

    def test_a_copy_goes_its_own_way(self):
        with Machine(resolution=3, notes=5) as machine:
            machine.step(WAIT)
            with copy.copy(machine) as other:
                other.step(FILL_BESIDE)
                self.assertEqual((machine.count(), other.count()), (0, 1))
                self.assertEqual((machine.steps, other.steps), (1, 2))
                self.assertEqual(other.state.noted, 1)


class Models(unittest.TestCase):
    def test_a_model_is_given_back(self):
        with open(HOUSE, "rb") as file:
            data = file.read()
        with Machine(HOUSE) as machine:
            self.assertEqual(machine.model(), data)

    def test_models_that_are_refused(self):
        for data, number, at in ((b"", 1, None), (b"\x00", 2, None), (b"\x03\x01\x00\x00\x00", 6, (0, 0, 0))):
            with self.assertRaises(nanobot.RefusedModel) as caught:
                Machine(data)
            self.assertEqual((caught.exception.number, caught.exception.at), (number, at))

    def test_a_target_is_compared(self):
        # (1,0,1) is full at resolution 3: place 10, bit 2 of the second byte of voxels
        target = b"\x03\x00\x04\x00\x00"
        with Machine(target) as machine, Machine(resolution=3) as empty:
            self.assertIsNone(machine.difference(target))
            self.assertEqual(empty.difference(target), (1, 0, 1))
            self.assertEqual((machine.differences(target), empty.differences(target)), (0, 1))
            self.assertRaises(nanobot.OtherResolution, empty.differences, b"\x01\x00")
            self.assertRaises(nanobot.OtherResolution, empty.difference, b"\x01\x00")
            self.assertRaises(nanobot.RefusedModel, empty.difference, b"\x03\x00")

    def test_what_remains_of_a_target_is_kept(self):
        target = b"\x03\x00\x04\x00\x00"
        with Machine(resolution=3, notes=2) as machine:
            self.assertIsNone(machine.remaining)
            self.assertRaises(nanobot.OtherResolution, machine.aim, b"\x01\x00")
            self.assertIsNone(machine.remaining)
            self.assertEqual((machine.aim(target), machine.remaining), (1, 1))
            machine.step(nanobot.Fill(1, 0, 1))
            self.assertEqual(machine.remaining, 0)
            machine.step(FILL_BESIDE)
            with machine.copy() as other:
                machine.undo()
                machine.undo()
                self.assertEqual((machine.remaining, other.remaining), (1, 1))
                other.step(bytes(nanobot.Void(0, 0, 1)))
                self.assertEqual((machine.remaining, other.remaining), (1, 0))

    def test_numbers_that_are_refused(self):
        for wrong in ({"resolution": 0}, {"resolution": 401}, {"resolution": 2, "notes": 4097}, {"resolution": 2, "notes": -1}):
            with self.assertRaises(ValueError):
                Machine(**wrong)
        for wrong in ({"resolution": True}, {"resolution": 2.0}, {"resolution": "2"}, {"resolution": 2, "notes": False}, {}):
            with self.assertRaises(TypeError):
                Machine(**wrong)


class Descriptors(unittest.TestCase):
    """A number in place of a file or bytes is refused with a message, and no descriptor of that number is opened or closed."""

    CALLS = {
        "a machine": Machine,
        "a step": lambda it: Machine(resolution=2).step(it),
        "a judgement": lambda it: Machine(resolution=2).judge(it),
        "a comparison": lambda it: Machine(resolution=2).difference(it),
        "a count of differences": lambda it: Machine(resolution=2).differences(it),
        "a target": lambda it: Machine(resolution=2).aim(it),
        "check": nanobot.check,
        "asm": nanobot.asm,
        "dis": nanobot.dis,
        "count_commands": nanobot.count_commands,
        "judge, source": lambda it: nanobot.judge(it, HOUSE, WAIT),
        "judge, target": lambda it: nanobot.judge(HOUSE, it, WAIT),
        "judge, trace": lambda it: nanobot.judge(None, HOUSE, it),
        "plan_layer": lambda it: nanobot.plan_layer(it, HOUSE),
        "plan_group": lambda it: nanobot.plan_group(HOUSE, it),
        "plan_crew": lambda it: nanobot.plan_crew(it, HOUSE),
        "plan_void": nanobot.plan_void,
        "plan_low": nanobot.plan_low,
        "plan_swarm": nanobot.plan_swarm,
    }

    def test_what_is_no_file_and_no_bytes(self):
        before = sorted(os.listdir("/proc/self/fd"))
        for wrong in (0, 1, 2, True, 2.5, [1], (1,), {1}):
            for name, call in self.CALLS.items():
                is_list = name in ("a step", "a judgement") and isinstance(wrong, (list, tuple))
                kind = "int" if is_list else type(wrong).__name__
                with self.subTest(call=name, given=wrong), self.assertRaisesRegex(TypeError, f"not {kind}\\b"):
                    call(wrong)
        self.assertEqual(sorted(os.listdir("/proc/self/fd")), before)

    def test_what_is_wanted_is_said(self):
        with self.assertRaisesRegex(TypeError, "did you mean resolution=20"):
            Machine(20)
        with self.assertRaisesRegex(TypeError, r"the trace \(after the source and the target\) as bytes"):
            nanobot.judge(WAIT, HOUSE, None)
        with Machine(resolution=2) as machine:
            with self.assertRaisesRegex(TypeError, "nanobot.asm makes bytes of a text"):
                machine.step("Wait")
            for wrong in ((1, 1), (1.5, 1, 1), "111", 5):
                with self.assertRaisesRegex(TypeError, "three whole numbers"):
                    machine.full(wrong)

    def test_none(self):
        may_be_none = {"judge, source", "judge, target", "plan_layer", "plan_group", "plan_crew"}
        for name, call in self.CALLS.items():
            if name not in may_be_none:
                with self.subTest(call=name), self.assertRaises(TypeError):
                    call(None)


class Handles(unittest.TestCase):
    def test_a_machine_that_is_started_again(self):
        machine, sizes = Machine(HOUSE), []
        for count in range(401):
            machine.__init__(HOUSE)
            if count % 200 == 0:
                with open("/proc/self/statm", encoding="ascii") as file:
                    sizes.append(int(file.read().split()[1]))
        self.assertLess(sizes[2] - sizes[1], 500, "pages more after 200 starts")
        self.assertRaises(ValueError, machine.__init__, resolution=0)
        self.assertEqual(machine.state.resolution, 20)
        machine.__init__(resolution=3)
        self.assertEqual((machine.state.resolution, machine.count()), (3, 0))
        machine.close()

    def test_a_closed_machine(self):
        machine = Machine(resolution=2)
        machine.close()
        machine.close()
        for call in (lambda: machine.step(WAIT), machine.undo, machine.bots, machine.model, lambda: machine.full((0, 0, 0))):
            self.assertRaises(nanobot.Closed, call)

    def test_no_machine_is_pickled(self):
        with Machine(resolution=2) as machine:
            self.assertRaises(TypeError, pickle.dumps, machine)

    def test_out_of_space(self):
        with Machine(resolution=2) as machine:
            for at in ((2, 0, 0), (0, 65536, 0), (0, 0, 2**32 - 1), (0, 0, 2**32), (-1, 0, 0)):
                self.assertRaises(nanobot.OutOfSpace, machine.full, at)
                self.assertRaises(nanobot.OutOfSpace, machine.level, at)
            self.assertEqual(Coord(1, 2, 3).y, 2)


class Versions(unittest.TestCase):
    def test_the_library_is_that_of_the_package(self):
        self.assertEqual(nanobot.version(), nanobot.__version__)


class Rows(unittest.TestCase):
    def test_a_text_is_read_and_spelled(self):
        self.assertEqual(nanobot.asm("SMove <0,0,1>\nHalt # done\n"), MOVE + HALT)
        self.assertEqual(nanobot.dis(MOVE + HALT), "SMove <0,0,1>\nHalt\n")
        self.assertEqual((nanobot.asm(b""), nanobot.dis(b"")), (b"", ""))
        self.assertEqual((nanobot.count_commands(SPLIT + WAIT + WAIT), nanobot.count_commands(b"")), (3, 0))
        with self.assertRaises(nanobot.BadCommands) as bad:
            nanobot.count_commands(b"\xfe\x04")
        self.assertEqual(bad.exception.offset, 1)
        with self.assertRaises(nanobot.Refused) as caught:
            nanobot.asm("Wait\nStop\n")
        self.assertEqual((caught.exception.status, caught.exception.line), (8, "text 2 UnknownWord line 2"))
        with self.assertRaises(nanobot.Refused) as caught:
            nanobot.dis(b"\xfe\x04")
        self.assertEqual((caught.exception.status, caught.exception.line), (4, "trace bad at 1"))

    @unittest.skipUnless(os.path.exists(HOUSE), "there are no examples")
    def test_a_trace_step_by_step_costs_what_it_is_judged_to_cost(self):
        plan = nanobot.plan_low(HOUSE)
        cost = nanobot.judge(None, HOUSE, plan)
        with Machine(resolution=nanobot.Machine(HOUSE).state.resolution) as machine:
            at = 0
            while machine.state.active:
                size = 1
                while True:
                    try:
                        machine.step(plan[at : at + size])
                        break
                    except (nanobot.BadCommands, nanobot.WrongCount):
                        size += 1
                at += size
            self.assertEqual((machine.energy, machine.steps, at), (cost.energy, cost.steps, len(plan)))


class Plans(unittest.TestCase):
    PLAN = b"\xfe" * 200_000 + b"\xff"

    def plan(self, *given):
        """Replaces a planner of the library: a plan of more bytes than a small buffer has."""
        *_, buffer, room, size = given
        self.calls += 1
        size._obj.value = len(self.PLAN)
        if room < len(self.PLAN):
            return lib.TOO_SMALL
        buffer[: len(self.PLAN)] = self.PLAN
        return lib.DONE

    def test_a_large_plan_is_made_once(self):
        self.calls = 0
        with unittest.mock.patch.object(lib.library, "plan_crew", self.plan, create=True):
            self.assertEqual(nanobot.plan_crew(None, HOUSE), self.PLAN)
        self.assertEqual(self.calls, 1)

    def test_a_plan_for_which_the_system_gives_little_memory(self):
        self.calls, mapped = 0, mmap.mmap

        def refuse(number, room, **options):
            if room > 150_000:
                raise OSError(errno.ENOMEM, "out of memory")
            return mapped(number, room, **options)

        with unittest.mock.patch.object(lib.library, "plan_crew", self.plan, create=True), unittest.mock.patch("mmap.mmap", refuse):
            self.assertRaises(MemoryError, nanobot.plan_crew, None, HOUSE)
        self.assertEqual(self.calls, 1)


class StepsOfTraces(unittest.TestCase):
    def test_a_profile_is_one_pass(self):
        for plan, source, target in (
            (nanobot.plan_crew(None, HOUSE), None, HOUSE),
            (nanobot.plan_void(HOUSE), HOUSE, None),
            (nanobot.plan_layer(HOUSE, None), HOUSE, None),
        ):
            cost, made = nanobot.judge(source, target, plan), list(nanobot.steps(source, plan, resolution=None if source else 20))
            self.assertEqual((len(made), made[-1].energy, sum(it.cost for it in made)), (cost.steps, cost.energy, cost.energy))
            self.assertEqual(sum(it.filled for it in made) - sum(it.voided for it in made), 388 if target else -388)
            self.assertEqual(b"".join(bytes(order.command) for it in made for order in it.orders), plan)
            self.assertEqual(made[-1].active, 0)

    def test_fills_and_voids_in_one_step(self):
        # voids the full voxel 1 0 1, fills the void voxel 0 0 1, and fills what is full
        for first, second, changed in (
            (nanobot.Fill(0, 0, 1), nanobot.Void(0, 0, 1), (1, 1)),
            (nanobot.Void(0, 0, 1), nanobot.Fill(0, 0, 1), (0, 0)),
            (nanobot.Void(0, 0, 1), nanobot.Void(0, 0, 1), (0, 1)),
            (nanobot.Fill(0, 0, 1), nanobot.Fill(0, 0, 1), (1, 0)),
        ):
            trace = FLIP + bytes(nanobot.Fission((1, 0, 0), 1)) + bytes(first) + bytes(second)
            with self.assertRaises(nanobot.BrokenRule) as caught:
                for step in nanobot.steps(b"\x03\x00\x04\x00\x00", trace):
                    last = step
            self.assertEqual(((last.filled, last.voided), last.high, caught.exception.name), (changed, True, "TraceEnds"))

    def test_from_a_later_step_on(self):
        trace = WAIT + FILL_BESIDE + FLIP + FLIP + HALT
        for first in range(1, 7):
            made = list(nanobot.steps(None, trace + WAIT, resolution=4, first=first))
            self.assertEqual([it.number for it in made], list(range(first, 6)))
            self.assertEqual(made, list(nanobot.steps(None, trace, resolution=4))[first - 1 :])
        for trace, kind in ((WAIT + FILL_ABOVE, "Ungrounded"), (WAIT, "TraceEnds"), (SPLIT + WAIT, "TraceEnds")):
            with self.assertRaises(nanobot.BrokenRule) as caught:
                list(nanobot.steps(None, trace, resolution=4, first=9))
            self.assertEqual((caught.exception.name, caught.exception.step), (kind, 2))
        self.assertRaises(nanobot.BadCommands, list, nanobot.steps(None, WAIT + b"\x04", resolution=4, first=9))

    def test_a_step_that_is_refused(self):
        made = []
        with self.assertRaises(nanobot.BrokenRule) as caught:
            made.extend(nanobot.steps(None, WAIT + FILL_ABOVE, resolution=4))
        self.assertEqual((caught.exception.rule, caught.exception.step), (12, 2))
        self.assertRaises(nanobot.BadCommands, list, nanobot.steps(None, WAIT + b"\x04", resolution=4))
        self.assertRaises(TypeError, list, nanobot.steps(None, WAIT))


if __name__ == "__main__":
    unittest.main()
