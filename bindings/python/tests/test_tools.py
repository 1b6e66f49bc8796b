"""Tests of the tools over small traces, and of a walk in a terminal. `scripts/try explain` of the repository breaks each rule by each
command that can break it."""

import io
import os
import pty
import signal
import subprocess
import sys
import tempfile
import unittest

import nanobot
from nanobot.explain import explain
from nanobot.progress import Progress
from nanobot.walk import Walk

HERE = os.path.dirname(os.path.dirname(os.path.abspath(__file__)))
# The empty model of resolution 3, and the one with the voxel (1,0,1).
E3, P3 = b"\x03\x00\x00\x00\x00", b"\x03\x00\x04\x00\x00"
# SMove <1,0,0>, Fill <0,0,1>, SMove <-1,0,0>, Halt: it builds P3
POST = b"\x14\x10\x73\x14\x0e\xff"


def setUpModule():
    # A script ignores SIGINT for what it starts in the background, and that is inherited.
    signal.signal(signal.SIGINT, signal.default_int_handler)


def lines(source, target, trace):
    return list(explain(source, target, trace))


class Explaining(unittest.TestCase):
    def test_an_accepted_trace(self):
        self.assertEqual(lines(E3, P3, POST), ["ok energy 420 steps 4"])

    def test_both_groups_of_an_interference(self):
        result = lines(E3, P3, b"\x75\x05\x73\xfe")
        self.assertEqual(result[0], "broken 11 Interference step 2 bid 1 at 0 0 1")
        self.assertEqual(result[1], "step 2 begins at byte 2, with 2 commands for 2 bots")
        self.assertEqual(
            result[2:],
            [
                "the group of bot 1 uses 0 0 1:",
                "  byte 2: bot 1 at 0 0 0: Fill <0,0,1>",
                "the group of bot 2 uses 0 0 1:",
                "  byte 3: bot 2 at 0 0 1: Wait",
            ],
        )

    def test_a_voxel_that_floats(self):
        result = lines(E3, P3, b"\xfe\x83")
        self.assertEqual(result[0], "broken 12 Ungrounded step 2 bid 0 at 0 1 0")
        self.assertEqual(result[3], "  byte 1: bot 1 at 0 0 0: Fill <0,1,0>")

    def test_a_bad_byte(self):
        result = lines(E3, P3, b"\xfe\x04\xfe")
        self.assertEqual(result, ["trace bad at 1", "the command at byte 1 is none: fe [04] fe", "it is that of bot 1 in step 2, which begins at byte 1"])

    def test_a_trace_that_ends(self):
        result = lines(E3, P3, POST[:2])
        self.assertEqual(result[0], "broken 1 TraceEnds step 2 bid 1 at 1 0 0")

    def test_a_wrong_result(self):
        result = lines(E3, P3, b"\xff")
        self.assertEqual(result[0], "broken 14 WrongResult step 1 bid 0 at 1 0 1")
        self.assertEqual(result[1:], ["1 voxels differ from the target; the least:", "  1 0 1 is void, wanted: full"])
        self.assertEqual(lines(E3, None, POST)[2:], ["  1 0 1 is full, wanted: void"])

    def test_bad_bytes_behind_a_broken_step(self):
        # Flip, Halt under High, and then a byte that begins no command
        result = lines(E3, P3, b"\xfd\xff\x03")
        self.assertEqual(result[0], "trace bad at 2")
        self.assertEqual(result[1:], ["the command at byte 2 is none: fd ff [03]", "before it, at byte 1: broken 4 HaltLow step 2 bid 1 at 0 0 0"])

    def test_cut_bytes_behind_a_halt(self):
        result = lines(E3, P3, b"\xff\x14")
        self.assertEqual(result[0], "trace cut at 1")
        self.assertEqual(result[1:], ["the command at byte 1 is cut: ff [14]", "before it the last bot halts in step 1, which ends at byte 1"])

    def test_words_that_are_not_understood(self):
        for words in (["explain", "-", "-", "b"], ["walk", "light", "-", "-", "b"], ["explain", "-", "t"], ["judge", "-", "t", "b"]):
            ran = subprocess.run([sys.executable, "-m", "nanobot", *words], cwd=HERE, stdin=subprocess.DEVNULL, capture_output=True, check=False)
            self.assertEqual((ran.returncode, ran.stdout), (2, b""))

    def test_models_that_are_refused(self):
        self.assertEqual(lines(P3[:3], None, POST), ["source 3 Short want 5 have 3"])
        self.assertEqual(lines(E3, P3[:3], POST), ["target 3 Short want 5 have 3"])
        self.assertEqual(lines(E3, b"\x01\x00", POST), ["resolutions 3 1"])

    def test_a_group_that_lacks_a_bot(self):
        # both bots are to fill the line from 1 0 1 to 3 0 1, and the second one names a shorter one
        trace = nanobot.asm("Fission <1,0,0> 1\nWait\nSMove <3,0,0>\nGFill <1,0,1> <2,0,0>\nGFill <-1,0,1> <-1,0,0>\n")
        result = lines(b"\x05" + bytes(16), None, trace)
        self.assertEqual(result[0], "broken 10 GroupShape step 3 bid 1 at 0 0 0")
        self.assertEqual(
            result[5:],
            [
                "the corner 3 0 1 has no bot",
                "bots near such a corner, or with a region that meets this one:",
                "  byte 9: bot 2 at 4 0 0: GFill <-1,0,1> <-1,0,0>",
            ],
        )

    def test_the_first_voxel_that_the_target_has_not(self):
        target = nanobot.Model.from_voxels(5, [(1, 0, 1)])
        good = [nanobot.Wait()] * 3 + [nanobot.SMove(1, 0, 0), nanobot.Fill(0, 0, 1)]
        for voxel, at in ((nanobot.Fill(1, 0, 0), "2 0 0"), (nanobot.Fill(0, 0, 1), None)):
            trace = b"".join(map(bytes, [*good, voxel, *[nanobot.Wait()] * 9, nanobot.Fill(0, 1, 0)]))
            hint = [line for line in lines(None, target, trace) if line.startswith("since")]
            self.assertEqual(hint, [f"since step 6 the voxel {at} is full, which is void in the target"] if at else [])
        # what the source has is no mistake
        self.assertEqual([it for it in lines(target, None, b"\xfe\x83") if it.startswith("since")], [])

    def test_what_follows_a_halt(self):
        result = lines(P3, P3, b"\xff\xfe")
        self.assertEqual(result[1], "the last bot halts in step 1, and 1 bytes are left from byte 1 on")


class Walking(unittest.TestCase):
    def walk(self, *commands, trace=POST):
        said = io.StringIO()
        walk = Walk(E3, P3, trace, stdout=said)
        for command in commands:
            walk.onecmd(command)
        walk.machine.close()
        return said.getvalue().splitlines()

    def test_there_and_back(self):
        self.assertEqual(
            self.walk("step 2", "voxel 1 0 1", "back", "voxel 1 0 1", "to 4", "to 0"),
            [
                "step 2 energy 216 bots 1 low",
                "full level 0",
                "step 1 energy 103 bots 1 low",
                "void",
                "step 4 energy 420 bots 0 low",
                "step 0 energy 0 bots 1 low",
            ],
        )

    def test_to_the_broken_step(self):
        said = self.walk("broken", "bots", trace=b"\xfe\x83")
        self.assertEqual(said[0], "broken 12 Ungrounded step 2 bid 0 at 0 1 0")
        self.assertEqual(said[-2:], ["step 1 energy 101 bots 1 low", "  byte 1: bot 1 at 0 0 0: Fill <0,1,0>"])

    def test_a_run_that_ends_and_is_refused(self):
        # P3 has the voxel 1 0 1, and no command fills it; a Wait follows the Halt
        self.assertEqual(self.walk("broken", trace=b"\xff")[:2], ["ended", "broken 14 WrongResult step 1 bid 0 at 1 0 1"])
        self.assertEqual(self.walk("broken", trace=b"\xff\xfe")[:2], ["ended", "broken 13 AfterHalt step 1 bid 0 at 0 0 0"])
        self.assertEqual(self.walk("broken")[0], "ended")

    def test_bytes_that_are_no_commands(self):
        for command in ("step", "bots", "groups"):
            self.assertEqual(self.walk(command, trace=b"\x03")[0], "no command at byte 0")

    def test_a_layer(self):
        self.assertEqual(self.walk("step 2", "layer 0")[1:], [".o.", ".#.", "..."])

    def test_words_that_are_not_understood(self):
        said = self.walk("step x", "voxel 1", "voxel 9 9 9", "to", "layer 3")
        self.assertEqual(said, ["that is no number", "voxel X Y Z", "9 9 9 is out of space", "that is no number", "y is 0 to 2"])

    def test_past_the_notes(self):
        trace = b"\xfe" * 4200 + b"\xff"
        said = self.walk("to 4200", "to 3", "step", trace=trace)
        self.assertEqual(said, ["step 4200 energy 424200 bots 1 low", "step 3 energy 303 bots 1 low", "step 4 energy 404 bots 1 low"])

    def test_an_interrupt_ends_quietly(self):
        with tempfile.TemporaryDirectory() as folder:
            name = os.path.join(folder, "b")
            with open(name, "wb") as file:
                file.write(POST)
            words = [sys.executable, "-m", "nanobot", "walk", "-", os.path.join(folder, "t"), name]
            with open(words[5], "wb") as file:
                file.write(P3)
            with subprocess.Popen(words, cwd=HERE, stdin=subprocess.PIPE, stdout=subprocess.PIPE, stderr=subprocess.PIPE) as ran:
                ran.stdin.write(b"step\n")
                ran.stdin.flush()
                self.assertEqual(ran.stdout.readline(), b"step 1 energy 103 bots 1 low\n")
                ran.send_signal(signal.SIGINT)
                _, errors = ran.communicate(timeout=60)
        self.assertEqual((ran.returncode, errors), (-signal.SIGINT, b""))

    def test_progress(self):
        shown = io.StringIO()
        shown.isatty = lambda: True
        progress = Progress("walk", 200, shown)
        progress.show(10)
        self.assertEqual(shown.getvalue(), "")
        progress._due = 0
        progress.show(50)
        progress.clear()
        self.assertEqual(shown.getvalue(), "\rwalk: 25 %\r          \r")

    def test_in_a_terminal(self):
        with tempfile.TemporaryDirectory() as folder:
            names = [os.path.join(folder, name) for name in ("s", "t", "b")]
            for name, data in zip(names, (E3, P3, POST)):
                with open(name, "wb") as file:
                    file.write(data)
            own, other = pty.openpty()
            words = [sys.executable, "-m", "nanobot", "walk", *names]
            with subprocess.Popen(words, cwd=HERE, stdin=other, stdout=other, stderr=other, env={**os.environ, "TERM": "dumb"}) as ran:
                os.close(other)
                # A tab completes the word.
                os.write(own, b"ste\t 2\nquit\n")
                said = all_of(own)
            os.close(own)
        self.assertIn("energy 216", said)
        self.assertEqual(ran.returncode, 0)


def all_of(terminal):
    """What is written to a terminal until its last writer ends."""
    said = b""
    while True:
        try:
            part = os.read(terminal, 4096)
        except OSError:
            return said.decode()
        if not part:
            return said.decode()
        said += part


if __name__ == "__main__":
    unittest.main()
