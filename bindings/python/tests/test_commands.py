"""Tests of the commands as values, against the library's own reader and printer of texts."""

import itertools
import unittest

import nanobot
from nanobot import BadCommands, Fill, Fission, Flip, FusionP, FusionS, GFill, GVoid, Halt, LMove, SMove, Void, Wait, commands, read_commands

# Each with its bytes, as docs/FORMATS.md has them.
WORKED = [
    (SMove(12, 0, 0), "141b", "SMove <12,0,0>"),
    (SMove(0, 0, -4), "340b", "SMove <0,0,-4>"),
    (LMove((3, 0, 0), (0, -5, 0)), "9c08", "LMove <3,0,0> <0,-5,0>"),
    (LMove((0, -2, 0), (0, 0, 2)), "ec73", "LMove <0,-2,0> <0,0,2>"),
    (FusionP(-1, 1, 0), "3f", "FusionP <-1,1,0>"),
    (FusionS(1, -1, 0), "9e", "FusionS <1,-1,0>"),
    (Fission((0, 0, 1), 5), "7505", "Fission <0,0,1> 5"),
    (Fill(0, -1, 0), "53", "Fill <0,-1,0>"),
    (Void(1, 0, 1), "ba", "Void <1,0,1>"),
    (GFill((0, -1, 0), (10, -15, 20)), "51280f32", "GFill <0,-1,0> <10,-15,20>"),
    (GVoid((1, 0, 0), (5, 5, -5)), "b0232319", "GVoid <1,0,0> <5,5,-5>"),
    (Halt(), "ff", "Halt"),
    (Wait(), "fe", "Wait"),
    (Flip(), "fd", "Flip"),
]


class Spelling(unittest.TestCase):
    def test_worked_commands(self):
        for command, spelled, text in WORKED:
            data = bytes.fromhex(spelled)
            self.assertEqual((bytes(command), str(command), list(read_commands(data))), (data, text, [command]))
            self.assertEqual(nanobot.asm(text), data)

    def test_all_bytes_as_the_library_reads_them(self):
        tails = {1: [b""], 2: [bytes([byte]) for byte in range(256)], 4: [bytes(it) for it in itertools.product((0, 29, 30, 60, 61), repeat=3)]}
        good = []
        for head in range(256):
            for tail in tails[commands.SIZES[head]]:
                data = bytes([head]) + tail
                try:
                    good.append(commands.command_at(data))
                except BadCommands:
                    self.assertRaises(BadCommands, nanobot.count_commands, data)
        text = "".join(f"{command}\n" for command in good)
        data = b"".join(map(bytes, good))
        self.assertEqual(nanobot.dis(data), text)
        self.assertEqual(list(read_commands(data)), good)
        self.assertGreater(len(good), 5000)

    def test_bytes_that_are_cut(self):
        for data in (b"\x14", b"\x75", b"\x51\x28\x0f"):
            with self.assertRaises(BadCommands) as caught:
                list(read_commands(b"\xfe" + data))
            self.assertEqual(caught.exception.offset, 1)


class Making(unittest.TestCase):
    def test_numbers_that_no_command_has(self):
        for make in (
            lambda: SMove(0, 0, 16), lambda: SMove(0, 0, 0), lambda: SMove(1, 1, 0), lambda: LMove((6, 0, 0), (1, 0, 0)),
            lambda: Fill(1, 1, 1), lambda: Void(0, 0, 0), lambda: FusionP(2, 0, 0), lambda: Fission((0, 0, 1), 256),
            lambda: Fission((0, 0, 1), -1), lambda: GFill((0, 0, 1), (31, 0, 0)), lambda: GVoid((0, 0, 1), (0, 0, 0)),
        ):
            self.assertRaises(ValueError, make)

    def test_what_is_no_number(self):
        for make in (
            lambda: SMove(0, 0, 2.0), lambda: SMove(0, 0, "2"), lambda: Fill(0, 0, True), lambda: LMove((1, 0), (1, 0, 0)),
            lambda: LMove(1, 2), lambda: GFill((0, 0, 1), 5), lambda: Fission(1, 5), lambda: Fission((0, 0, 1), None),
        ):
            self.assertRaises(TypeError, make)

    def test_values(self):
        self.assertEqual(len({SMove(0, 0, 2), SMove(0, 0, 2), Fill(0, 0, 1), Void(0, 0, 1)}), 3)
        self.assertEqual(repr(SMove(0, 0, 2)), "SMove(dx=0, dy=0, dz=2)")
        self.assertEqual((Fission((0, 0, 1), 5).seeds, Wait().differences, GFill((0, 0, 1), (2, 0, 0)).word), (5, (), "GFill"))


if __name__ == "__main__":
    unittest.main()
