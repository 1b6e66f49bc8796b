"""Tests of models: both forms of a file, and the voxels as a set."""

import os
import random
import tempfile
import time
import unittest

import nanobot
from nanobot import Coord, Model

# (1,0,1) is full at resolution 3: place 10, bit 2 of the second byte of voxels
P3 = b"\x03\x00\x04\x00\x00"


def wide(*runs, resolution=251):
    return b"\xff" + resolution.to_bytes(2, "big") + b"".join(run.to_bytes(4, "big") for run in runs)


class Reading(unittest.TestCase):
    def test_the_first_form(self):
        model = Model.from_bytes(P3)
        self.assertEqual((model.resolution, list(model.full), bytes(model)), (3, [(1, 0, 1)], P3))
        # bits that belong to no voxel are ignored, and written as 0
        self.assertEqual(bytes(Model.from_bytes(b"\x01\xfe")), b"\x01\x00")

    def test_the_wide_form(self):
        whole = 251**3
        for runs, voxels in (
            ((63002, 1, whole - 63003), [(1, 0, 1)]),
            ((whole,), []),
            ((0, 3, whole - 4, 1), [(0, 0, 0), (0, 0, 1), (0, 0, 2), (250, 250, 250)]),
        ):
            data = wide(*runs)
            model = Model.from_bytes(data)
            self.assertEqual((model.resolution, list(model.full), bytes(model)), (251, voxels, data))
            self.assertEqual(Model.from_voxels(251, voxels), model)

    def test_bytes_that_are_refused_as_the_library_refuses_them(self):
        whole, refused = 251**3, []
        with nanobot.Machine(resolution=1) as machine:
            for data in (
                b"", b"\x00", b"\xfb\x00", b"\x03\x00", P3 + b"\x00", b"\xff\x00", b"\xff\x00\xfa", b"\xff\x01\x91",
                wide(5, 0), wide(whole + 1), wide(0, 0), wide(7, 5), wide(7, 5) + b"\x00\x00", wide(whole) + b"\x00",
            ):
                with self.assertRaises(nanobot.RefusedModel) as own:
                    Model.from_bytes(data)
                with self.assertRaises(nanobot.RefusedModel) as proved:
                    machine.difference(data)
                self.assertEqual(own.exception.args, proved.exception.args)
                refused.append(own.exception.number)
        self.assertEqual(set(refused), {1, 2, 3, 4, 8, 9, 10, 11, 12})

    def test_files(self):
        with tempfile.TemporaryDirectory() as folder:
            name = os.path.join(folder, "a model")
            Model.from_bytes(P3).write(name)
            self.assertEqual(Model.read(name), Model.from_bytes(P3))
            with nanobot.Machine(name) as machine:
                self.assertEqual(machine.matrix(), Model.read(name))
        for wrong in (3, P3, None):
            self.assertRaises(TypeError, Model.read, wrong)

    def test_random_models_are_those_of_the_library(self):
        dice = random.Random(7)
        for r in (1, 2, 5, 20, 249, 250, 251, 300):
            voxels = {tuple(dice.randrange(r) for _ in range(3)) for _ in range(dice.randrange(300))}
            model = Model.from_voxels(r, voxels)
            self.assertEqual((set(model.full), len(model.full)), (voxels, len(voxels)))
            with nanobot.Machine(resolution=r) as machine:
                self.assertEqual(machine.differences(model), len(voxels))
                self.assertEqual(machine.difference(model), min(voxels, default=None))
            self.assertEqual(Model.from_bytes(bytes(model)), model)


class Voxels(unittest.TestCase):
    def test_a_set(self):
        full = Model.from_voxels(4, [(3, 0, 0), (0, 1, 2)]).full
        self.assertEqual((list(full), len(full)), ([(0, 1, 2), (3, 0, 0)], 2))
        self.assertTrue((0, 1, 2) in full and Coord(3, 0, 0) in full)
        self.assertFalse((1, 1, 1) in full or (4, 0, 0) in full or "x" in full)
        self.assertEqual((full - {(3, 0, 0)}, full & {(3, 0, 0)}), ({(0, 1, 2)}, {(3, 0, 0)}))
        self.assertEqual(full, {(0, 1, 2), (3, 0, 0)})
        self.assertIsInstance(next(iter(full)), Coord)

    def test_one_voxel(self):
        model = Model.from_bytes(P3)
        self.assertEqual((model[1, 0, 1], model[1, 0, 0]), (True, False))
        for at in ((3, 0, 0), (0, -1, 0)):
            self.assertRaises(nanobot.OutOfSpace, model.__getitem__, at)

    def test_two_models(self):
        one, other = (Model.from_voxels(3, voxels) for voxels in ([(1, 0, 1), (0, 0, 0)], [(1, 0, 1), (2, 2, 2)]))
        self.assertEqual([set((one ^ other).full), set((one & other).full)], [{(0, 0, 0), (2, 2, 2)}, {(1, 0, 1)}])
        self.assertEqual([set((one - other).full), len((one | other).full)], [{(0, 0, 0)}, 3])
        self.assertEqual((one == other, one == Model.from_bytes(bytes(one)), len({one, Model.from_bytes(bytes(one))})), (False, True, 1))
        with self.assertRaises(nanobot.OtherResolution) as caught:
            one ^ Model.empty(4)
        self.assertEqual(caught.exception.args, (3, 4))

    def test_what_is_refused(self):
        self.assertRaises(nanobot.OutOfSpace, Model.from_voxels, 3, [(0, 0, 3)])
        for resolution, error in ((0, ValueError), (401, ValueError), (-1, ValueError), ("3", TypeError), (True, TypeError)):
            self.assertRaises(error, Model.from_voxels, resolution, [])
        self.assertEqual(repr(Model.from_bytes(P3)), "<Model of resolution 3 with 1 full voxels>")

    def test_linear_time(self):
        # 250,000 full voxels at resolution 250 take a quarter of a second of a quiet processor.
        model = Model.from_voxels(250, ((x, y, z) for x in range(1, 101) for y in range(25) for z in range(1, 101)))
        data, began = bytes(model), time.process_time()
        self.assertEqual(sum(1 for _ in Model.from_bytes(data).full), 250_000)
        self.assertLess(time.process_time() - began, 2)


if __name__ == "__main__":
    unittest.main()
