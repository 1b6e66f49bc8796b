"""The tools that compare, profile and make models, on the repository's examples."""

import io
import os
import tempfile
import unittest
from contextlib import redirect_stderr, redirect_stdout
from pathlib import Path

import nanobot
from nanobot.__main__ import run
from nanobot.tools import compare, profile, shapes, steps
from nanobot.tools.cheapest import store

EXAMPLES = Path(__file__).resolve().parents[3] / "examples"
HOUSE, POST = EXAMPLES / "house.mdl", EXAMPLES / "post.mdl"


def said(*words):
    """The status, the output and the standard error of a tool."""
    out, errors = io.StringIO(), io.StringIO()
    with redirect_stdout(out), redirect_stderr(errors):
        status = run([str(word) for word in words])
    return status, out.getvalue(), errors.getvalue()


class TestProfile(unittest.TestCase):
    def assert_adds_up(self, source, target, trace, light=False):
        found = profile.profile(source, target, trace, light=light)
        cost = nanobot.judge(source, target, trace, light=light)
        self.assertEqual((sum(found.energy(found.whole).values()), found.whole.steps), cost)
        return found

    def test_the_energy_by_cause_is_the_judges(self):
        self.assert_adds_up(None, HOUSE, EXAMPLES / "house.nbt")
        self.assert_adds_up(None, POST, EXAMPLES / "post.nbt")
        for plan in (nanobot.plan_layer, nanobot.plan_group, nanobot.plan_crew):
            self.assert_adds_up(None, HOUSE, plan(None, HOUSE))
            self.assert_adds_up(HOUSE, None, plan(HOUSE, None))
        self.assert_adds_up(HOUSE, None, nanobot.plan_void(HOUSE))
        found = self.assert_adds_up(None, HOUSE, nanobot.plan_swarm(HOUSE), light=True)
        self.assertGreater(found.most_bots, 1)

    def test_a_broken_trace_is_counted_up_to_the_broken_step(self):
        found = profile.profile(None, HOUSE, EXAMPLES / "house-left-high.nbt")
        self.assertEqual((found.line.split()[2], found.whole.steps), ("HaltLow", 782))
        self.assertEqual(said("profile", "-", HOUSE, EXAMPLES / "house-left-high.nbt")[0], 1)

    def test_refused_bytes_raise(self):
        with self.assertRaises(nanobot.Refused):
            profile.profile(None, HOUSE, b"\x00")


class TestCompare(unittest.TestCase):
    def setUp(self):
        self.folder = tempfile.TemporaryDirectory()
        self.addCleanup(self.folder.cleanup)
        self.models, self.mine = Path(self.folder.name, "models"), Path(self.folder.name, "mine")
        self.models.mkdir()
        self.mine.mkdir()
        (self.models / "FA001_tgt.mdl").write_bytes(POST.read_bytes())
        (self.models / "FD002_src.mdl").write_bytes(POST.read_bytes())
        (self.mine / "FA001.nbt").write_bytes((EXAMPLES / "post.nbt").read_bytes())

    def test_ratios_winners_and_what_is_missing(self):
        found = compare.compare(compare.problems(self.models), compare.columns_of([str(self.mine)], "layer"))
        self.assertTrue(found.all_accepted)
        mine = found.columns[1]
        self.assertEqual(mine.results["FA001"], nanobot.judge(None, POST, EXAMPLES / "post.nbt"))
        self.assertIsNone(mine.results["FD002"])
        self.assertEqual(found.winners("FD002"), ["layer"])
        self.assertEqual(min(ratio for column in found.columns if (ratio := found.ratio(column, "FA001"))), 1)

    def test_a_refused_trace_is_told_with_its_line(self):
        (self.mine / "FD002.nbt").write_bytes(b"\xff")
        status, out, _ = said("compare", self.models, self.mine)
        self.assertEqual(status, 1)
        self.assertIn("mine, FD002: broken 14 WrongResult", out)
        self.assertIn("FA001", said("compare", self.models, self.mine, "--csv")[1].splitlines()[1])

    def test_a_baseline_gives_the_ratios(self):
        status, out, _ = said("compare", self.models, "--plan", "layer group", "--baseline", self.mine)
        self.assertEqual((status, out.split()[0]), (0, "problem"))

    def test_a_list_of_problems(self):
        (self.models / "list").write_text("# mine\npost - FA001_tgt.mdl\n")
        self.assertEqual([problem.name for problem in compare.problems(self.models / "list")], ["post"])
        (self.models / "list").write_text("post - -\n")
        with self.assertRaisesRegex(ValueError, "line 1"):
            compare.problems(self.models / "list")

    def test_wrong_arguments(self):
        for words in (("compare", self.models), ("compare", self.models, "nowhere"), ("compare", self.mine, self.mine), ("profile", "-", "-", POST)):
            status, _, errors = said(*words)
            self.assertEqual((status, errors.count("\n")), (2, 1), words)


class TestModels(unittest.TestCase):
    def test_shapes_are_legal(self):
        shells = [shapes.box(20, (1, 0, 1), (6, 7, 8)), shapes.box(9, (2, 0, 2), (6, 6, 6), hollow=True), shapes.sphere(20), shapes.sphere(33, hollow=True)]
        for model in (*shells, shapes.sphere(1), shapes.box(20, (3, 2, 3), (9, 9, 9))):
            nanobot.check(model)
        self.assertEqual([len(model.full) for model in shells[:2]], [6 * 8 * 8, 7 * 5 * 5 - 5 * 3 * 3])

    def test_text_and_back(self):
        for path in (HOUSE, POST):
            model = nanobot.Model.read(path)
            self.assertEqual(shapes.model_of("\n".join(shapes.text_of(model))), model)
        for text in ("", "resolution 0", "resolution 3\n#", "resolution 3\ny 0, x from 1, z from 1\n###"):
            with self.assertRaises(ValueError):
                shapes.model_of(text)

    def test_the_commands(self):
        with tempfile.TemporaryDirectory() as folder:
            made, text = Path(folder, "made.mdl"), Path(folder, "made.txt")
            self.assertEqual(said("model", "box", 9, 2, 0, 2, 4, 3, 5, made)[1], "model resolution 9 full 48\n")
            text.write_text(said("layers", made)[1])
            self.assertEqual(said("model", "text", text, Path(folder, "again.mdl"))[0], 0)
            self.assertEqual(Path(folder, "again.mdl").read_bytes(), made.read_bytes())
            self.assertEqual(said("layers", made, 9)[0], 2)


class TestTraces(unittest.TestCase):
    def test_steps_of_a_trace(self):
        lines = list(steps.listed((EXAMPLES / "post.nbt").read_bytes()))
        self.assertEqual(lines[0], "step 1 bid 1 byte 0 command 0 at 0 0 0: SMove <1,0,0>")
        self.assertEqual(len(lines), nanobot.count_commands(EXAMPLES / "post.nbt"))
        self.assertIn("bad or cut", list(steps.listed(b"\xfe\x00"))[-1])
        self.assertIn("no bot is left", list(steps.listed(b"\xff\xfe"))[-1])

    def test_the_cheapest_plan_is_kept(self):
        with tempfile.TemporaryDirectory() as folder:
            kept = Path(folder, "kept.nbt")
            status, out, _ = said("cheapest", "-", POST, kept)
            energies = [int(line.split()[3]) for line in out.splitlines()[:-1]]
            self.assertEqual((status, nanobot.judge(None, POST, kept).energy), (0, min(energies)))

    def test_a_store_that_fails_leaves_the_old_file(self):
        with tempfile.TemporaryDirectory() as folder:
            kept = Path(folder, "kept")
            kept.write_bytes(b"old")
            with self.assertRaises(TypeError):
                store(None, kept)
            self.assertEqual((kept.read_bytes(), os.listdir(folder)), (b"old", ["kept"]))


if __name__ == "__main__":
    unittest.main()
