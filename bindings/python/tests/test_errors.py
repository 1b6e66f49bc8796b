"""Errors cross processes: each survives `pickle`, and a pool's worker that raises one does not hang its parent."""

import concurrent.futures
import inspect
import multiprocessing
import pickle
import unittest

import nanobot
from nanobot import Coord, errors

HERE = Coord(1, 2, 3)
EXAMPLES = [
    nanobot.BrokenRule(12, 7, 0, HERE),
    nanobot.Refused(1, "broken 11 Interference step 2 bid 1 at 0 0 1"),
    nanobot.Refused(4, "trace bad at 1"),
    nanobot.BadCommands(5),
    nanobot.WrongCount(2, 1),
    nanobot.NoBot(7, [1, 2]),
    nanobot.Ended("no bot is active any more"),
    nanobot.NothingNoted("no step is noted"),
    nanobot.Begun("steps were made"),
    nanobot.OutOfSpace(HERE),
    nanobot.RefusedModel(3, 5, 3, None),
    nanobot.RefusedModel(6, 0, 0, HERE),
    nanobot.OtherResolution(3, 1),
    nanobot.TooManySteps("no more steps"),
    nanobot.Closed("closed"),
]


def float_a_voxel(_):
    """The work of a pool: a step that breaks rule 12."""
    with nanobot.Machine(resolution=4) as machine:
        machine.step(nanobot.Fill(0, 1, 0))


def refuse_a_trace(_):
    """The work of a pool: a trace that is refused."""
    nanobot.judge(None, b"\x03\x00\x04\x00\x00", b"\xff")


class Pickling(unittest.TestCase):
    def test_there_is_an_example_of_each(self):
        classes = {it for _, it in inspect.getmembers(errors, inspect.isclass) if issubclass(it, nanobot.NanobotError)}
        self.assertEqual({type(it) for it in EXAMPLES}, classes - {nanobot.NanobotError})

    def test_each_is_the_same_afterwards(self):
        for error in EXAMPLES:
            for protocol in range(pickle.HIGHEST_PROTOCOL + 1):
                with self.subTest(error=repr(error), protocol=protocol):
                    copy = pickle.loads(pickle.dumps(error, protocol))
                    self.assertEqual((type(copy), str(copy), copy.args), (type(error), str(error), error.args))
                    fields = {name: str(value) for name, value in vars(error).items()}
                    self.assertEqual({name: str(value) for name, value in vars(copy).items()}, fields)

    def test_pools(self):
        for method in ("fork", "spawn"):
            context = multiprocessing.get_context(method)
            with self.subTest(method=method), context.Pool(2) as pool:
                with self.assertRaises(nanobot.BrokenRule) as caught:
                    pool.map_async(float_a_voxel, range(2)).get(60)
                self.assertEqual((caught.exception.rule, caught.exception.at), (12, (0, 1, 0)))
                with self.assertRaises(nanobot.Refused) as refused:
                    pool.map_async(refuse_a_trace, range(2)).get(60)
                self.assertEqual((refused.exception.status, refused.exception.rule), (1, 14))

    def test_an_executor(self):
        context = multiprocessing.get_context("spawn")
        with concurrent.futures.ProcessPoolExecutor(1, mp_context=context) as pool:
            with self.assertRaises(nanobot.BrokenRule):
                pool.submit(float_a_voxel, 0).result(60)


class Sentences(unittest.TestCase):
    def test_what_they_say(self):
        said = [
            (nanobot.BrokenRule(12, 7, 0, HERE), "broken 12 Ungrounded step 7 bid 0 at 1 2 3"),
            (nanobot.WrongCount(1, 2), "2 commands for 1 active bot"),
            (nanobot.NoBot(7, [1, 2]), "no bot 7 is active; active are 1 2"),
            (nanobot.RefusedModel(3, 1001, 6, None), "model 3 Short want 1001 have 6"),
            (nanobot.RefusedModel(10, 0, 2, None), "model 10 WideRun index 2"),
            (nanobot.RefusedModel(7, 0, 0, HERE), "model 7 Floating at 1 2 3"),
            (nanobot.OtherResolution(3, 1), "resolutions 3 and 1 differ"),
        ]
        for error, line in said:
            self.assertEqual(str(error), line)

    def test_a_refusal_has_the_rule_as_fields(self):
        refused = nanobot.Refused(1, "broken 11 Interference step 2 bid 1 at 0 0 1")
        fields = refused.rule, refused.name, refused.step, refused.bid, refused.at
        self.assertEqual(fields, (11, "Interference", 2, 1, (0, 0, 1)))
        self.assertIsInstance(refused.broken, nanobot.BrokenRule)
        other = nanobot.Refused(4, "trace bad at 1")
        self.assertEqual((other.rule, other.broken, other.at), (None, None, None))


if __name__ == "__main__":
    unittest.main()
