"""The tools that call the program: `judge` and `contest`, with a program of their own that answers by the names of its
files."""

import io
import json
import os
import signal
import subprocess
import sys
import tempfile
import time
import unittest
from contextlib import redirect_stderr, redirect_stdout
from pathlib import Path
from unittest.mock import patch

from nanobot.__main__ import run
from nanobot.tools.judge import Run, runs_of
from nanobot.tools.program import program

HERE = Path(__file__).resolve().parents[1]
PROGRAM = """#!/bin/sh
for last; do :; done
case $last in
*slow*) exec sleep 60 ;;
*bad*) echo 'broken 4 HaltLow step 3 bid 1 at 0 0 0'; exit 1 ;;
*.mdl) echo 'legal resolution 3 full 1' ;;
*) echo 'ok energy 420 steps 4' ;;
esac
"""


def setUpModule():
    # A script ignores SIGINT for what it starts in the background, and that is inherited.
    signal.signal(signal.SIGINT, signal.default_int_handler)


class Tools(unittest.TestCase):
    def setUp(self):
        folder = tempfile.TemporaryDirectory()
        self.addCleanup(folder.cleanup)
        self.folder = Path(folder.name)
        self.program = self.folder / "nanobot"
        self.program.write_text(PROGRAM)
        self.program.chmod(0o755)
        environment = patch.dict(os.environ, NANOBOT=str(self.program))
        environment.start()
        self.addCleanup(environment.stop)

    def said(self, *words, stdin=""):
        """The status, the output and the standard error of a tool."""
        out, errors = io.StringIO(), io.StringIO()
        with redirect_stdout(out), redirect_stderr(errors), patch(
            "sys.stdin", io.TextIOWrapper(io.BytesIO(stdin.encode()))
        ):
            try:
                status = run([str(word) for word in words])
            except SystemExit as ended:
                status = ended.code
        return status, out.getvalue(), errors.getvalue()

    def test_a_table_in_the_order_of_the_lines(self):
        status, out, _ = self.said("judge", stdin="# mine\n- t.mdl a.nbt\r\n\n- t.mdl bad.nbt\nt.mdl - b.nbt\n")
        lines = [line.split() for line in out.splitlines()]
        self.assertEqual(
            (status, lines[1], lines[3], lines[4]),
            (1, ["420", "4", "a.nbt"], ["420", "4", "b.nbt"], ["840", "2", "of", "3", "accepted"]),
        )
        self.assertTrue(out.splitlines()[2].endswith("  bad.nbt: broken 4 HaltLow step 3 bid 1 at 0 0 0"))
        self.assertEqual(
            self.said("judge")[:2], (0, f"{'energy':>18} {'steps':>10}  trace\n{0:>18} {'':>10}  0 of 0 accepted\n")
        )

    def test_records(self):
        status, out, _ = self.said("judge", "--json", stdin="- t a\n- t bad\n")
        found = json.loads(out)
        self.assertEqual(
            (status, found[0]["energy"], found[1]["energy"], found[1]["line"][:6]), (1, 420, None, "broken")
        )
        self.assertEqual(
            self.said("judge", "--csv", stdin="- t a\n")[1].splitlines()[1], "a,-,t,420,4,,ok energy 420 steps 4"
        )

    def test_a_run_that_takes_too_long_is_stopped(self):
        status, out, _ = self.said("judge", "2", "--seconds", "3", stdin="- t slow\n- t a\n")
        self.assertEqual(status, 1)
        self.assertIn("  slow: stopped after 3 s\n", out)
        self.assertIn("1 of 2 accepted", out)

    def test_wrong_arguments(self):
        wrong = [
            (["0"], ""),
            (["1000"], ""),
            (["--seconds", "x"], ""),
            (["--second", "1"], ""),
            (["--hosts", "nowhere"], ""),
            ([], "a b\n"),
            ([], "a b 'c'\n"),
        ]
        for words, stdin in wrong:
            status, out, errors = self.said("judge", *words, stdin=stdin)
            self.assertEqual((status, out, errors.count("\n")), (2, "", 1), words)

    def test_no_program(self):
        self.program.chmod(0o644)
        self.assertEqual(self.said("judge", stdin="- t a\n")[0], 12)

    def test_the_program_of_an_installation(self):
        real = self.folder / "lib/nanobot/nanobot"
        real.parent.mkdir(parents=True)
        (self.folder / "bin").mkdir()
        for path in (real, self.folder / "bin/nanobot"):
            path.write_text(PROGRAM)
            path.chmod(0o755)
        with patch.dict(os.environ, NANOBOT="", PATH=str(self.folder / "bin")):
            self.assertEqual(program(), str(real.resolve()))
            real.unlink()
            self.assertEqual(program(), str(self.folder / "bin/nanobot"))

    def test_lines(self):
        self.assertEqual(runs_of("a\tb  c \n"), [Run("a", "b", "c")])
        with self.assertRaisesRegex(ValueError, "no line SOURCE TARGET TRACE"):
            runs_of("a b " + "c" * 4096)

    def test_a_signal_ends_the_runs(self):
        ended = self.folder / "pid"
        self.program.write_text(f"#!/bin/sh\necho $$ > '{ended}'\nexec sleep 60\n")
        for number in (signal.SIGTERM, signal.SIGINT):
            with subprocess.Popen(
                [sys.executable, "-m", "nanobot", "judge"], cwd=HERE, stdin=subprocess.PIPE, stderr=subprocess.PIPE
            ) as child:
                child.stdin.write(b"- t a\n")
                child.stdin.close()
                while not ended.exists() or not ended.read_text().strip():
                    time.sleep(0.01)
                child.send_signal(number)
                self.assertEqual(child.stderr.read(), b"")
            self.assertIn(child.returncode, (128 + number, -number))
            self.assertRaises(ProcessLookupError, os.kill, int(ended.read_text()), 0)
            ended.unlink()

    def test_the_contest(self):
        models, mine, other = (self.folder / name for name in ("models", "mine", "other one"))
        for folder in (models, mine, other):
            folder.mkdir()
        for name in ("FA001_tgt.mdl", "FR002_src.mdl", "FR002_tgt.mdl", "bad.mdl"):
            (models / name).touch()
        for path in (mine / "FA001.nbt", other / "FA001.nbt", mine / "FR002.nbt"):
            path.touch()
        status, out, _ = self.said("contest", models, mine, other)
        self.assertEqual(status, 1)
        self.assertEqual(
            out.splitlines()[:2], ["bad.mdl: broken 4 HaltLow step 3 bid 1 at 0 0 0", "3 of 4 models are legal"]
        )
        for shown in (f"  {mine}/FA001.nbt\n", f"  {other}/FA001.nbt\n", "  FR002.nbt\n", "3 of 3 accepted\n"):
            self.assertIn(shown, out)
        found = json.loads(self.said("contest", "--json", models, mine)[1])
        self.assertEqual(
            [(it["model"], it["trace"] and Path(it["trace"]).name, it["energy"]) for it in found],
            [("bad.mdl", None, None), (None, "FA001.nbt", 420), (None, "FR002.nbt", 420)],
        )

    def test_wrong_folders(self):
        for name in ("one", "two"):
            (self.folder / name).mkdir()
            (self.folder / name / "FA001_tgt.mdl").write_text(name)
        for words in ([], ["nowhere"], [self.program], [self.folder / "one", self.folder / "two"]):
            status, out, errors = self.said("contest", *words)
            self.assertEqual((status, out, errors.count("\n")), (2, "", 1), words)
        (self.folder / "empty").mkdir()
        self.assertIn("no model there", self.said("contest", self.folder / "empty")[2])


if __name__ == "__main__":
    unittest.main()
