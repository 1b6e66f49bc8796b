"""Traces judged on other hosts: GNU parallel sends the program and the files there over ssh, and removes them at the
end."""

from __future__ import annotations

import os
import shlex
import shutil
import signal
import subprocess
import tempfile
import time
from contextlib import suppress
from pathlib import Path
from typing import Any, Dict, Iterator, List, Optional, Tuple

from ..progress import Progress
from .judge import Outcome, Run, judge_here
from .program import Unavailable, program

# Makes a run on a host, with the program and the files below the folder that it is started in, or here, if they are not
# there.
ON_A_HOST = r"""below=$PWD; program=./nanobot; [ -x "$program" ] || { below=; program=PROGRAM; }
named() { case $1 in -) echo - ;; *) echo "$below$1" ;; esac; }
said=$(LIMIT"$program" run "$(named {3})" "$(named {4})" "$(named {5})" 2>&1)
status=$?
[ -z "SECONDS" ] || [ $status != 124 ] || said="stopped after SECONDS s"
printf "%s %s %s\n" {1} "$(echo "${PARALLEL_SSHLOGIN:--}" | tr " " _)" "${said:-no answer, status $status}"
"""


class Hosts:
    """Runs on the hosts of a file, `jobs` at a time on each. What was sent is removed at the end of the block."""

    def __init__(self, hosts: Path, jobs: Optional[int], seconds: Optional[int]) -> None:
        for tool in ("parallel", "rsync"):
            if not shutil.which(tool):
                raise ValueError("hosts need GNU parallel and rsync")
        self._hosts, self._jobs, self._seconds = str(hosts.resolve()), jobs, seconds
        self._there = f"nanobot-judge.{os.getpid()}{time.time_ns() % 100_000}"
        self._child: Optional[subprocess.Popen[bytes]] = None

    def __enter__(self) -> Hosts:
        try:
            self._folder = Path(tempfile.mkdtemp(prefix="nanobot-judge."))
        except OSError as fault:
            raise Unavailable(
                f"no temporary folder can be made in {os.environ.get('TMPDIR') or '/tmp'}: {fault.strerror}"
            ) from None
        return self

    def __exit__(self, *_: Any) -> None:
        if self._child is not None:
            self._end(self._child)
            # No --filter-hosts, which leaves out a host that is slow to answer.
            words = [
                "parallel",
                "--will-cite",
                "--sshloginfile",
                self._hosts,
                "--timeout",
                "30",
                "--nonall",
                f"cd && rm -rf {self._there}",
            ]
            subprocess.run(
                words, stdin=subprocess.DEVNULL, stdout=subprocess.DEVNULL, stderr=subprocess.DEVNULL, check=False
            )
        shutil.rmtree(self._there, ignore_errors=True)
        shutil.rmtree(self._folder, ignore_errors=True)

    def _end(self, child: subprocess.Popen[bytes]) -> None:
        """Ends GNU parallel, which ends its jobs at the second TERM, and what is left of its group."""
        with suppress(ProcessLookupError):
            for _ in range(10):
                os.killpg(child.pid, signal.SIGTERM)
                with suppress(subprocess.TimeoutExpired):
                    child.wait(timeout=0.5)
            os.killpg(child.pid, signal.SIGKILL)

    def judge(self, runs: List[Run]) -> List[Outcome]:
        """Judges the traces; those with a file that cannot be read are judged here."""
        sent = {
            number: run
            for number, run in enumerate(runs)
            if all(name == "-" or os.access(name, os.R_OK) for name in run[:3])
        }
        here = [run for number, run in enumerate(runs) if number not in sent]
        others = iter(judge_here(here, 1, self._seconds) if here else [])
        answers = dict(self._answers(sent)) if sent else {}
        log = self._log(list(sent))
        return [
            self._outcome(run, answers.get(number) or log[number]) if number in sent else next(others)
            for number, run in enumerate(runs)
        ]

    @staticmethod
    def _outcome(run: Run, answer: Tuple[str, str]) -> Outcome:
        host, line = answer
        return Outcome(run, line, "" if host == "-" else host)

    def _answers(self, sent: Dict[int, Run]) -> Iterator[Tuple[int, Tuple[str, str]]]:
        """Yields the number of each run with its host and its line, as they come."""
        jobs = self._folder / "jobs"
        jobs.write_bytes(
            b"".join(os.fsencode("\t".join([str(number), *_job(run)]) + "\n") for number, run in sent.items())
        )
        shutil.copy(program(), self._folder / "nanobot")
        self._child = child = subprocess.Popen(
            self._words(jobs),
            stdin=subprocess.DEVNULL,
            stdout=subprocess.PIPE,
            start_new_session=True,
            env={**os.environ, "LC_ALL": "C"},
        )
        assert child.stdout is not None
        progress, done = Progress("judge", len(sent)), 0
        for line in child.stdout:
            number, host, said = os.fsdecode(line.rstrip(b"\n")).split(" ", 2)
            yield int(number), (host, said)
            done += 1
            progress.show(done)
        progress.clear()
        child.wait()

    def _words(self, jobs: Path) -> List[str]:
        limit = f"timeout --foreground {self._seconds} " if self._seconds else ""
        command = (
            ON_A_HOST.replace("LIMIT", limit)
            .replace("SECONDS", str(self._seconds or ""))
            .replace("PROGRAM", shlex.quote(program()))
        )
        words = [
            "parallel",
            "--will-cite",
            "--sshloginfile",
            self._hosts,
            "--filter-hosts",
            "--jobs",
            str(self._jobs or "100%"),
        ]
        words += ["--retries", "3", "--colsep", r"\t", "--joblog", str(self._folder / "log"), "--workdir", self._there]
        words += ["--basefile", f"{self._folder}/./nanobot"]
        for place in (5, 6, 7):
            words += ["--transferfile", f"/.{{{place}}}"]
        return [*words, "-a", str(jobs), command]

    def _log(self, numbers: List[int]) -> Dict[int, Tuple[str, str]]:
        """Returns the message for each run without an answer, by the log of parallel: its line N + 1 begins with the number of
        a job."""
        out = {number: ("-", "was not run") for number in numbers}
        with suppress(FileNotFoundError):
            for line in (self._folder / "log").read_text(errors="replace").splitlines()[1:]:
                part = line.split("\t")
                out[numbers[int(part[0]) - 1]] = part[1].replace(" ", "_"), f"no answer, status {part[6]}"
        return out


def _job(run: Run) -> List[str]:
    """Returns the trace, then source, target and trace as whole names or -, and the files that are sent for source and
    target."""
    whole = ["-" if name == "-" else os.path.realpath(name) for name in run[:3]]
    return [run.trace, *whole, *(whole[2] if name == "-" else name for name in whole[:2])]
