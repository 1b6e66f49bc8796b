"""Tools for traces and models: `python -m nanobot NAME ..`, or `nanobot-tools NAME ..`.

    explain [light] S T B     says why a trace is refused, down to the commands
    walk [light] S T B        walks a trace by the lines of standard input; `help` lists them
TOOLS
`NAME --help` says more. S and T are models, of which one may be `-`, the empty model of the other's resolution; B is a
trace. Ends with 0, with 1 if a trace is refused, with 2 if the arguments are wrong or a file cannot be read, and
with 12 if judge or contest finds no program. `--version` prints the version of the library. nanobot-explain and
nanobot-walk do the same without the first word."""

from __future__ import annotations

import signal
import sys
from typing import List

from .errors import NanobotError
from .explain import explain
from .machine import version
from .tools import cli
from .walk import Walk

HELP = (__doc__ or "").replace(
    "TOOLS\n", "".join(f"    {name:<25} {tool.summary}\n" for name, tool in cli.TOOLS.items())
)


def _explain(words: List[str], light: bool) -> int:
    source, target = (None if name == "-" else name for name in words[:2])
    status = 0
    for number, line in enumerate(explain(source, target, words[2], light=light)):
        print(line, flush=True)
        if number == 0 and not line.startswith("ok "):
            status = 1
    return status


def _walk(words: List[str], light: bool) -> int:
    source, target = (None if name == "-" else name for name in words[:2])
    Walk(source, target, words[2], light=light).cmdloop()
    return 0


def _end_as_interrupted() -> int:
    """Ends as a program does that Ctrl-C ends, so that a shell script which called it ends too."""
    signal.signal(signal.SIGINT, signal.SIG_DFL)
    signal.raise_signal(signal.SIGINT)
    return 128 + signal.SIGINT


def _fault(words: List[str]) -> str:
    """What is wrong with the arguments."""
    if not words:
        return "no tool is named"
    return f"{words[0]} takes [light] S T B" if words[0] in ("explain", "walk") else f"there is no tool {words[0]}"


def run(words: List[str]) -> int:
    """Does what the words say, and returns the exit status."""
    if hasattr(signal, "SIGPIPE"):
        signal.signal(signal.SIGPIPE, signal.SIG_DFL)
    if words == ["--version"]:
        print(version())
        return 0
    if words and words[0] in cli.TOOLS:
        try:
            return cli.run(words[0], words[1:])
        except KeyboardInterrupt:
            return _end_as_interrupted()
    light = words[1:2] == ["light"] and len(words) == 5
    rest = words[2:] if light else words[1:]
    if len(rest) != 3 or rest[:2] == ["-", "-"] or words[0] not in ("explain", "walk"):
        if {"-h", "--help"} & set(words):
            print(HELP)
            return 0
        print(f"nanobot-tools: {_fault(words)}: nanobot-tools --help", file=sys.stderr)
        return 2
    try:
        return _explain(rest, light) if words[0] == "explain" else _walk(rest, light)
    except KeyboardInterrupt:
        return _end_as_interrupted()
    except (NanobotError, OSError, ValueError) as fault:
        print(fault, file=sys.stderr)
        return 2


def tools_main() -> int:
    """The command nanobot-tools."""
    return run(sys.argv[1:])


def explain_main() -> int:
    """The command nanobot-explain."""
    return run(["explain", *sys.argv[1:]])


def walk_main() -> int:
    """The command nanobot-walk."""
    return run(["walk", *sys.argv[1:]])


if __name__ == "__main__":
    sys.exit(run(sys.argv[1:]))
