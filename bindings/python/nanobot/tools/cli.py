"""The tools of the command line: `nanobot-tools NAME ..`, also `python -m nanobot NAME ..`."""

from __future__ import annotations

import argparse
import os
import re
import sys
from pathlib import Path
from typing import Callable, Dict, Iterable, List, NamedTuple, NoReturn, Optional, Sequence, Tuple

from ..errors import NanobotError
from ..models import Model
from . import cheapest, compare, contest, hosts, judge, profile, program, shapes, steps, tables


class Tool(NamedTuple):
    """A tool: its arguments and options, and what it does; it answers the exit status."""

    summary: str
    arguments: Callable[[argparse.ArgumentParser], object]
    run: Callable[[argparse.Namespace], int]


def _side(name: str) -> Optional[str]:
    return None if name == "-" else name


def _form_arguments(parser: argparse.ArgumentParser, what: str) -> None:
    form = parser.add_mutually_exclusive_group()
    form.add_argument("--json", action="store_true", help=f"print a record for each {what}")
    form.add_argument("--csv", action="store_true", help="the same with commas")


def _print(given: argparse.Namespace, records: Sequence[Dict[str, object]], table: Iterable[str]) -> None:
    """Prints the records as --json or --csv, otherwise the table."""
    if given.json or given.csv:
        print(tables.as_json(records) if given.json else tables.as_csv(records))
    else:
        print("\n".join(map(tables.printable, table)))


def _number(least: int, most: int) -> Callable[[str], int]:
    """Returns the type of an argument that is a number within bounds."""

    def number(word: str) -> int:
        if not re.fullmatch("[1-9][0-9]*", word) or not least <= int(word) <= most:
            raise argparse.ArgumentTypeError(f"not a number from {least} to {most}: {word}")
        return int(word)

    return number


# ---- compare


def _compare_arguments(parser: argparse.ArgumentParser) -> None:
    parser.add_argument(
        "models", type=Path, help="a folder with NAME_src.mdl and NAME_tgt.mdl, or a file with lines NAME SOURCE TARGET"
    )
    parser.add_argument("folders", nargs="*", metavar="FOLDER", help="a folder of traces, NAME.nbt for each problem")
    parser.add_argument(
        "--plan", default="", metavar="PLANNERS", help="also plan with these, as in --plan 'crew layer'"
    )
    parser.add_argument(
        "--baseline", type=Path, metavar="FOLDER", help="ratios to the traces of this folder, and not to the best"
    )
    _form_arguments(parser, "problem and folder")


def _compare(given: argparse.Namespace) -> int:
    unknown = [name for name in given.plan.split() if name not in compare.PLANNERS]
    if unknown or not (given.folders or given.plan.split()):
        raise ValueError(f"no planner is named {unknown[0]}" if unknown else "give a folder of traces, or --plan")
    folders = [*map(Path, given.folders), *([given.baseline] if given.baseline else [])]
    for folder in folders:
        if not folder.is_dir():
            raise NotADirectoryError(20, "not a folder", str(folder))
    found = compare.problems(given.models)
    if not found:
        raise ValueError(f"{given.models} has no problem: NAME_src.mdl or NAME_tgt.mdl")
    baseline = compare.Column("baseline", given.baseline) if given.baseline else None
    result = compare.compare(found, compare.columns_of(given.folders, given.plan), baseline)
    _print(given, compare.records(result), compare.table(result))
    return 0 if result.all_accepted else 1


# ---- profile


def _profile_arguments(parser: argparse.ArgumentParser) -> None:
    parser.usage = "%(prog)s [--timeline] [--json] [light] SOURCE TARGET TRACE"
    parser.add_argument(
        "names",
        nargs="+",
        metavar="NAME",
        help="[light] SOURCE TARGET TRACE, as for `nanobot run`: - is the empty model",
    )
    parser.add_argument(
        "--timeline", action="store_true", help="draw bots, changed voxels, waits and harmonics over the steps"
    )
    parser.add_argument("--json", action="store_true", help="print all numbers")


def _profile(given: argparse.Namespace) -> int:
    light, names = given.names[0] == "light" and len(given.names) == 4, given.names
    names = names[1:] if light else names
    if len(names) != 3 or names[:2] == ["-", "-"]:
        raise ValueError("the arguments are [light] SOURCE TARGET TRACE, with - for one empty model at most")
    found = profile.profile(_side(names[0]), _side(names[1]), names[2], light=light)
    print(profile.as_json(found) if given.json else "\n".join(profile.told(found, given.timeline)))
    return 0 if found.line.startswith("ok ") else 1


# ---- models


def _model_arguments(parser: argparse.ArgumentParser) -> None:
    kinds = parser.add_subparsers(dest="kind", required=True, metavar="empty | box | sphere | text")
    for kind, text in (
        ("empty", "the empty model"),
        ("box", "a box between two corners"),
        ("sphere", "a ball on the floor"),
    ):
        one = kinds.add_parser(kind, help=text, description=text)
        one.add_argument("resolution", type=int)
        if kind == "box":
            one.add_argument("corners", nargs=6, type=int, metavar="N", help="X Y Z of one corner, then of the other")
        if kind != "empty":
            one.add_argument("--hollow", action="store_true", help="its shell alone")
        one.add_argument("model", type=Path)
    one = kinds.add_parser(
        "text",
        help="the model of a text, as `layers` prints it",
        description="the model of a text, as `layers` prints it",
    )
    one.add_argument("text", type=Path)
    one.add_argument("model", type=Path)


def _made(given: argparse.Namespace) -> Model:
    if given.kind == "text":
        return shapes.model_of(given.text.read_text())
    if given.kind == "empty":
        return Model.empty(given.resolution)
    if given.kind == "sphere":
        return shapes.sphere(given.resolution, given.hollow)
    x, y, z, u, v, w = given.corners
    return shapes.box(given.resolution, (x, y, z), (u, v, w), given.hollow)


def _model(given: argparse.Namespace) -> int:
    made = _made(given)
    cheapest.store(bytes(made), given.model)
    print(f"model resolution {made.resolution} full {len(made.full)}")
    return 0


def _layers_arguments(parser: argparse.ArgumentParser) -> None:
    parser.add_argument("model", type=Path)
    parser.add_argument("heights", nargs="*", type=int, metavar="Y", help="the layers of these y alone")


def _layers(given: argparse.Namespace) -> int:
    model = Model.read(given.model)
    wrong = [y for y in given.heights if not 0 <= y < model.resolution]
    if wrong:
        raise ValueError(f"y is 0 to {model.resolution - 1}, not {wrong[0]}")
    print("\n".join(shapes.text_of(model, given.heights)))
    return 0


# ---- traces


def _steps_arguments(parser: argparse.ArgumentParser) -> None:
    parser.add_argument("trace", type=Path)
    parser.add_argument("first", nargs="?", type=int, default=1, help="the first step to print")
    parser.add_argument("last", nargs="?", type=int, help="the last one; the first, if that alone is given")


def _steps(given: argparse.Namespace) -> int:
    only_first = given.last is None and given.first != 1
    line = ""
    for line in steps.listed(given.trace.read_bytes(), given.first, given.first if only_first else given.last):
        print(line)
    return 0 if line.startswith("step ") and " bid " in line or not line else 1


def _cheapest_arguments(parser: argparse.ArgumentParser) -> None:
    parser.add_argument("source", help="a model; - is the empty one")
    parser.add_argument("target", help="a model; - is the empty one")
    parser.add_argument("trace", type=Path, help="where the cheapest plan is stored")


def _cheapest(given: argparse.Namespace) -> int:
    if given.source == given.target == "-":
        raise ValueError("only one of the models may be -")
    source, target = (None if name == "-" else Path(name) for name in (given.source, given.target))
    kept: Optional[Tuple[int, str, bytes]] = None
    for planner, trace, cost, line in cheapest.plans(compare.Problem("", source, target)):
        print(f"{planner}: {line}", flush=True)
        if trace is not None and cost is not None and (kept is None or cost.energy < kept[0]):
            kept = (cost.energy, planner, trace)
    if kept is None:
        return 1
    cheapest.store(kept[2], given.trace)
    print(f"kept the plan of {kept[1]}")
    return 0


# ---- many traces


def _seconds_argument(parser: argparse.ArgumentParser) -> None:
    parser.add_argument(
        "--seconds", type=_number(1, 9_999_999), metavar="N", help="stop a run that takes longer; its line says so"
    )


def _judge_arguments(parser: argparse.ArgumentParser) -> None:
    parser.description = (
        "Judges the traces of standard input, a line each: SOURCE TARGET TRACE, with - for one empty model at "
        "most. Names have no blanks, quotes or backslashes; empty lines and lines that begin with # are skipped. "
        "Prints the energy and the steps of each, or why it is refused. Ends with 0 if all are accepted, with 1 "
        "if one is not, with 2 if a line or an argument is wrong, and with 12 if there is no program or no "
        "temporary folder."
    )
    parser.epilog = (
        "GNU parallel makes the runs on the hosts of FILE, a line each as ssh takes it (`8/me@host`; `:` is this "
        "machine). ssh has to get there without a password, and rsync and perl to be there. The program and the "
        "files are sent into a folder nanobot-judge.* of the home folder there, which is removed at the end; "
        "hosts that do not answer are left out."
    )
    parser.add_argument(
        "number",
        nargs="?",
        type=_number(1, 999),
        metavar="NUMBER",
        help="runs at a time, here or on each host; one a processor",
    )
    _seconds_argument(parser)
    parser.add_argument("--hosts", "--sshloginfile", type=Path, metavar="FILE", help="make the runs on these hosts")
    _form_arguments(parser, "trace")


def _judge(given: argparse.Namespace) -> int:
    if given.hosts and not os.access(given.hosts, os.R_OK):
        raise ValueError(f"--hosts needs a file with a line for each host, not {given.hosts}")
    runs = judge.runs_of(os.fsdecode(sys.stdin.buffer.read()))
    with program.stoppable():
        if given.hosts and runs:
            with hosts.Hosts(given.hosts, given.number, given.seconds) as others:
                outcomes = others.judge(runs)
        else:
            outcomes = judge.judge_here(runs, given.number or os.cpu_count() or 1, given.seconds)
    _print(given, [outcome.record() for outcome in outcomes], judge.table(outcomes))
    return 0 if judge.accepted(outcomes) else 1


def _contest_arguments(parser: argparse.ArgumentParser) -> None:
    parser.description = (
        "Checks each model and judges each trace below the folders, by the contest's names: of the problem FR001 "
        "the models FR001_src.mdl and FR001_tgt.mdl, and the trace FR001.nbt; a problem without a source or a "
        "target has the empty one. Prints which models are refused, then the table of `judge`. Ends with 0 if all "
        "is accepted, with 1 if something is refused, with 2 if there is no such file or two models of one name "
        "differ, and with 12 if there is no program."
    )
    parser.add_argument(
        "folders", nargs="+", type=Path, metavar="FOLDER", help="where the models and traces are, which may be apart"
    )
    _seconds_argument(parser)
    _form_arguments(parser, "trace and refused model")


def _contest(given: argparse.Namespace) -> int:
    files, jobs = contest.find(given.folders), os.cpu_count() or 1
    with program.stoppable():
        checked = contest.check(files, jobs, given.seconds)
        outcomes = contest.judge(files, jobs, given.seconds)
    refused = [(name, line) for name, legal, line in checked if not legal]
    records = [judge.record_of_model(name, line) for name, line in refused] + [
        judge.record_of_run(outcome) for outcome in outcomes
    ]
    counted = f"{len(checked) - len(refused)} of {len(checked)} models are legal"
    _print(given, records, [*(f"{name}: {line}" for name, line in refused), counted, *judge.table(outcomes)])
    return 0 if not refused and judge.accepted(outcomes) else 1


class Parser(argparse.ArgumentParser):
    """Answers wrong arguments with one line."""

    def error(self, message: str) -> NoReturn:
        self.exit(2, f"{self.prog}: {message}: --help says more\n")


TOOLS: Dict[str, Tool] = {
    "cheapest": Tool("plans with every planner and keeps the cheapest plan", _cheapest_arguments, _cheapest),
    "compare": Tool("compares the energies of traces, problem by problem", _compare_arguments, _compare),
    "contest": Tool("checks and judges the contest's models and traces", _contest_arguments, _contest),
    "judge": Tool("judges many traces at once, here or on other hosts", _judge_arguments, _judge),
    "layers": Tool("prints the layers of a model as text", _layers_arguments, _layers),
    "model": Tool("makes a model: empty, a box, a ball, or from text", _model_arguments, _model),
    "profile": Tool("shows where the energy of a trace goes", _profile_arguments, _profile),
    "steps": Tool("prints the commands of a trace with their steps and bots", _steps_arguments, _steps),
}


def run(name: str, words: List[str]) -> int:
    """Runs a tool; answers its exit status: 0, 1 if a rule is broken or a file is refused, 2 for wrong arguments or
    files, 12 if there is no program or no temporary folder."""
    tool = TOOLS[name]
    parser = Parser(
        allow_abbrev=False, prog=f"nanobot-tools {name}", description=tool.summary[0].upper() + tool.summary[1:] + "."
    )
    tool.arguments(parser)
    given = parser.parse_args(words)
    try:
        return tool.run(given)
    except (NanobotError, OSError, ValueError) as fault:
        print(f"nanobot-tools {name}: {fault}", file=sys.stderr)
        return 2
    except program.Unavailable as fault:
        print(f"nanobot-tools {name}: {fault}", file=sys.stderr)
        return 12
