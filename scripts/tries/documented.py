"""The commands of documents, with what they print, and the worked rows of crates/worked_rows; and how each is tried in
a folder."""
from __future__ import annotations

import ast
import os
import pathlib
import re
import shlex
import shutil
import subprocess
from typing import Iterator, Optional, Tuple

TOP = pathlib.Path(__file__).resolve().parents[2]
ROW = re.compile(r"^\| `(\./nanobot [^`]*)` \| `([^`]*)` \| (\d+) \|$", re.MULTILINE)
BLOCK = re.compile(r"^```console\n(.*?)^```$", re.MULTILINE | re.DOTALL)

STATUSES = {"Done": 0, "Broken": 1, "Words": 2, "Model": 3, "Trace": 4, "Depot": 5, "Text": 8}
VALUE = r'(&\[[^\]]*\]|b"(?:[^"\\]|\\.)*"|[A-Z_]+)'
TEXT = r'"((?:[^"\\]|\\.)*)"'
WORDS = r'"((?:run|check|asm|dis|make)\b[^"]*)"'

# The words of a worked row, its file B, and its status, line and perhaps stored bytes.
WorkedRow = Tuple[str, bytes, tuple]


def documents() -> list[pathlib.Path]:
    return [TOP / "README.md", TOP / "docs/PLANNERS.md", *sorted((TOP / "examples").rglob("*.md"))]


def commands_of(page: pathlib.Path) -> Iterator[Tuple[str, str, Optional[int]]]:
    """Yields, for each command of a page, the command, its output, and its status, or None if the page has none."""
    text = page.read_text(encoding="utf-8")
    for command, line, status in ROW.findall(text):
        yield command, line + "\n", int(status)
    for block in BLOCK.findall(text):
        for part in re.split(r"^\$ ", block, flags=re.MULTILINE)[1:]:
            command, _, printed = part.partition("\n")
            yield command, printed, None


def value(text: str, constants: dict[str, bytes]) -> bytes:
    """Returns the bytes of a literal of the sources, or of a constant."""
    if text.startswith("b"):
        return ast.literal_eval(text)
    if text.startswith("&"):
        return bytes(int(part, 0) for part in text[2:-1].replace(",", " ").split())
    return constants[text]


def worked_rows() -> Tuple[dict[str, bytes], list[WorkedRow]]:
    """Returns the files of the table, and the rows that run a trace, check or forge a model, or assemble or disassemble a
    trace."""
    files: dict[str, bytes] = {}
    rows: list[WorkedRow] = []
    for path in sorted((TOP / "crates/worked_rows/src").glob("*.rt")):
        source = path.read_text(encoding="utf-8")
        found = re.findall(rf"^const ([A-Z_]+): &\[u8\] =\s+{VALUE};$", source, re.MULTILINE)
        constants = {name: value(text, {}) for name, text in found}
        if path.name == "table.rt":
            files = {name: value(text, {}) for name, text in re.findall(rf'\(\s*"(\w+)",\s*{VALUE},?\s*\)', source)}
        for words, data, status, line in re.findall(
            rf"\(\s*{WORDS},\s*{VALUE},\s*Status::(\w+),\s*{TEXT},?\s*\)", source
        ):
            rows.append((words, value(data, constants), (STATUSES[status], ast.literal_eval(f'"{line}"'))))
        form = rf"(?m)^    Storing {{\s*words: {WORDS},\s*bytes: {VALUE},\s*printed: {TEXT},\s*name: \"\w\",\s*stored: {VALUE},"
        for words, data, line, stored in re.findall(form, source):
            stores = " ".join([*words.split(" ")[:-1], "stored"])
            rows.append((stores, value(data, constants), (0, ast.literal_eval(f'"{line}"'), value(stored, constants))))
    return files, rows


# What in a command says that it needs the library for Python.
PACKAGED = (
    "python3 -m nanobot",
    "nanobot-tools explain",
    "nanobot-tools walk",
    "nanobot-tools compare",
    "nanobot-tools profile",
    "lowered.py",
)


def make_folder(folder: pathlib.Path, program: pathlib.Path, library: Optional[pathlib.Path]) -> None:
    """Makes a folder for the commands: a copy of examples/, `nanobot`, and links to the tools, which find the program
    and the library."""
    shutil.copytree(TOP / "examples", folder / "examples")
    for name, target in (("nanobot", program), ("nanobot-tools", TOP / "nanobot-tools"), ("scripts", TOP / "scripts")):
        (folder / name).symlink_to(target)
    os.environ.update(NANOBOT=str(program), PYTHONPATH=str(TOP / "bindings/python"), PYTHONDONTWRITEBYTECODE="1")
    if library:
        os.environ["NANOBOT_LIBRARY"] = str(library)


def run(command: str, folder: pathlib.Path) -> Tuple[str, int, str]:
    done = subprocess.run(
        ["bash", "-c", command], cwd=folder, stdin=subprocess.DEVNULL, capture_output=True, text=True, check=False
    )
    return done.stdout, done.returncode, done.stderr


def try_documents(folder: pathlib.Path, has_library: bool) -> Tuple[int, int, list[str]]:
    """Runs the commands of all pages. Returns how many were run and how many left out, and what differs."""
    tried, left_out, faults = 0, 0, []
    for page in documents():
        for command, printed, status in commands_of(page):
            if not has_library and any(name in command for name in PACKAGED):
                left_out += 1
                continue
            tried += 1
            said, ended, errors = run(command, folder)
            if said != printed or status not in (None, ended):
                faults.append(
                    f"{page.relative_to(TOP)}: {command}\n  printed {said!r}, status {ended} {errors}\n"
                    f"  expected {printed!r}, status {status}"
                )
    return tried, left_out, faults


def try_texts(folder: pathlib.Path) -> Tuple[int, list[str]]:
    """Assembles each text of examples/ that has a trace of its name. Returns how many there are, and which have other
    bytes."""
    tried, faults = 0, []
    for trace in sorted((TOP / "examples").rglob("*.nbt")):
        text = trace.with_suffix(".txt")
        if text.exists():
            tried += 1
            run(f"./nanobot asm {shlex.quote(str(text))} again.nbt", folder)
            if (folder / "again.nbt").read_bytes() != trace.read_bytes():
                faults.append(f"{text.relative_to(TOP)} has other bytes than {trace.relative_to(TOP)}")
    return tried, faults


def try_rows(folder: pathlib.Path, program: pathlib.Path) -> Tuple[int, list[str]]:
    """Runs the worked rows. Returns how many there are, and what differs."""
    files, rows = worked_rows()
    faults = []
    for words, data, wanted in rows:
        for name, content in {**files, "B": data}.items():
            (folder / name).write_bytes(content)
        done = subprocess.run(
            [program, *words.split(" ")], cwd=folder, stdin=subprocess.DEVNULL, capture_output=True, check=False
        )
        stored = [(folder / "stored").read_bytes()] if len(wanted) > 2 and done.returncode == 0 else []
        found = (done.returncode, done.stdout.decode(), *stored)
        if found != wanted:
            faults.append(f"worked row {words}: {found!r}, and not {wanted!r}")
    return len(rows), faults
