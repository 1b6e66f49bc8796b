"""Widths: statements of lemmas, fields of records, and in specs/ definitions and the first lines of records, that are wider than 120
columns and could be broken: before arrows, and within a premise that is wider by itself before its other operators, or between the
arguments of a term that has none. A module of proofs/ that is broken is checked again alone, and one of specs/ with all that cite it."""
from __future__ import annotations

import re
from typing import Iterator

from checks.tree import Tree

MOST = 120
STATEMENT = re.compile(r"^(\s*)((?:pub |abbrev |unfoldable )*[^\s(){}:;,=]+ : )(.*)$")
NO_NAMES = ("let", "use", "in", "where", "--", "|", "λ")
OPEN, CLOSE = "([{⟦", ")]}⟧"
# from the one that binds least
OPERATORS = [" → ", " ⊎ ", " × ", " ≡ ", " ≤ ", " < ", " ∙ ", " || ", " && ", " ++ ", " ∷ ", " +ℤ ", " + "]


def depths(text: str) -> list[int]:
    """Returns the number of open brackets after each character; a text's quotes are brackets too."""
    found, depth, in_text = [], 0, False
    for at, character in enumerate(text):
        if character == '"' and text[at - 1:at] != "\\":
            in_text = not in_text
            depth += 1 if in_text else -1
        elif not in_text:
            depth += (character in OPEN) - (character in CLOSE)
        found.append(depth)
    return found


def cut(text: str, places: list[int]) -> list[str]:
    """Returns the parts between these places, each without the blank before it."""
    return [text[a:b].strip() for a, b in zip([0, *places], [*places, len(text)])]


def at_operator(text: str, operator: str) -> list[str]:
    """Returns the parts of a term at an operator outside of brackets: each but the first begins with it."""
    open_at = depths(text)
    return cut(text, [at for at in range(len(text)) if open_at[at] == 0 and text.startswith(operator, at)])


def at_groups(text: str) -> list[str]:
    """Returns a term cut between one bracket's end and the next one's begin: between groups of bound variables, or arguments."""
    open_at = depths(text)
    return cut(text, [at for at in range(1, len(text) - 1) if open_at[at] == 0 and text[at] == " " and text[at - 1] in ")}" and text[at + 1] in "({"])


def at_variables(text: str) -> list[str]:
    """Returns a term cut between the groups of variables that it binds first, if it does."""
    groups = at_groups(text)
    return groups if all(" : " in group for group in groups) else [text]


def at_arguments(text: str) -> list[str]:
    """Returns a term cut between its arguments; one that binds a variable behind what it binds, and a record's fields one from another."""
    open_at = depths(text)
    if text.startswith("λ "):
        return cut(text, [text.index(". ") + 1]) if ". " in text else [text]
    if text.startswith("{ "):
        open_at = [depth - 1 for depth in open_at]
        return cut(text, [at + 1 for at in range(len(text) - 1) if open_at[at] == 0 and text.startswith("; ", at)])
    return cut(text, [at for at in range(1, len(text)) if open_at[at] == 0 and text[at] == " "])


def pieces(text: str, room: int) -> list[str]:
    """Splits a term into parts that may be on lines of their own, of at most `room` columns if possible."""
    if len(text) <= room:
        return [text]
    if text.startswith(("λ ", "{ ")):
        parts = at_arguments(text)
        return [it for part in parts for it in pieces(part, room)] if len(parts) > 1 else [text]
    for operator in OPERATORS:
        parts = at_operator(text, operator)
        if len(parts) > 1:
            return [it for part in parts for it in pieces(part, room)]
    lead, body = re.match(r"^([→⊎×≡≤<∙|&+∷ℤ]+ )?(.*)$", text).groups("")
    if body.startswith("(") and min(depths(body)[:-1]) > 0:
        first, *others = pieces(body[1:-1], room)
        inside = [lead + "(" + first, *others]
        return [*inside[:-1], inside[-1] + ")"]
    first, *others = at_arguments(body)
    if not others:
        return [text]
    return [*pieces(lead + first, room), *(it for part in others for it in pieces(part, room))]


def broken(line: str) -> list[str] | None:
    """Returns the lines of a statement, or None if it is none, or cannot be broken."""
    found = STATEMENT.match(line)
    if not found or found[2].split()[0] in NO_NAMES or depths(found[3])[-1] != 0 or line.endswith((";", "{", "=", ",")) or len(at_operator(found[3], " = ")) > 1:
        return None
    indent, name, term = found.groups()
    deep = indent + "    "
    first, *others = [it for part in at_operator(term, " → ") for group in at_variables(part) for it in pieces(group, MOST - len(deep))]
    if len(indent + name + first) > MOST:
        lines = [indent + name.rstrip(), *filled(deep + first, others, deep)]
    else:
        lines = filled(indent + name + first, others, deep)
    return lines if len(lines) > 1 and "".join(lines).replace(" ", "") == line.replace(" ", "") else None


def filled(first: str, parts: list[str], deep: str) -> list[str]:
    """Returns the first line and the parts behind it, each on a line as long as it fits."""
    lines = [first]
    for part in parts:
        if len(lines[-1]) + 1 + len(part) <= MOST:
            lines[-1] += " " + part
        else:
            lines.append(deep + part)
    return lines


def broken_head(line: str) -> list[str] | None:
    """Returns the lines of a record's first line, broken between its parameters, or None if it is none."""
    found = re.match(r"^((?:pub )?record \S+) ([({].*[)}]) (: .* where)$", line)
    return filled(found[1], [*at_arguments(found[2]), found[3]], "    ") if found else None


def broken_definition(line: str) -> list[str] | None:
    """Returns the lines of a definition's equation, or None if it is none, or has cases or local names."""
    sides = at_operator(line, " = ")
    if len(sides) != 2 or line[:1] in ("", " ", "-") or re.search(r"\b(elim|let|where|in|use)\b", line):
        return None
    return [sides[0] + " =", *filled("   ", pieces(sides[1].removeprefix("= "), MOST - 4), "    ")]


def indent_of(line: str) -> int:
    return len(line) - len(line.lstrip())


def too_wide(rows: list[str]) -> int:
    """Returns the number of columns beyond the 120th."""
    return sum(max(0, len(row) - MOST) for row in rows)


def statement_at(rows: list[str], at: int) -> list[str]:
    """Returns the lines of the statement that begins at a line and continues on more deeply indented ones."""
    end = at + 1
    while end < len(rows) and rows[end].strip() not in ("", "where") and indent_of(rows[end]) > indent_of(rows[at]):
        end += 1
    return rows[at:end]


def all_broken(rows: list[str], defines: bool) -> list[str]:
    """Returns the lines of a file with their statements broken, and its definitions too if it has them. One of several lines is joined
    first."""
    out, at = [], 0
    while at < len(rows):
        whole = statement_at(rows, at) if STATEMENT.match(rows[at]) or defines else rows[at:at + 1]
        if defines and rows[at].endswith(" where"):
            whole = rows[at:at + 1]
        joined = " ".join([whole[0], *(row.strip() for row in whole[1:])])
        lines = broken(joined) if too_wide(whole) and "--" not in joined else None
        if not lines and defines and too_wide(whole) and "--" not in joined:
            lines = broken_head(joined) or broken_definition(joined)
        if lines and too_wide(lines) >= too_wide(whole):
            lines = None
        out += lines or rows[at:at + 1]
        at += len(whole) if lines else 1
    return out


def _files(tree: Tree) -> Iterator[tuple[str, list[str], list[str]]]:
    """Yields the files with statements that could be broken: path, lines, and lines once they are broken."""
    for path, text in tree.files("(?:proofs|specs)/", ".antt"):
        rows = text.split("\n")
        if any(len(row) > MOST for row in rows):
            out = all_broken(rows, "/specs/" in path)
            if out != rows:
                yield path, rows, out


def faults(tree: Tree) -> Iterator[str]:
    for path, rows, out in _files(tree):
        for number, row in enumerate(rows, 1):
            if row not in out:
                yield f"{path}:{number}: wider than {MOST} columns, and could be broken: scripts/check --fix"


def fix(tree: Tree) -> Iterator[str]:
    """Breaks the statements; the files that changed."""
    for path, rows, out in _files(tree):
        with open(tree.top / path, "w", encoding="utf-8", newline="") as file:
            file.write("\n".join(out))
        yield path
