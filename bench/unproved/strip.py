#!/usr/bin/env python3
"""Writes the crates of this repository as modules of a plain Rust package: clauses, ghost items and tests are left out.

strip.py TOP OUT: reads TOP/crates, and writes a package into OUT (package.toml) with the programs `nanobot`
(program.rs) and `unproved` (main.rs), and the library for Python (library.rs). The rest of the code is unchanged. It
uses replacements for Rattle's own types (shim.rs) and for the modules over its raw memory, its files and its counters.
Nothing of it is proved.
"""
import os
import re
import shutil
import sys

CRATES = """
    counter_permit vox_geom nano_spec step_order run_progress energy_sum brick_arena trace_codec bot_crew
    vox_planes model_file step_groups system_state support_forest step_machine trace_judge voxel_reads plan_tape
    layer_planner group_planner void_planner low_planner swarm_planner squad_plans box_plans plan_choice model_forge
    vox_depot trace_text nanobot_words debug_script step_debugger nanobot_rows nanobot_app kept_machine
    nanobot_c machine_c
""".split()
HERE = os.path.dirname(os.path.abspath(__file__))
# The modules that use the kit's counters, raw memory or files, and the file here that replaces each.
REPLACED = {
    "vox_geom/touches.rs": "touches.rs",
    "brick_arena/chunk.rs": "chunk.rs",
    "vox_depot/mod.rs": "depot.rs",
    "machine_c/handle.rs": "handle.rs",
    "machine_c/parts.rs": "/dev/null",
}
KIT = r"(std::(alloc|marker|sync::ledger|collections|process|test)|arrayvec|itoa|circular_buffer)"


def block_end(text, start):
    """The end of the block whose first brace comes at or after start."""
    depth, at = 0, text.index("{", start)
    while True:
        depth += {"{": 1, "}": -1}.get(text[at], 0)
        at += 1
        if depth == 0:
            return at


def without_clauses(text):
    """The text without clauses and ghost items, which may take several lines."""
    kept, lines, at = [], text.split("\n"), 0
    while at < len(lines):
        line = lines[at]
        is_clause = re.match(r"\s*(requires|ensures)\b.*\{", line)
        is_ghost = re.match(r"\s*(pub )?ghost\b", line)
        if not is_clause and not is_ghost:
            kept.append(line)
            at += 1
            continue
        depth = line.count("{") - line.count("}")
        while depth > 0 or (is_ghost and not re.search(r"[;},]\s*$", lines[at])):
            at += 1
            depth += lines[at].count("{") - lines[at].count("}")
        if is_clause and lines[at].rstrip().endswith("};"):
            kept.append(";")  # the end of a method of a trait
        at += 1
    return "\n".join(kept)


def plain(text, crate):
    """The text of a file of the crate as a module of plain Rust."""
    while found := re.search(r"^impl(<[^>]*>)? Model for [^{]*\{", text, re.M):
        text = text[: found.start()] + text[block_end(text, found.start()):]
    text = without_clauses(text)
    text = re.sub(r"^\s*#!?\[tactic.*\]\s*$", "", text, flags=re.M)
    text = re.sub(r"^//!", "//", text, flags=re.M)
    text = re.sub(r",?\s*\bDrop\b(?=[,)\]])", "", text).replace("#[derive()]", "").replace("derive(, ", "derive(")
    text = re.sub(r"#\[cfg\(test\)\]\s*\n\s*(pub )?mod \w+;", "", text)
    text = re.sub(r"\bcrate::", f"crate::{crate}::", text)
    text = re.sub(r"(?<![\w:])(%s)::" % "|".join(CRATES), r"crate::\1::", text)
    text = re.sub(r"^\s*(pub )?use %s\b[^;]*;" % KIT, "", text, flags=re.M)
    text = re.sub(r"format!\(in alloc;\s*", "format_in!(", text)
    text = re.sub(r"vec!\[in (\w+); (.*?); (.*?)\]\?", r"Vec::filled(\2, \3)?", text)
    return "#[allow(unused_imports)] use crate::shim::*;\n" + text


def write_crate(top, crate, out):
    source = f"{top}/crates/{crate}/src"
    for folder, _, files in os.walk(source):
        for file in files:
            if not file.endswith(".rt") or file == "tests.rt":
                continue
            path = os.path.relpath(os.path.join(folder, file), source)
            target = f"{out}/src/{crate}/" + ("mod.rs" if path == "lib.rt" else path[:-3] + ".rs")
            os.makedirs(os.path.dirname(target), exist_ok=True)
            with open(os.path.join(folder, file), encoding="utf-8") as read:
                text = plain(read.read(), crate)
            with open(target, "w", encoding="utf-8") as write:
                write.write(text)


def main(top, out):
    for crate in CRATES:
        write_crate(top, crate, out)
    for module, file in REPLACED.items():
        shutil.copyfile(os.path.join(HERE, file), f"{out}/src/{module}")
    for file in ("main.rs", "program.rs", "library.rs", "shim.rs"):
        shutil.copyfile(f"{HERE}/{file}", f"{out}/src/{file}")
    shutil.copyfile(f"{HERE}/package.toml", f"{out}/Cargo.toml")
    with open(f"{out}/src/crates.rs", "w", encoding="utf-8") as write:
        write.write("pub mod shim;\n" + "".join(f"pub mod {crate};\n" for crate in CRATES))


main(sys.argv[1], sys.argv[2])
