"""Dead lemmas and definitions: items of proofs/ and specs/ that no answer to a goal and no source reaches by names.

An item is reached if its name occurs, through an import or within its module, in a file of src/, in an answer or an invariant of proofs/,
or in another item that is reached."""
from __future__ import annotations

import dataclasses
import re
from typing import Iterator, Tuple

from checks.tree import GOALS, Tree

# Dead items that are known. If one is removed, its module and all that cite it have to be proved again: it goes with the next change there.
KNOWN = """
bot_crew/proofs/Bits same_list
model_file/proofs/Spreads wide
nanobot_rows/proofs/Paying paying
nanobot_rows/proofs/Running longer
nanobot_rows/proofs/Tracing underway
plan_choice/proofs/Chosen stays
step_debugger/proofs/Between space_here
step_machine/proofs/Changed axis
step_order/proofs/Voxels positive
support_forest/proofs/Across own_below
support_forest/proofs/Handling next_full
support_forest/proofs/ForestView at_offset
support_forest/proofs/ForestView outside
swarm_planner/proofs/Lines nobody
swarm_planner/proofs/Rows wide
system_state/proofs/Bots Within
trace_text/proofs/Readings contrary
vox_planes/proofs/Lines free_more
""".strip().splitlines()

HEAD = re.compile(r" *(?:(?:pub|abbrev|unfoldable) )*(?:(?:record|data|ruleset) ([^\s:]+)|([^\s(){}:;,=\[\]]+) :(?: |$))")
MODULE = re.compile(r"( *)module ")
IMPORT = re.compile(r"^ *(?:ghost )?use (Rattle\.[\w.\-]+?)(?:\.\{([^}]*)\})?(?: as ([\w\-]+))?;?$", re.MULTILINE)
PATH = re.compile(r"\b(\w+)::(proofs|specs)::((?:\w+::)+)([\w\-]+)")
# Comments, imports and mentions that are no use.
IDLE = re.compile(r"^ *(?:(?:--|//|(?:ghost |pub )?use ).*|unfolding .*)$| -- .*$", re.MULTILINE)
CASE = re.compile(r"^ +(?:\| )?(\S+) :", re.MULTILINE)
NAME = re.compile(r"[^\s(){}\[\],;:λ]+")

# A module, such as Rattle.nano_spec.proofs.Lists, and a name that it defines.
Key = Tuple[str, str]


@dataclasses.dataclass
class Item:
    """A lemma or a definition: the number of its first line, and its lines, below those that open the modules around it."""

    number: int
    lines: list[str] = dataclasses.field(default_factory=list)


class Module:
    """The imports of a file, and its items by name."""

    def __init__(self, name: str, text: str) -> None:
        self.name = name
        self.imports: dict[str, Key] = {}
        self.aliases: dict[str, str] = {}
        self.items: dict[str, Item] = {}
        self.cases: dict[str, str] = {}
        for base, names, alias in IMPORT.findall(text):
            if not names:
                self.aliases[alias or base.rsplit(".", 1)[1]] = base
            for part in names.split(","):
                original, _, other = part.strip().partition(" as ")
                self.imports[other.strip() or original] = base, original
        self.text = IDLE.sub("", text)

    def split(self) -> None:
        """Finds the items. Each begins at the indent of the module around it, and goes on up to the next one."""
        item, around, opening = None, [], False
        for number, line in enumerate(self.text.split("\n"), 1):
            indent = len(line) - len(line.lstrip(" "))
            while line and around and not opening and indent <= around[-1][0]:
                around.pop()
            if found := MODULE.match(line):
                around.append((len(found[1]), []))
                opening, item = True, None
            elif not opening and indent == 2 * len(around) and (found := HEAD.match(line)):
                item = self.items.setdefault(found[1] or found[2], Item(number))
                item.lines += [head for _, heads in around for head in heads]
            if opening:
                around[-1][1].append(line)
                opening = not line.endswith("where")
            elif item:
                item.lines.append(line)
        for name, it in self.items.items():
            if it.lines[0].startswith("pub data"):
                self.cases.update((case, name) for case in CASE.findall("\n".join(it.lines)))

    def named(self, text: str) -> Iterator[Key]:
        """Yields the items of modules that a text of this file may name."""
        for word in set(NAME.findall(text)):
            first, _, rest = word.partition(".")
            if rest and first in self.aliases:
                yield self.aliases[first], rest.split(".")[0]
            elif first in self.imports:
                yield self.imports[first]
            elif first in self.items or first in self.cases:
                yield self.name, first

    def named_by_paths(self) -> Iterator[Key]:
        """Yields the items that a source names by their paths, as `using(crate::proofs::Lists::same)`."""
        for crate, part, inner, name in PATH.findall(self.text):
            first = self.name.split(".")[1] if crate == "crate" else crate
            yield ".".join(("Rattle", first, part, *inner[:-2].split("::"))), name


def _modules(tree: Tree) -> tuple[dict[str, Module], list[Module]]:
    """Returns the modules with items that something has to name, and the files that name things by themselves."""
    library, roots = {}, []
    for path, text in tree.files("(?:proofs|specs|src)/"):
        _, crate, part, *inner = path.rsplit(".", 1)[0].split("/")
        if path.endswith("/Lib.antt") or not path.endswith((".antt", ".rt")):
            continue
        module = Module(".".join(("Rattle", crate, part, *inner)), text)
        if part == "src" or path.rsplit("/", 1)[1] in GOALS:
            roots.append(module)
        else:
            module.split()
            library[module.name] = module
    return library, roots


def unreached(tree: Tree) -> Iterator[tuple[str, int, str]]:
    """Yields the items that nothing reaches: path of the module below crates/, line and name."""
    library, roots = _modules(tree)
    pending = [key for module in roots for key in (*module.named(module.text), *module.named_by_paths())]
    seen: set[Key] = set()
    while pending:
        base, name = pending.pop()
        module = library.get(base)
        name = module.cases.get(name, name) if module else name
        if module and name in module.items and (base, name) not in seen:
            seen.add((base, name))
            pending += module.named("\n".join(module.items[name].lines))
    for base, module in library.items():
        for name, item in module.items.items():
            if (base, name) not in seen and "◌" not in name:
                yield base[len("Rattle."):].replace(".", "/"), item.number, name


def faults(tree: Tree) -> Iterator[str]:
    found = {f"{path} {name}": line for path, line, name in unreached(tree)}
    for item in sorted(found.keys() - set(KNOWN)):
        path, name = item.split(" ", 1)
        yield f"crates/{path}.antt:{found[item]}: nothing uses {name}"
    for item in sorted(set(KNOWN) - found.keys()):
        yield f"scripts/checks/dead.py: {item} is used, or is gone"


def rows(tree: Tree, crates: list[str]) -> Iterator[str]:
    return (f"crates/{path}.antt:{line}: {name}" for path, line, name in unreached(tree) if path.split("/")[0] in crates)
