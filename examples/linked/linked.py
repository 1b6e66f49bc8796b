#!/usr/bin/env python3
"""nanobot from Python, each call of the library once: `linked.py LIBRARY run S T B`, `.. run light S T B` and `.. check M` print
the program's line, `.. cost S T B` the line of an accepted run from its numbers, and `.. plan KIND S T B` stores the program's
file and prints its line without the number of commands. Each exits with the program's status. LIBRARY is libnanobot.so,
which a package has and scripts/try linked makes."""

import ctypes
import sys

DONE, TOO_SMALL = 0, 10
LINE = 200
BYTES = ctypes.POINTER(ctypes.c_uint8)
SLICE = [BYTES, ctypes.c_size_t]
GIVEN = SLICE + [ctypes.POINTER(ctypes.c_size_t)]
NUMBERS = [ctypes.POINTER(ctypes.c_int64), ctypes.POINTER(ctypes.c_uint32)]
# What each call takes, as include/nanobot.h has it.
CALLS = {
    "judge": 3 * SLICE + [ctypes.c_bool] + GIVEN,
    "cost": 3 * SLICE + [ctypes.c_bool] + NUMBERS,
    "check": SLICE + GIVEN,
    "plan_layer": 2 * SLICE + GIVEN,
    "plan_group": 2 * SLICE + GIVEN,
    "plan_crew": 2 * SLICE + GIVEN,
    "plan_void": SLICE + GIVEN,
    "plan_low": SLICE + GIVEN,
    "plan_swarm": SLICE + GIVEN,
}


def load(path):
    """Returns the calls of the library by their names, with their types."""
    library = ctypes.CDLL(path)
    calls = {name: getattr(library, f"nanobot_{name}") for name in CALLS}
    for name, call in calls.items():
        call.argtypes, call.restype = CALLS[name], ctypes.c_uint32
    return calls


def lend(data):
    """Returns a pointer and a length. None would be a null pointer, which no call takes, also if the length is 0."""
    return (ctypes.c_uint8 * (len(data) + 1)).from_buffer_copy(data + b"\0"), len(data)


def given(call, *lent):
    """Returns the status and the bytes of a call, whose buffer is made larger if it is too small."""
    room = LINE
    while True:
        buffer = (ctypes.c_uint8 * room)()
        size = ctypes.c_size_t()
        status = call(*lent, buffer, room, ctypes.byref(size))
        if status != TOO_SMALL:
            return status, bytes(buffer[: size.value])
        room = size.value


def cost(call, source, target, trace, light):
    """Returns the status of a run, its energy and its steps."""
    energy, steps = ctypes.c_int64(), ctypes.c_uint32()
    lent = [part for data in (source, target, trace) for part in lend(data)]
    status = call(*lent, light, ctypes.byref(energy), ctypes.byref(steps))
    return status, energy.value, steps.value


def bytes_of(name):
    """Returns the bytes of a file, or none for `-`."""
    if name == "-":
        return b""
    with open(name, "rb") as file:
        return file.read()


def plan(calls, kind, source, target, name):
    """Returns the status of a plan and the printed line; the trace is stored."""
    models = {"void": [source], "low": [target], "swarm": [target]}.get(kind, [source, target])
    status, made = given(calls[f"plan_{kind}"], *[part for model in models for part in lend(model)])
    if status != DONE:
        return status, made.decode()
    with open(name, "wb") as file:
        file.write(made)
    _, energy, steps = cost(calls["cost"], source, target, made, False)
    return status, f"plan energy {energy} steps {steps} bytes {len(made)}\n"


def main(path, words):
    calls = load(path)
    light = words[1:2] == ["light"] and len(words) == 5
    names = words[2:] if light else words[1:]
    if words[:1] == ["plan"] and len(words) == 5:
        status, line = plan(calls, words[1], bytes_of(words[2]), bytes_of(words[3]), words[4])
    elif words[:1] == ["check"] and len(names) == 1:
        status, said = given(calls["check"], *lend(bytes_of(names[0])))
        line = said.decode()
    elif words[:1] == ["cost"] and len(names) == 3:
        status, energy, steps = cost(calls["cost"], *map(bytes_of, names), light)
        line = f"ok energy {energy} steps {steps}\n" if status == DONE else ""
    elif words[:1] == ["run"] and len(names) == 3:
        lent = [part for name in names for part in lend(bytes_of(name))]
        status, said = given(calls["judge"], *lent, light)
        line = said.decode()
    else:
        sys.exit(__doc__)
    sys.stdout.write(line)
    sys.exit(status)


main(sys.argv[1], sys.argv[2:])
