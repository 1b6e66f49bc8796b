"""Builds the wheel of this folder with nothing but Python's own library, so that pip needs no network.

The wheel has the shared library that `build_library` has put next to the package's modules. If it is not there, the
build is refused, unless the environment variable NANOBOT_LIBRARY is set: it then names the library whenever the package
is used. `pip install -e` installs a link to this folder.

If NANOBOT_ARCHIVE names the folder of an unpacked archive, the wheel has its program too, and the command `nanobot`;
`scripts/package` makes such a wheel."""

import base64
import hashlib
import os
import re
import zipfile

HERE = os.path.dirname(os.path.abspath(__file__))
NAME, VERSION = "nanobot", "0.9.0"
LIBRARY = "libnanobot.so"
INFO = f"{NAME}-{VERSION}.dist-info"
SUMMARY = "The proved machine, judge and planners of nanobot, from Python"
SCRIPTS = "[console_scripts]\nnanobot-tools = nanobot.__main__:tools_main\nnanobot-explain = nanobot.__main__:explain_main\nnanobot-walk = nanobot.__main__:walk_main\n"
# The oldest C library that a manylinux tag of this form names.
OLDEST_MINOR = 17


def _package_files():
    """Yields the files of the package, by their names in the wheel."""
    for folder, below, names in os.walk(os.path.join(HERE, NAME)):
        below.sort()
        for name in sorted(names):
            if name.endswith(".py") or name in ("py.typed", LIBRARY):
                path = os.path.join(folder, name)
                with open(path, "rb") as file:
                    yield os.path.relpath(path, HERE), file.read()


def _program():
    """Yields the command `nanobot` and the program that it starts, from the archive that the environment names."""
    archive = os.environ.get("NANOBOT_ARCHIVE")
    for name, place in (("nanobot", "scripts"), ("lib/nanobot/nanobot", "data"), ("lib/nanobot/VERSION", "data")):
        if archive:
            with open(os.path.join(archive, name), "rb") as file:
                yield f"{NAME}-{VERSION}.data/{place}/{name}", file.read()


def _metadata():
    with open(os.path.join(HERE, "README.md"), encoding="utf-8") as file:
        page = file.read()
    fields = [
        "Metadata-Version: 2.1",
        f"Name: {NAME}",
        f"Version: {VERSION}",
        f"Summary: {SUMMARY}",
        "Author: The nanobot authors",
        "License: MIT",
        "Keywords: icfp-contest-2018,nanobot,planner",
        "Classifier: License :: OSI Approved :: MIT License",
        "Classifier: Operating System :: POSIX :: Linux",
        "Classifier: Programming Language :: Python :: 3",
        "Classifier: Typing :: Typed",
        "Requires-Python: >=3.9",
        "Description-Content-Type: text/markdown",
    ]
    return "\n".join([*fields, "", page])


def _tag(files):
    """Returns the wheel's tag: that of the oldest C library that has all which the shared library and the program
    call."""
    if f"{NAME}/{LIBRARY}" not in files:
        return "py3-none-any"
    binaries = [data for name, data in files.items() if name.endswith((LIBRARY, "lib/nanobot/nanobot"))]
    minor = max([OLDEST_MINOR, *(int(found) for data in binaries for found in re.findall(rb"GLIBC_2\.(\d+)", data))])
    return f"py3-none-manylinux_2_{minor}_x86_64"


def _sum(data):
    return "sha256=" + base64.urlsafe_b64encode(hashlib.sha256(data).digest()).rstrip(b"=").decode()


def _write_wheel(folder, files, tag):
    """Writes a wheel of these files, and returns its name."""
    kind = f"Wheel-Version: 1.0\nGenerator: wheel_builder\nRoot-Is-Purelib: {'true' if tag.endswith('any') else 'false'}\nTag: {tag}\n"
    info = {"METADATA": _metadata(), "WHEEL": kind, "entry_points.txt": SCRIPTS}
    files = [*files, *((f"{INFO}/{name}", text.encode()) for name, text in info.items())]
    record = "".join(f"{name},{_sum(data)},{len(data)}\n" for name, data in files) + f"{INFO}/RECORD,,\n"
    made = f"{NAME}-{VERSION}-{tag}.whl"
    with zipfile.ZipFile(os.path.join(folder, made), "w") as out:
        for name, data in [*files, (f"{INFO}/RECORD", record.encode())]:
            entry = zipfile.ZipInfo(name, (2026, 1, 1, 0, 0, 0))
            entry.external_attr = (0o100755 if ".data/" in name and name.endswith("/nanobot") else 0o100644) << 16
            out.writestr(entry, data, zipfile.ZIP_DEFLATED)
    return made


def _stop_without_library(files):
    """Ends the build if there is no shared library, unless the environment names one."""
    if f"{NAME}/{LIBRARY}" not in files and not os.environ.get("NANOBOT_LIBRARY"):
        raise SystemExit(
            f"nanobot: there is no {os.path.join(HERE, NAME, LIBRARY)}: run {os.path.join(HERE, 'build_library')} first, "
            "or set NANOBOT_LIBRARY to the shared library that the package is to use"
        )


def build_wheel(wheel_directory, config_settings=None, metadata_directory=None):
    """The hook of `pip install` and `pip wheel`."""
    files = {**dict(_package_files()), **dict(_program())}
    _stop_without_library(files)
    return _write_wheel(wheel_directory, files.items(), _tag(files))


def build_editable(wheel_directory, config_settings=None, metadata_directory=None):
    """The hook of `pip install -e`: the wheel has a link to this folder in place of the package."""
    _stop_without_library(dict(_package_files()))
    return _write_wheel(wheel_directory, [(f"{NAME}.pth", f"{HERE}\n".encode())], "py3-none-any")


def build_sdist(sdist_directory, config_settings=None):
    """There is no source distribution: the library is built by ./prove, not by pip."""
    raise NotImplementedError("install from this folder, or from a wheel")
