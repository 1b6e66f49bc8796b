"""Tests of the wheel that pip builds, without pip."""

import os
import sys
import tempfile
import unittest
import unittest.mock
import zipfile

HERE = os.path.dirname(os.path.dirname(os.path.abspath(__file__)))
sys.path.insert(0, HERE)
import wheel_builder


def names_and_metadata(folder, wheel):
    with zipfile.ZipFile(os.path.join(folder, wheel)) as read:
        return read.namelist(), read.read(f"{wheel_builder.INFO}/METADATA").decode()


class Wheels(unittest.TestCase):
    def build(self, files, library, build=wheel_builder.build_wheel):
        """The name of a wheel of these files, the names in it, and its metadata; the environment names the library."""
        with unittest.mock.patch.dict(os.environ, NANOBOT_LIBRARY=library), tempfile.TemporaryDirectory() as folder:
            with unittest.mock.patch.object(wheel_builder, "_package_files", lambda: iter(files.items())):
                made = build(folder)
            return made, *names_and_metadata(folder, made)

    def test_without_a_library(self):
        files = {"nanobot/__init__.py": b""}
        for build in (wheel_builder.build_wheel, wheel_builder.build_editable):
            with self.assertRaisesRegex(SystemExit, "build_library first"):
                self.build(files, "", build)
        made, names, _ = self.build(files, "/lib/libnanobot.so")
        self.assertEqual(made, "nanobot-0.9.0-py3-none-any.whl")
        self.assertIn("nanobot/__init__.py", names)

    def test_the_tag_names_the_oldest_c_library(self):
        for symbols, tag in ((b"GLIBC_2.2.5\0GLIBC_2.14\0", "manylinux_2_17"), (b"GLIBC_2.34\0GLIBC_2.4\0", "manylinux_2_34")):
            made, _, page = self.build({"nanobot/libnanobot.so": symbols}, "")
            self.assertEqual(made, f"nanobot-0.9.0-py3-none-{tag}_x86_64.whl")
        for line in ("Name: nanobot", "License: MIT", "Requires-Python: >=3.9"):
            self.assertIn(line, page.splitlines())

    def test_an_editable_wheel_has_a_link(self):
        made, names, _ = self.build({"nanobot/libnanobot.so": b""}, "", wheel_builder.build_editable)
        self.assertIn("nanobot.pth", names)
        self.assertNotIn("nanobot/libnanobot.so", names)


if __name__ == "__main__":
    unittest.main()
