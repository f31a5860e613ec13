# SPDX-License-Identifier: Apache-2.0
"""The wheel, as a user builds it by Python's own tools and installs it: in a virtual environment, without a network."""
import importlib.util
import os
import re
import shutil
import subprocess
import sys
import tempfile
import unittest
import zipfile
from pathlib import Path

from .support import TOP, library_missing

from vdb.library import places

USE = """
import os, pickle, sys
import numpy as np
import vdb
from vdb import library, scenefile
assert os.path.commonpath([vdb.__file__, sys.prefix]) == sys.prefix, vdb.__file__
assert next(library.places()) == os.path.join(os.path.dirname(vdb.__file__), "libvdb.so")
grid = vdb.Grid.from_array(np.ones((3, 3, 3), np.int32))
grid.dilate()
assert grid.count == 27 + 6 * 9
vdb.Scene({"a": grid}).save(sys.argv[1])
assert scenefile.load(sys.argv[1])["a"].count == grid.count
"""


BUILD = [sys.executable, "-m", "build", "--wheel", "--no-isolation", "--outdir"]


@unittest.skipIf(library_missing(), library_missing())
class Wheel(unittest.TestCase):
    def setUp(self):
        holder = tempfile.TemporaryDirectory()
        self.addCleanup(holder.cleanup)
        self.folder = Path(holder.name)
        library = next(it for it in places() if os.path.isfile(it))
        self.environment = {key: value for key, value in os.environ.items() if key not in ("PYTHONPATH", "VDB_LIBRARY")}
        self.library = {**self.environment, "VDB_LIBRARY": library}

    def run_it(self, *words, status=0, **more):
        """Runs a command, which must end with this status. Returns what it prints."""
        ran = subprocess.run([str(it) for it in words], cwd=self.folder, capture_output=True, text=True, timeout=300, **more)
        self.assertEqual(ran.returncode, status, ran.stdout + ran.stderr)
        return ran.stdout + ran.stderr

    def made(self, name="out"):
        for module in ("build", "wheel"):
            if not importlib.util.find_spec(module):
                self.skipTest(f"the module {module} is missing: Debian has it in python3-{module}")
        environment = {**self.library, "SOURCE_DATE_EPOCH": "1700000000"}
        self.run_it(*BUILD, self.folder / name, TOP / "python", env=environment)
        (wheel,) = (self.folder / name).iterdir()
        return wheel

    def test_contents(self):
        wheel = self.made()
        self.assertRegex(wheel.name, r"\Avdb-[\d.]+-py3-none-manylinux_2_17_x86_64\.whl\Z")
        names = zipfile.ZipFile(wheel).namelist()
        files = {str(it.relative_to(TOP / "python")) for it in (TOP / "python" / "vdb").rglob("*.py")}
        pages = {f"vdb/command/{name}" for name in ("page.html", "page.js", "faces.js")}
        self.assertLessEqual(files | pages | {"vdb/libvdb.so", "vdb/py.typed"}, {*names})
        self.assertEqual(zipfile.ZipFile(wheel).read("vdb/libvdb.so"), Path(self.library["VDB_LIBRARY"]).read_bytes())
        self.assertEqual(self.made("again").read_bytes(), wheel.read_bytes())

    def test_the_extras_are_kept(self):
        wheel = zipfile.ZipFile(self.made())
        about = wheel.read(next(it for it in wheel.namelist() if it.endswith("/METADATA"))).decode()
        project = (TOP / "python" / "pyproject.toml").read_text(encoding="utf-8")
        extras = re.findall(r"^(\w+) = ", project.partition("[project.optional-dependencies]")[2].partition("\n[")[0], re.M)
        self.assertEqual(re.findall(r"^Provides-Extra: (\w+)$", about, re.M), extras)

    def test_errors(self):
        self.made()
        for library in ("/missing.so", __file__):
            said = self.run_it(*BUILD, self.folder / "none", TOP / "python", status=1, env={**self.environment, "VDB_LIBRARY": library})
            self.assertIn(f"{library}: no shared library for x86-64: build it by tools/build-libvdb", said)
        self.assertFalse([*self.folder.glob("none/*")])

    def test_install(self):
        for name in ("venv", "ensurepip"):
            if not importlib.util.find_spec(name):
                self.skipTest(f"the module {name} is missing: Debian has it in python3-venv")
        self.run_it(sys.executable, "-m", "venv", "--system-site-packages", "env", env=self.environment)
        python = self.folder / "env" / "bin" / "python"
        self.run_it(python, "-m", "pip", "install", "--no-index", "--disable-pip-version-check", self.made(), env=self.environment)
        self.run_it(python, "-c", USE, "a.vdbs", env=self.environment)
        self.assertIn("active voxels  81\n", self.run_it(self.folder / "env" / "bin" / "vdb-scene", "info", "a.vdbs", env=self.environment))
        self.run_it(self.folder / "env" / "bin" / "vdb-scene", "view", "a.vdbs", "a", "a.html", env=self.environment)
        self.assertIn("</html>", (self.folder / "a.html").read_text(encoding="utf-8"))
        shutil.rmtree(self.folder / "env")


if __name__ == "__main__":
    unittest.main()
