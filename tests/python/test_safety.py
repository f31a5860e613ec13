# SPDX-License-Identifier: Apache-2.0
"""Files are replaced whole: their modes, links, devices and errors. And what the package is: its types, the examples of its docstrings, and what it needs."""
import doctest
import inspect
import os
import stat
import subprocess
import sys
import tempfile
import threading
import unittest
from pathlib import Path
from unittest import mock

from .support import TOP, library_missing, np, scenefile, vdb

from vdb import chunks, formats
from vdb.files import replacing


NAMES = {"np": np, "vdb": vdb, "scenefile": scenefile, "formats": formats, "chunks": chunks}


def public(module):
    """The public classes and functions of a module, but for errors and warnings."""
    found = {name: getattr(module, name) for name in module.__all__}
    return {name: it for name, it in found.items() if inspect.isroutine(it) or inspect.isclass(it) and not issubclass(it, Exception)}


class Files(unittest.TestCase):
    def setUp(self):
        holder = tempfile.TemporaryDirectory()
        self.addCleanup(holder.cleanup)
        self.folder = Path(holder.name)
        self.path = self.folder / "a"

    def write(self, path, data=b"new"):
        with replacing(path) as file:
            file.write(data)

    def mode(self, path):
        return stat.S_IMODE(path.stat().st_mode)

    def test_the_mode_stays_from_the_first_byte_on(self):
        for mode in (0o600, 0o640, 0o444):
            self.path.write_bytes(b"old")
            self.path.chmod(mode)
            with replacing(self.path) as file:
                (temporary,) = [it for it in self.folder.iterdir() if it != self.path]
                self.assertEqual((self.mode(temporary), self.path.read_bytes()), (mode, b"old"))
                file.write(b"new")
            self.assertEqual((self.mode(self.path), self.path.read_bytes(), len(os.listdir(self.folder))), (mode, b"new", 1))
            self.path.unlink()

    def test_a_new_file_has_the_mode_of_the_mask(self):
        before = os.umask(0o027)
        self.addCleanup(os.umask, before)
        self.write(self.path)
        self.assertEqual(self.mode(self.path), 0o640)

    def test_links_are_followed(self):
        self.path.write_bytes(b"old")
        inner = self.folder / "inner"
        inner.mkdir()
        (inner / "link").symlink_to("../a")
        (inner / "chain").symlink_to("link")
        self.write(inner / "chain")
        self.assertEqual((self.path.read_bytes(), (inner / "chain").is_symlink(), sorted(os.listdir(inner))), (b"new", True, ["chain", "link"]))
        (inner / "new").symlink_to("../b")
        self.write(inner / "new")
        self.assertEqual((self.folder / "b").read_bytes(), b"new")

    def test_a_pipe_is_written_itself(self):
        os.mkfifo(self.path)
        found = []
        reader = threading.Thread(target=lambda: found.append(self.path.read_bytes()))
        reader.start()
        self.write(self.path)
        reader.join(10)
        self.assertEqual((found, stat.S_ISFIFO(self.path.stat().st_mode), os.listdir(self.folder)), ([b"new"], True, ["a"]))
        self.write("/dev/null")
        self.assertTrue(stat.S_ISCHR(os.stat("/dev/null").st_mode))

    def test_a_strangers_temporary_file_is_left_alone(self):
        with mock.patch("secrets.token_hex", return_value="0"):
            (self.folder / ".0.tmp").write_bytes(b"other")
            with self.assertRaises(vdb.FileError):
                self.write(self.path)
        self.assertEqual(((self.folder / ".0.tmp").read_bytes(), os.listdir(self.folder)), (b"other", [".0.tmp"]))

    def test_the_file_is_on_the_disk_before_it_has_the_name(self):
        done = []
        with mock.patch("os.fsync", side_effect=lambda _: done.append("sync")), mock.patch("os.replace", side_effect=lambda *_: done.append("name")):
            self.write(self.path)
        self.assertEqual(done, ["sync", "name", "sync"])

    def test_after_an_error_the_old_file_stays(self):
        self.path.write_bytes(b"old")
        for call in ("os.fsync", "os.replace"):
            with mock.patch(call, side_effect=OSError(28, "No space left on device")):
                with self.assertRaisesRegex(vdb.FileError, f"^{self.path}: No space left"):
                    self.write(self.path)
        with self.assertRaises(KeyboardInterrupt), replacing(self.path):
            raise KeyboardInterrupt
        self.assertEqual((self.path.read_bytes(), os.listdir(self.folder)), (b"old", ["a"]))

    def test_many_savers_at_once(self):
        scene = scenefile.Scene({"a": scenefile.Grid.from_array(np.ones((9, 9, 9), np.int32))})
        threads = [threading.Thread(target=lambda: [scene.save(self.path) for _ in range(10)]) for _ in range(4)]
        for thread in threads:
            thread.start()
        for thread in threads:
            thread.join()
        self.assertEqual((self.path.read_bytes(), os.listdir(self.folder)), (scene.to_bytes(), ["a"]))


class Package(unittest.TestCase):
    def test_without_the_library(self):
        text = (
            "import vdb\nfrom vdb import scenefile\nscenefile.loads(scenefile.Scene({'a': scenefile.Grid('i32')}).to_bytes())\n"
            "for call in (lambda: vdb.Grid('i32'), lambda: vdb.load('/dev/null'), lambda: vdb.Scene().to_bytes()):\n"
            "    try:\n        call()\n    except ImportError as error:\n        print(error)\n"
        )
        environment = {**os.environ, "PYTHONPATH": str(TOP / "python"), "VDB_LIBRARY": "/missing.so"}
        ran = subprocess.run([sys.executable, "-c", text], env=environment, capture_output=True, text=True, timeout=60)
        self.assertEqual((ran.returncode, ran.stderr, ran.stdout.count("build it by tools/build-libvdb")), (0, "", 3))

    def test_every_public_name_is_documented(self):
        for module in (vdb, scenefile, formats):
            for name in module.__all__:
                it = getattr(module, name)
                parts = inspect.getmembers(it, lambda part: inspect.isroutine(part) or isinstance(part, property)) if inspect.isclass(it) else []
                documented = [(name, it)] * callable(it) + [(f"{name}.{part}", what) for part, what in parts if part[0] != "_"]
                self.assertEqual([name for name, what in documented if not inspect.getdoc(what)], [], module.__name__)

    def test_types(self):
        """mypy accepts the package and a use of it, and finds a wrong one."""
        try:
            import mypy.api
        except ImportError:
            self.skipTest("mypy is missing: Debian has it as mypy")
        with tempfile.TemporaryDirectory() as folder:
            config = str(TOP / "python" / "pyproject.toml")
            report, errors, status = mypy.api.run(["--cache-dir", folder, "--config-file", config, str(TOP / "python" / "vdb")])
            self.assertEqual((status, errors), (0, ""), report)
            use = Path(folder) / "use.py"
            use.write_text(
                "import numpy as np\nimport vdb\ngrid = vdb.Grid(np.int32, limit=3)\ncount: int = grid.count\n"
                "scene = vdb.Scene({'a': grid})\nscene['a'].dilate(2)\nvalues, active = vdb.load('a')['a'].to_array()\n"
            )
            words = ["--cache-dir", folder, str(use)]
            with mock.patch.dict(os.environ, {"MYPYPATH": str(TOP / "python")}):
                report, errors, status = mypy.api.run(words)
                self.assertEqual((status, errors), (0, ""), report)
                use.write_text(use.read_text() + "grid.dilate('2')\n")
                self.assertRegex(mypy.api.run(words)[0], r'use.py:8: error: Argument 1 to "dilate"')

    @unittest.skipIf(library_missing(), library_missing())
    def test_each_public_class_and_function_has_examples_that_hold(self):
        """They run in an empty folder, and none is skipped."""
        before = os.getcwd()
        for module in (vdb, scenefile, formats, chunks, vdb.labels):
            for name, it in public(module).items():
                with self.subTest(f"{module.__name__}.{name}"), tempfile.TemporaryDirectory() as folder:
                    self.assertIn("\n\nExamples\n--------\n>>> ", inspect.getdoc(it))
                    self.assertNotIn("doctest:", it.__doc__)
                    example = doctest.DocTestParser().get_doctest(it.__doc__, dict(NAMES), name, None, None)
                    said = []
                    os.chdir(folder)
                    try:
                        ran = doctest.DocTestRunner().run(example, out=said.append)
                    finally:
                        os.chdir(before)
                    self.assertEqual((ran.failed, ran.attempted > 0), (0, True), "".join(said))


if __name__ == "__main__":
    unittest.main()
