#!/usr/bin/env python3
# SPDX-License-Identifier: Apache-2.0
"""Tests of how programs save a file: a new one beside the old one takes its place when its bytes are on the disk.

The programs are the examples in C++ and Python, which call vdb.hpp and the Python package, vdb.scenefile, vdb-scene, tools/vdb-run, and
the converters that `make -C tools/openvdb` builds. They need what tests/c/test_libvdb.py needs, and the program vdb: the variable VDB, else
crates/vdb/out/vdb.
"""
from __future__ import annotations

import functools
import os
import resource
import signal
import stat
import subprocess
import sys
import threading
import unittest
from pathlib import Path

sys.path.insert(0, str(Path(__file__).resolve().parents[1] / "c"))
from test_libvdb import CHECKS, TOOLS, TOP, WAIT, c_example, cpp_example, done, encoding, for_python, run, with_numpy, work  # noqa: E402

VDB = os.environ.get("VDB") or TOP / "crates" / "vdb" / "out" / "vdb"
CONVERTERS = TOOLS / "openvdb"
RESAVE = "import sys\nfrom vdb import scenefile\nscenefile.load(sys.argv[1]).save(sys.argv[2])"


@functools.lru_cache(None)
def savers():
    """The command of each program, without the file that it saves."""
    labels, script, empty = work() / "labels.vdbs", work() / "nothing.txt", work() / "empty.vdbs"
    script.write_text("", encoding="ascii")
    empty.write_bytes(encoding.save([]))
    python = ["env", *(f"{name}={for_python()[name]}" for name in ("PYTHONPATH", "VDB_LIBRARY")), with_numpy()]
    done([CONVERTERS / "vdbs2vdb", labels, work() / "labels.vdb"])
    return {
        "C++": [cpp_example(), labels],
        "Python": [*python, TOP / "examples" / "python" / "labels.py", labels],
        "vdb.scenefile": [*python, "-c", RESAVE, labels],
        "vdb-scene": [*python, "-m", "vdb", "merge", labels, empty],
        "vdb-run": [TOOLS / "vdb-run", "--vdb", VDB, "--load", labels, script, "--save"],
        "vdb2vdbs": [CONVERTERS / "vdb2vdbs", work() / "labels.vdb"],
        "vdbs2vdb": [CONVERTERS / "vdbs2vdb", labels],
    }


def scene_of(name, data) -> bytes:
    """The scene file of what a program saves. A .vdb file, which has an identifier of its own, is converted back."""
    if name != "vdbs2vdb":
        return data
    (work() / "given.vdb").write_bytes(data)
    done([CONVERTERS / "vdb2vdbs", work() / "given.vdb", work() / "back.vdbs"])
    return (work() / "back.vdbs").read_bytes()


@functools.lru_cache(None)
def saved(name) -> bytes:
    """What a program saves, which is a scene file."""
    place = work() / f"saved-{name}"
    done([*savers()[name], place])
    made = scene_of(name, place.read_bytes())
    encoding.load(made)
    return made


class Saving(unittest.TestCase):
    def each(self):
        """Yields each program, its command, and a new folder."""
        for name in savers():
            with self.subTest(name):
                folder = work() / f"{self.id().rsplit('.', 1)[1]}-{name}"
                folder.mkdir()
                yield name, savers()[name], folder

    def check(self, name, folder, *names, file="scene"):
        """Checks that a file of the folder is what the program saves, and that the folder has these files alone."""
        self.assertEqual(scene_of(name, (folder / file).read_bytes()), saved(name))
        self.assertEqual(sorted(it.name for it in folder.iterdir()), sorted(names))

    def test_a_new_file_has_the_permissions_of_the_mask(self):
        for name, words, folder in self.each():
            done([*words, folder / "scene"], preexec_fn=lambda: os.umask(0o027))
            self.check(name, folder, "scene")
            self.assertEqual(stat.S_IMODE((folder / "scene").stat().st_mode), 0o640)

    def test_a_file_that_is_replaced_keeps_its_permissions(self):
        for name, words, folder in self.each():
            (folder / "scene").write_bytes(b"old")
            (folder / "scene").chmod(0o604)
            done([*words, folder / "scene"])
            self.check(name, folder, "scene")
            self.assertEqual(stat.S_IMODE((folder / "scene").stat().st_mode), 0o604)

    def test_links_are_followed(self):
        for name, words, folder in self.each():
            (folder / "behind").mkdir()
            (folder / "behind" / "scene").write_bytes(b"old")
            (folder / "scene").symlink_to("second")
            (folder / "second").symlink_to("behind/scene")
            done([*words, folder / "scene"])
            self.check(name, folder, "behind", "scene", "second")
            self.check(name, folder / "behind", "scene")
            self.assertTrue((folder / "scene").is_symlink() and (folder / "second").is_symlink())

    def test_a_link_to_nothing_is_followed(self):
        for name, words, folder in self.each():
            (folder / "scene").symlink_to("new")
            done([*words, folder / "scene"])
            self.check(name, folder, "new", "scene", file="new")
            self.assertTrue((folder / "scene").is_symlink())

    def test_a_pipe_is_written_itself(self):
        for name, words, folder in self.each():
            os.mkfifo(folder / "scene")
            read = []
            reader = threading.Thread(target=lambda place=folder / "scene", into=read: into.append(place.read_bytes()))
            reader.start()
            done([*words, folder / "scene"])
            reader.join(WAIT)
            self.assertEqual(([scene_of(name, it) for it in read], [it.name for it in folder.iterdir()]), ([saved(name)], ["scene"]))
            self.assertTrue((folder / "scene").is_fifo())

    def test_a_device_is_written_itself(self):
        for _name, words, _folder in self.each():
            done([*words, "/dev/null"])
            self.assertTrue(Path("/dev/null").is_char_device())
            ran = run([*words, "/dev/full"])
            self.assertNotEqual(ran.returncode, 0)
            self.assertIn("/dev/full", ran.stderr)
            self.assertIn("No space left on device", ran.stderr)

    def test_a_fault_leaves_the_old_file(self):
        def limited():
            signal.signal(signal.SIGXFSZ, signal.SIG_IGN)
            resource.setrlimit(resource.RLIMIT_FSIZE, (100, 100))

        for _name, words, folder in self.each():
            (folder / "scene").write_bytes(b"old")
            ran = run([*words, folder / "scene"], preexec_fn=limited)
            self.assertNotEqual(ran.returncode, 0)
            self.assertEqual([(it.name, it.read_bytes()) for it in folder.iterdir()], [("scene", b"old")])

    def test_a_place_that_cant_be_written_is_named(self):
        for _name, words, folder in self.each():
            for place, reason in ((folder / "none" / "scene", "No such file or directory"), (folder, "Is a directory")):
                ran = run([*words, place])
                self.assertNotEqual(ran.returncode, 0)
                self.assertIn(str(place), ran.stderr)
                self.assertIn(reason, ran.stderr)
            self.assertEqual([*folder.iterdir()], [])

    def test_files_of_others_beside_it_stay(self):
        for name, words, folder in self.each():
            (folder / "victim").write_bytes(b"victim")
            (folder / "scene.tmp").symlink_to("victim")
            done([*words, folder / "scene"])
            self.check(name, folder, "scene", "scene.tmp", "victim")
            self.assertEqual((folder / "victim").read_bytes(), b"victim")

    def test_programs_that_save_at_the_same_time(self):
        for name, words, folder in self.each():
            running = [subprocess.Popen([str(it) for it in [*words, folder / "scene"]], stdout=subprocess.DEVNULL) for _ in range(8)]
            self.assertEqual([it.wait(WAIT) for it in running], [0] * 8)
            self.check(name, folder, "scene")

    def test_the_bytes_are_on_the_disk_before_the_name_and_others_cant_read_them(self):
        shim = work() / "order.so"
        done(["gcc", "-O1", "-shared", "-fPIC", "-o", shim, CHECKS / "order.c", "-ldl"])
        for name, words, folder in self.each():
            (folder / "scene").write_bytes(b"old")
            (folder / "scene").chmod(0o600)
            log = work() / f"order-{name}"
            done([*words, folder / "scene"], env={**os.environ, "LD_PRELOAD": str(shim), "ORDER": str(log), "ORDER_BELOW": f"{folder}/"})
            self.assertEqual(log.read_text(encoding="ascii").split(), ["fsync", "rename", "fsync"])


class Example(unittest.TestCase):
    def test_the_example_in_c_makes_new_files_alone(self):
        folder = work() / "example"
        folder.mkdir()
        place = folder / "scene"
        place.write_bytes(b"old")
        ran = run([c_example(), work() / "labels.vdbs", place])
        self.assertEqual((ran.returncode, ran.stderr, place.read_bytes()), (1, f"{place}: File exists\n", b"old"))


if __name__ == "__main__":
    unittest.main()
