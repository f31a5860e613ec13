# SPDX-License-Identifier: Apache-2.0
"""Scenes, their files with digests, and the scenes that the program saves."""
import gzip
import os
import subprocess
import tempfile
import time
import unittest
from pathlib import Path
from unittest import mock

from .support import CommandCase, chance, encoding, library_missing, made_by_program, needs_program, np, play, scenefile, vdb

from random_scripts import Script

SEEDS = range(150)
#: Commands that are left out: reports change nothing, and an unproved build takes long for the others.
SLOW = ("list", "slice", "census", "dilate", "erode", "voxelise")
#: No further script is played after so many seconds. An unproved build, whose checks are on, plays some 30 scripts by then.
SECONDS = 15


class Scenes(unittest.TestCase):
    def test_mapping(self):
        scene = scenefile.Scene({"b": scenefile.Grid("i32"), "a": scenefile.Grid("bool")})
        self.assertEqual((list(scene), len(scene), "a" in scene), (["a", "b"], 2, True))
        del scene["a"]
        self.assertEqual(list(scenefile.loads(scene.to_bytes())), ["b"])
        for name in ("", "A", "a" * 17, "a b", "é", "a\n", "1"):
            with self.assertRaises(ValueError, msg=name):
                scene[name] = scenefile.Grid("i32")
        for name, grid in ((5, scenefile.Grid("i32")), ("a", np.zeros((1, 1, 1)))):
            with self.assertRaises(TypeError):
                scene[name] = grid
        for at in range(63):
            scene[f"g{at}"] = scenefile.Grid("i64", -1)
        with self.assertRaises(ValueError):
            scene["z"] = scenefile.Grid("i32")
        self.assertEqual(list(scenefile.loads(scene.to_bytes())), list(scene))

    def test_save(self):
        scene = scenefile.Scene({"a": scenefile.Grid.from_array(np.ones((3, 3, 3), np.int32))})
        with tempfile.TemporaryDirectory() as folder:
            path = Path(folder) / "a.vdbs"
            path.write_bytes(b"old")
            path.chmod(0o640)
            os.symlink(path, f"{folder}/link")
            scene.save(f"{folder}/link")
            self.assertEqual((path.read_bytes(), path.stat().st_mode & 0o777), (scene.to_bytes(), 0o640))
            self.assertEqual(scenefile.load(path).to_bytes(), scene.to_bytes())
            self.assertEqual(sorted(os.listdir(folder)), ["a.vdbs", "link"])

    def test_failed_save(self):
        """After a fault the old file stays, and no temporary one."""
        scene = scenefile.Scene({"a": scenefile.Grid.from_array(np.ones((3, 3, 3), np.int32))})
        with tempfile.TemporaryDirectory() as folder:
            path = Path(folder) / "a.vdbs"
            path.write_bytes(b"old")
            with mock.patch("vdb.scenefile.scene.MAX_FILE", 50), self.assertRaises(vdb.SceneTooLongError):
                scene.save(path)
            with mock.patch("os.replace", side_effect=OSError("no")), self.assertRaises(OSError):
                scene.save(path)
            self.assertEqual((path.read_bytes(), os.listdir(folder)), (b"old", ["a.vdbs"]))
            with self.assertRaises(FileNotFoundError):
                scene.save(f"{folder}/none/a.vdbs")

    def test_load(self):
        with tempfile.TemporaryDirectory() as folder:
            path = f"{folder}/bad.vdbs"
            Path(path).write_bytes(b"VDBS\0\2\0\1\1A")
            with self.assertRaises(vdb.NameFault) as caught:
                scenefile.load(path)
            self.assertEqual((caught.exception.path, caught.exception.offset), (path, 9))
            self.assertTrue(str(caught.exception).startswith(f"{path}: byte 9: name: "))
            with self.assertRaises(FileNotFoundError):
                scenefile.load(f"{folder}/none")

    def test_sparse_file(self):
        """A file far above the limit: read no further than a byte past it."""
        with tempfile.TemporaryDirectory() as folder:
            path = f"{folder}/large.vdbs"
            Path(path).write_bytes(scenefile.Scene().to_bytes())
            os.truncate(path, 2**40)
            with self.assertRaises(vdb.TrailingFault) as caught:
                scenefile.load(path)
            self.assertEqual(caught.exception.offset, 8)


@needs_program
class Program(unittest.TestCase):
    def test_random_scripts(self):
        """What random scripts save: the same bytes after loading and saving, and the same counts and bounding boxes."""
        seen, begun = 0, time.monotonic()
        for seed in SEEDS:
            if time.monotonic() > begun + SECONDS and seen >= 20:
                break
            maker = Script(chance(seed))
            lines = [line for line in maker.lines(maker.chance.randint(5, 25)) if not line.startswith(SLOW)]
            asked = [f"{word} {name} all" if word == "count" else f"{word} {name}" for name in "abcd" for word in ("count", "bounds")]
            data, answers = made_by_program("".join(f"{line}\n" for line in [*lines, *asked]).encode())
            scene = scenefile.loads(data)
            self.assertEqual(scene.to_bytes(), data, seed)
            for line, answer in zip(asked, answers.splitlines()[-len(asked) :]):
                word, name = line.split()[:2]
                if name not in scene:
                    self.assertEqual(answer, "error no-grid", (seed, line))
                    continue
                grid = scene[name]
                wanted = grid.count if word == "count" else "none"
                if word == "bounds" and grid.bounds:
                    wanted = " ".join(str(part) for corner in grid.bounds for part in corner)
                self.assertEqual(answer, f"{word} {wanted}", (seed, line))
                seen += grid.count > 0
        self.assertGreaterEqual(seen, 20)

    def test_arrays_in_the_program(self):
        """The program loads what the package makes of an array, and saves the same bytes."""
        values = np.zeros((13, 11, 12), np.int32)
        values[3:12, 2:10, 1:9] = 6
        values[4, 4, 4] = -7
        grid = scenefile.Grid.from_array(values, origin=(-4, -130, 4088), limit=9, metadata={"unit": "mm"})
        with tempfile.TemporaryDirectory() as folder:
            scenefile.Scene({"a": grid}).save(f"{folder}/a.vdbs")
            data = Path(f"{folder}/a.vdbs").read_bytes()
            self.assertEqual(encoding.verdict(data), data)
            script = b"count a all\nget a - 0 -126 4092\nmetas a\n"
            answers = play(script, "--load", f"{folder}/a.vdbs", "--save", f"{folder}/b.vdbs")
            self.assertEqual(answers, f"count {np.count_nonzero(values)}\nvalue -7 on\nunit mm\nend 1\n")
            self.assertEqual(Path(f"{folder}/b.vdbs").read_bytes(), data)


class Images(CommandCase):
    def test_an_image_is_no_scene_file(self):
        """The error of an image names what reads it, whether the file is compressed or not."""
        header = b"\\\1\0\0" + bytes(348)  # of NIfTI: its length of 348 bytes comes first
        (self.folder / "x.nii").write_bytes(header)
        (self.folder / "x.nii.gz").write_bytes(gzip.compress(header))
        (self.folder / "x.vdbs").write_bytes(header)
        for load in (scenefile.load, *([] if library_missing() else [vdb.load])):
            for name in ("x.nii", "x.nii.gz", "x.vdbs"):
                with self.assertRaisesRegex(vdb.MagicFault, "VDBS") as caught:
                    load(name)
                told = ". For an image use vdb.formats.load, or vdb-scene convert IMAGE x.vdbs"
                self.assertEqual(str(caught.exception).endswith(told), name != "x.vdbs", name)


class Digests(CommandCase):
    def test_a_scene_file_and_its_digest(self):
        grid = np.arange(27, dtype=np.int32).reshape(3, 3, 3)
        for package in (scenefile, *([] if library_missing() else [vdb])):
            package.Scene({"a": package.Grid.from_array(grid)}).save("a.vdbs", digest=True)
            subprocess.run(["sha256sum", "--check", "--strict", "--quiet", "a.vdbs.sha256"], check=True)
            self.assertEqual(package.load("a.vdbs", digest=True)["a"], package.Grid.from_array(grid))
            data = bytearray((self.folder / "a.vdbs").read_bytes())
            data[-1] ^= 1  # another value, and no fault of the format
            (self.folder / "a.vdbs").write_bytes(data)
            self.assertNotEqual(package.load("a.vdbs")["a"], package.Grid.from_array(grid))
            with self.assertRaisesRegex(vdb.DigestError, "a.vdbs: the file isn't the one whose digest is in a.vdbs.sha256"):
                package.load("a.vdbs", digest=True)
            (self.folder / "a.vdbs.sha256").unlink()
            with self.assertRaisesRegex(vdb.MissingFileError, "a.vdbs.sha256: No such file"):
                package.load("a.vdbs", digest=True)

    def test_the_command(self):
        np.save("in.npy", np.arange(27).reshape(3, 3, 3))
        self.run_it("convert", "in.npy", "a.vdbs", "--grid", "a", "--digest")
        subprocess.run(["sha256sum", "--check", "--strict", "--quiet", "a.vdbs.sha256"], check=True)
        self.run_it("convert", "a.vdbs", "out.npy", "--digest")
        scenefile.Scene().save("a.vdbs")
        for words in (("a.vdbs", "out.npy"), ("in.npy", "a.vdbs", "--grid", "a")):  # no new digest hides the damage
            self.fails("convert", *words, "--digest", told="a.vdbs: the file isn't the one whose digest is in a.vdbs.sha256")


if __name__ == "__main__":
    unittest.main()
