# SPDX-License-Identifier: Apache-2.0
"""Stores of zarr as files of images, and scene files that gzip compresses."""
import gzip
import json
import subprocess
import unittest
import warnings

from .support import PROGRAM, CommandCase, chance, library_missing, needs_program, np, random_array, scenefile, vdb

from vdb import formats, label_names

try:
    import zarr
except ImportError as error:
    raise unittest.SkipTest("zarr is missing: Debian has it as python3-zarr") from error
if library_missing():
    raise unittest.SkipTest(library_missing())

LOW, AFFINE = (-9, 3, 4090), np.array([[-0.5, 0, 0, 10.25], [0, 0.25, 0.125, -3], [0, -0.75, 2.5, 7]])


class Stores(CommandCase):
    def array(self, path):
        """The array that a reader of OME-Zarr finds, with the axes x, y, z."""
        group = zarr.open_group(str(path), "r")
        return group[group.attrs["multiscales"][0]["datasets"][0]["path"]][...].T

    def test_images_come_back(self):
        """Values in their dtype, states, background, affine, units and first voxel, through `vdb.Grid` and `vdb.scenefile`."""
        for dtype in ("bool", "uint8", "int8", "uint16", "int16", "uint32", "int32", "int64", "uint64", "float32"):
            values = (np.arange(9 * 8 * 7).reshape(9, 8, 7) % 5 - (np.dtype(dtype).kind == "i")).astype(dtype)
            formats.write(self.folder / "a.nrrd", formats.Volume(values, AFFINE, LOW, {"image_units": "mm"}, np.dtype(dtype)))
            for package in (vdb, scenefile):
                with self.subTest(dtype, package=package.__name__):
                    grid = formats.load(self.folder / "a.nrrd", package.Grid)
                    formats.save(self.folder / "a.zarr", grid)
                    again = formats.load(self.folder / "a.zarr", package.Grid)
                    self.assertEqual((again, dict(again.metadata)), (grid, dict(grid.metadata)))
                    found = self.array(self.folder / "a.zarr")
                    self.assertEqual(found.dtype.kind in "iu", True)
                    np.testing.assert_array_equal(found, values)

    def test_states_and_backgrounds_come_back(self):
        for seed, kind, background in ((1, "i32", 0), (2, "i32", -1), (3, "i64", 5), (4, "bool", False), (5, "bool", True)):
            values, active = random_array(chance(seed), kind, background, LOW, (20, 16, 12))
            grid = vdb.Grid.from_array(values, active, LOW, background)
            formats.save(self.folder / "a.zarr", grid, bounds=(LOW, (10, 18, 4101)))
            self.assertEqual(formats.load(self.folder / "a.zarr", vdb.Grid), grid)
            formats.save(self.folder / "b.zarr", vdb.Mask(grid), bounds=(LOW, (10, 18, 4101)))
            np.testing.assert_array_equal(self.array(self.folder / "b.zarr"), active)

    def test_checksums_of_another_number(self):
        """A header that promises 2^32 checksums is an error before memory is allocated, in `load` and where a part is read."""
        from vdb import chunks

        formats.save(self.folder / "a.zarr", vdb.Grid.from_array(np.ones((3, 3, 3), np.int32)))
        chunk = next((self.folder / "a.zarr").glob("*/sums/0/0/0/0"))
        data = chunk.read_bytes()
        chunk.write_bytes(data[:4] + (2**31 - 1).to_bytes(4, "little") + data[8:])  # the size that the head of Blosc tells of
        with self.assertRaisesRegex(vdb.VdbError, "a.zarr: .*which isn't the length that Blosc wrote"):
            formats.load(self.folder / "a.zarr", vdb.Grid)
        chunk.write_bytes(data)
        header = next((self.folder / "a.zarr").glob("*/sums/.zarray"))
        header.write_text(json.dumps({**json.loads(header.read_text()), "shape": [2, 1, 1, 2**32 - 1]}))
        with self.assertRaisesRegex(vdb.VdbError, "a.zarr: .*the checksums of the chunks are others"):
            formats.load(self.folder / "a.zarr", vdb.Grid)
        with self.assertRaisesRegex(vdb.VdbError, "a.zarr: .*checksums of 4,294,967,295 chunks, where the array has 1"):
            chunks.from_array(self.folder / "a.zarr", self.folder / "b.zarr")

    def test_voxels_outside_an_image(self):
        from vdb import chunks

        pairs = {"image_array": "uint8,9,9,9", "affine_x": "2,0,0,0", "affine_y": "0,1,0,0", "affine_z": "0,0,1,0"}
        volume = chunks.from_array(np.pad(np.ones((3, 3, 3), np.uint8), 3), self.folder / "a.zarr", metadata=pairs)
        with warnings.catch_warnings():
            warnings.simplefilter("error")
            self.assertEqual(dict(formats.load(volume.dilate(3, self.folder / "b.zarr").folder, vdb.Grid).metadata), pairs)
        with self.assertWarnsRegex(vdb.VdbWarning, "b.zarr: active voxels lie outside the image"):
            grid = formats.load(volume.dilate(4, self.folder / "b.zarr").folder, vdb.Grid)
        self.assertEqual((grid.image.shape, grid.bounds), ((11, 11, 11), ((-1,) * 3, (9,) * 3)))

    def test_stores_of_others(self):
        values = np.arange(60).reshape(5, 4, 3).astype(np.uint16)
        zarr.save_array(str(self.folder / "array.zarr"), values)
        np.testing.assert_array_equal(formats.read(self.folder / "array.zarr").values, values)
        group = zarr.open_group(str(self.folder / "image.zarr" ), "w").create_group("labels/cells")
        group.create_dataset("0", data=values.T)
        scale = {"type": "scale", "scale": [3, 2, 1]}
        group.attrs["multiscales"] = [{"version": "0.4", "axes": [{"name": it} for it in "zyx"],
                                       "datasets": [{"path": "0", "coordinateTransformations": [scale]}]}]  # fmt: skip
        found = formats.read(self.folder / "image.zarr" / "labels" / "cells")
        np.testing.assert_array_equal(found.values, values)
        np.testing.assert_array_equal(found.affine, np.diag([1.0, 2, 3, 1])[:3])
        for path, error in (("none.zarr", vdb.MissingFileError), ("image.zarr", vdb.VolumeError)):
            with self.subTest(path), self.assertRaisesRegex(error, path):
                formats.read(self.folder / path)
        with self.assertRaises(vdb.ArrayTooLargeError):
            formats.read(self.folder / "array.zarr", max_bytes=119)
        with self.assertRaisesRegex(vdb.VolumeError, "array.zarr: another array"):
            formats.save(self.folder / "array.zarr", vdb.Grid.from_array(values))

    def test_names_of_another_form(self):
        for wrong in ([], {"colors": [{"rgba": [1, 2, 3, 4]}]}, {"colors": [{"label-value": 1, "rgba": [1]}]}, {"properties": [{"label-value": "a"}]}):
            with self.subTest(wrong), self.assertRaisesRegex(vdb.VolumeError, "the attribute image-label has another form"):
                label_names.of_image_label(wrong)

    def test_convert_there_and_back_with_names(self):
        values = np.zeros((10, 9, 8), np.uint8)
        values[2:5, 2:4, 1:7] = 3
        formats.write(self.folder / "in.nrrd", formats.Volume(values, AFFINE))
        names = {3: label_names.Label("liver", (255, 136, 0))}
        label_names.write(self.folder / "in.tsv", names)
        self.run_it("convert", "in.nrrd", "a.vdbs", "--gzip")
        self.run_it("convert", "a.vdbs.gz", "b.zarr")
        self.assertEqual(json.loads((self.folder / "b.zarr" / ".zattrs").read_text())["image-label"]["properties"], [{"label-value": 3, "name": "liver"}])
        self.run_it("convert", "b.zarr", "c.vdbs")
        one, other = scenefile.load(self.folder / "a.vdbs.gz")["in"], scenefile.load(self.folder / "c.vdbs")["b"]
        self.assertEqual((one, dict(one.metadata)), (other, dict(other.metadata)))
        self.assertEqual(label_names.of(self.folder / "c.vdbs", "b"), names)


class Gzip(CommandCase):
    def test_a_compressed_scene_file(self):
        values = np.random.default_rng(1).integers(0, 3, (20, 20, 20))
        for package in (vdb, scenefile):
            scene, seen = package.Scene({"a": package.Grid.from_array(values)}), []
            scene.save("a.vdbs.gz", lambda *done: seen.append(done), digest=True)
            self.assertEqual(gzip.decompress((self.folder / "a.vdbs.gz").read_bytes()), scene.to_bytes())
            self.assertEqual(seen[-1], (len(scene.to_bytes()),) * 2)
            subprocess.run(["sha256sum", "-c", "--quiet", "a.vdbs.gz.sha256"], check=True, timeout=60)
            self.assertEqual(package.load("a.vdbs.gz", digest=True)["a"], scene["a"])
            data = (self.folder / "a.vdbs.gz").read_bytes()
            for wrong in (data[:-1], data[: len(data) // 2], data[:-5] + bytes([data[-5] ^ 1]) + data[-4:], b"", b"VDBS", scene.to_bytes()):
                (self.folder / "b.vdbs.gz").write_bytes(wrong)
                with self.assertRaisesRegex(vdb.VdbError, "b.vdbs.gz: "):
                    package.load("b.vdbs.gz")

    @needs_program
    def test_the_program_reads_what_zcat_prints(self):
        vdb.Scene({"a": vdb.Grid.from_array(np.ones((3, 3, 3), int))}).save("a.vdbs.gz")
        (self.folder / "count.txt").write_text("count a all\n")
        words = ["sh", "-c", f"zcat a.vdbs.gz | {PROGRAM} --load /dev/stdin count.txt"]
        self.assertEqual(subprocess.run(words, capture_output=True, timeout=60, check=True).stdout, b"count 27\n")


if __name__ == "__main__":
    unittest.main()
