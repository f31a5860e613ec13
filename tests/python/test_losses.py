# SPDX-License-Identifier: Apache-2.0
"""Nothing of an image or a grid is lost in silence: it comes back, or a warning or an error names the file and what is lost."""
import contextlib
import unittest
import warnings

from .support import CommandCase, library_missing, np, vdb

from vdb import formats, label_names

try:
    import nibabel
    import tifffile
    import zarr
except ImportError as error:
    raise unittest.SkipTest(f"nibabel, tifffile or zarr is missing: {error}") from error
if library_missing():
    raise unittest.SkipTest(library_missing())

ARRAY = np.zeros((6, 5, 4), np.uint8)
ARRAY[1:4, 1:4, 1:3], ARRAY[4, 4, 3] = 3, 7
AFFINE = np.array([[0, 2, 0, 5], [-1, 0, 0, 6], [0, 0, 3, 7], [0, 0, 0, 1.0]])
ENDINGS = ("nii", "nii.gz", "nrrd", "tif", "vti", "npy", "zarr")
Label = label_names.Label


class Losses(CommandCase):
    def setUp(self):
        super().setUp()
        image = nibabel.Nifti1Image(ARRAY, AFFINE)
        image.header.set_xyzt_units("mm")
        nibabel.save(image, "a.nii.gz")
        self.grid = formats.load("a.nii.gz", vdb.Grid)

    @contextlib.contextmanager
    def warned(self, *told):
        """Expects as many warnings of the package in its block as texts, each of which is in one."""
        with warnings.catch_warnings(record=True) as caught:
            warnings.simplefilter("always", vdb.VdbWarning)
            yield
        found = [str(it.message) for it in caught if issubclass(it.category, vdb.VdbWarning)]
        self.assertEqual(len(found), len(told), found)
        for text, one in zip(told, found):
            self.assertIn(text, one)

    def of_zarr(self, array, compressor="default", **attributes):
        """Writes an array to the store a.zarr, as one chunk."""
        made = zarr.open("a.zarr", mode="w", shape=array.shape, dtype=array.dtype, chunks=array.shape, compressor=compressor)
        made[...] = array
        made.attrs.update(attributes)

    def test_values_of_inactive_voxels(self):
        """A subtracted label is still a value, which a file of values shows."""
        self.grid.subtract(self.grid.select(7))
        with self.warned("1 inactive voxels look like active ones in the file: fill=0"):
            formats.save("b.nii.gz", self.grid)
        self.assertEqual(np.unique(nibabel.load("b.nii.gz").dataobj).tolist(), [0, 3, 7])
        with self.warned():
            formats.save("b.nii.gz", self.grid, fill=0)
            formats.save("c.nii.gz", self.grid, values_only=True)
            formats.save("d.nii.gz", self.grid, active="e.nii.gz")
            formats.save("f.zarr", self.grid)
        self.assertEqual(np.unique(nibabel.load("b.nii.gz").dataobj).tolist(), [0, 3])
        vdb.Scene({"a": self.grid}).save("a.vdbs")
        self.assertIn("1 inactive voxels look like active ones", self.called("convert", "a.vdbs", "b.nii.gz")[2])
        self.assertNotIn("warning", self.called("convert", "a.vdbs", "b.nii.gz", "--fill", "0")[2])

    def test_a_background(self):
        grid = vdb.Grid.from_array(ARRAY, background=3)
        with self.warned("b.nrrd: the format doesn't keep the background 3"):
            formats.save("b.nrrd", grid)
        with self.warned():
            formats.save("b.zarr", grid)
            formats.save("b.nrrd", grid, fill=9)

    def test_pairs_and_notes(self):
        """Each format names the metadata pairs that it doesn't keep, and no others: those are there when the file is loaded."""
        image = nibabel.Nifti1Image(ARRAY, AFFINE)
        image.set_sform(AFFINE, 4)
        image.header.set_xyzt_units("mm", "sec")
        image.header.set_intent("label", (), "atlas")
        nibabel.save(image, "a.nii")
        grid = formats.load("a.nii", vdb.Grid)
        grid.metadata["patient"] = "17"
        for ending in ENDINGS:
            with warnings.catch_warnings(record=True) as caught, self.subTest(ending):
                warnings.simplefilter("always", vdb.VdbWarning)
                formats.save(f"b.{ending}", grid)
                told = "".join(str(it.message) for it in caught)
                after = formats.load(f"b.{ending}", vdb.Grid).metadata
                lost = sorted(key for key, text in grid.metadata.items() if after.get(key) != text)
                self.assertEqual(told, f"b.{ending}: the format doesn't keep {', '.join(lost)}" if lost else "")
                self.assertEqual("patient" in lost, ending != "zarr")
        with self.warned():
            formats.save("b.npy", grid, values_only=True)
        vdb.Scene({"a": grid}).save("a.vdbs")
        self.assertIn("b.nrrd: the format doesn't keep image_intent", self.called("convert", "a.vdbs", "b.nrrd")[2])

    def test_numbers_of_axes(self):
        """Arrays of two axes, and those with further axes of one index, have their shape again."""
        for shape in ((6, 5), (6, 5, 4), (6, 1, 4), (6, 5, 1), (6, 5, 4, 1), (6, 5, 4, 1, 1)):
            values = np.resize(ARRAY, shape)
            nibabel.save(nibabel.Nifti1Image(values, AFFINE), "a.nii")
            np.save("a.npy", values)
            for name, read in (("a.nii", lambda path: np.asanyarray(nibabel.load(path).dataobj)), ("a.npy", np.load)):
                with self.subTest(name, shape=shape):
                    formats.save(f"b{name}", formats.load(name, vdb.Grid))
                    np.testing.assert_array_equal(read(f"b{name}"), values)

    def test_times_and_resolutions_of_tiff(self):
        for name, more in (("a.tif", {"imagej": True}), ("a.ome.tif", {"photometric": "minisblack"}), ("b.tif", {"photometric": "minisblack"})):
            tifffile.imwrite(name, ARRAY, metadata={"axes": "TYX"}, **more)
            with self.subTest(name), self.assertRaisesRegex(vdb.VolumeError, f"{name}: the axes TYX of the shape"):
                formats.load(name, vdb.Grid)
        tifffile.imwrite("c.tif", ARRAY, resolution=(300, 300), resolutionunit="INCH", photometric="minisblack")
        with self.warned("c.tif: a resolution"):
            formats.load("c.tif", vdb.Grid)
        tifffile.imwrite("d.tif", ARRAY, photometric="minisblack")
        with self.warned():
            formats.load("d.tif", vdb.Grid)

    def test_places_of_nrrd(self):
        def written(*lines):
            head = ("NRRD0005", "type: uint8", "dimension: 3", "sizes: 6 5 4", "encoding: raw", *lines, "", "")
            (self.folder / "a.nrrd").write_bytes("\n".join(head).encode() + ARRAY.tobytes("F"))

        written("space: left-posterior-superior", "space origin: (1,2,3)", 'space units: "mm" "mm" "mm"')
        with self.warned("a.nrrd: a place of this form isn't read, so it is lost: space, space origin"):
            self.assertEqual(formats.load("a.nrrd", vdb.Grid).metadata["image_units"], "mm")
        written("space: left-posterior-superior", "space directions: (1,0,0) (0,1,0) (0,0,1)", "space origin: (1,2,3)")
        with self.warned():
            formats.load("a.nrrd", vdb.Grid)
        (self.folder / "a.nhdr").write_text("NRRD0005\ntype: uint8\ndimension: 3\nsizes: 6 5 4\nencoding: raw\ndata file: b.raw\n\n")
        with self.assertRaisesRegex(vdb.MissingFileError, "a.nhdr: No such file as its data file b.raw"):
            formats.load("a.nhdr", vdb.Grid)

    def test_chunks_of_zarr_that_were_cut_short(self):
        """numcodecs reads past the end of a short chunk of Blosc; the other codecs find it."""
        from vdb import chunks

        for codec in ("default", zarr.Zlib(), zarr.Zstd(), zarr.GZip(), None):
            self.of_zarr(ARRAY, codec)
            chunk = self.folder / "a.zarr" / "0.0.0"
            chunk.write_bytes(chunk.read_bytes()[:-4])
            with self.subTest(codec):
                with self.assertRaisesRegex(vdb.VolumeError, "a.zarr: "):
                    formats.load("a.zarr", vdb.Grid)
        self.of_zarr(ARRAY)
        chunk.write_bytes(chunk.read_bytes()[:-4])
        with self.assertRaisesRegex(vdb.VolumeError, "a.zarr: a chunk of"):
            chunks.from_array("a.zarr", "b.zarr")

    def test_axes_and_units_of_zarr(self):
        self.of_zarr(ARRAY.T, _ARRAY_DIMENSIONS=["z", "y", "x"])  # as xarray writes it
        self.assertEqual(formats.read("a.zarr").values.shape, ARRAY.shape)
        for units in (("", "micrometer", "micrometer"), ("my unit", "angstrom", "")):
            group = zarr.open_group("b.zarr", mode="w")
            group.create_dataset("0", data=ARRAY.T)
            axes = [{"name": axis, "type": "space", **({"unit": unit} if unit else {})} for axis, unit in zip("zyx", units)]
            scale = [{"type": "scale", "scale": [3, 2, 1]}]
            group.attrs["multiscales"] = [{"version": "0.4", "axes": axes, "datasets": [{"path": "0", "coordinateTransformations": scale}]}]
            formats.save("c.zarr", formats.load("b.zarr", vdb.Grid))
            self.assertEqual(zarr.open_group("c.zarr", mode="r").attrs["multiscales"][0]["axes"], axes)

    def test_chunks_of_a_volume(self):
        """`chunks.from_array` of a volume takes its affine and notes, of which OME-Zarr has only the sizes of voxels."""
        from vdb import chunks

        formats.save("a.zarr", self.grid)
        self.assertEqual(dict(chunks.from_array("a.zarr", "b.zarr").metadata), dict(self.grid.metadata))
        formats.save("c.zarr", vdb.Grid.from_array(ARRAY, background=3))
        with self.warned("c.zarr: the states of the volume aren't taken"):
            chunks.from_array("c.zarr", "b.zarr")

    def test_errors_name_the_file(self):
        for name, affine in (("b.nii", AFFINE * np.nan), ("c.nii", np.diag([1, 2, 0, 1]))):
            image = nibabel.Nifti1Image(ARRAY, None)
            for row in range(3):
                image.header[f"srow_{'xyz'[row]}"] = affine[row]
            image.header["sform_code"] = 1
            nibabel.save(image, name)
            with self.assertRaisesRegex(vdb.VolumeError, f"{name}: the affine has no inverse"):
                formats.load(name, vdb.Grid)
        for error, told, more in (
            (vdb.RangeError, "the value 3 is neither 0 nor 1", {"kind": "bool"}),
            (vdb.RangeError, "x would reach", {"origin": (2**31 - 2, 0, 0)}),
            (vdb.RangeError, "the background 4294967296", {"background": 2**32}),
            (vdb.RootLimitError, "the grid would need", {"origin": (4094, 0, 0), "limit": 1}),
            (vdb.ArrayTooLargeError, "arrays of 6 x 5 x 4 voxels", {"max_bytes": 9}),
            (vdb.RangeError, "the value 3 is neither 0 nor 1", {"active": "a.nii.gz"}),
        ):
            with self.subTest(told), self.assertRaisesRegex(error, f"a.nii.gz: {told}"):
                formats.load("a.nii.gz", vdb.Grid, **more)
        np.save("d.npy", ARRAY[:3] > 0)
        with self.assertRaisesRegex(vdb.GeometryError, "d.npy: two grids of different images"):
            formats.load("a.nii.gz", vdb.Grid, active="d.npy")

    def test_tables_of_names(self):
        self.grid.names = {3: Label("new"), 7: Label("seven", (1, 2, 3))}
        table = self.folder / "b.tsv"
        table.write_text("index\tname\n3\told\n")
        with self.warned("b.tsv: the table has other names"):
            formats.save("b.nii.gz", self.grid)
        self.assertEqual(table.read_text(), "index\tname\n3\told\n")
        same = "index\tname\tmapping\tcolor\n3\tnew\t30\tn/a\n7\tseven\t70\t#010203\n"
        table.write_text(same)
        with self.warned():
            formats.save("b.nii.gz", self.grid)
        self.run_it("convert", "b.nii.gz", "b.vdbs")
        self.run_it("convert", "b.vdbs", "b.nii.gz")
        self.assertEqual(table.read_text(), same)
        table.write_text("index\tname\n3\tone\n3\ttwo\n")
        with self.assertRaisesRegex(vdb.VolumeError, "b.tsv: line 3: the index 3 has a name already"):
            label_names.of("b.nii.gz")
        self.fails("view", "a.nii.gz", "b.tsv", told="b.tsv: the ending is that of")

    def test_values_and_states_in_one_file(self):
        with self.assertRaisesRegex(vdb.RangeError, "b.nii.gz: the values and the states go to two files"):
            formats.save("b.nii.gz", self.grid, active=self.folder / "b.nii.gz")
        vdb.Scene({"a": self.grid}).save("a.vdbs")
        self.fails("convert", "a.vdbs", "b.npy", "--active", "./b.npy", told="b.npy: the values and the states go to two files")
        self.assertFalse((self.folder / "b.npy").exists())


if __name__ == "__main__":
    unittest.main()
