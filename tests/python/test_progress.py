# SPDX-License-Identifier: Apache-2.0
"""Progress of long work, and files that show states: what `save` refuses and warns of, against nibabel."""
import tempfile
import unittest
import warnings
from pathlib import Path
from unittest import mock

import nibabel
from dask.callbacks import Callback

from .support import library_missing, np, scenefile, vdb
from vdb import chunks, formats

if library_missing():
    raise unittest.SkipTest(library_missing())


class Bar:
    """A bar of tqdm's form: `total`, `n`, and `update` by a difference."""

    total = n = 0

    def __init__(self):
        self.steps = []

    def update(self, by):
        self.n += by
        self.steps.append(by)

    def report(self, done, total):
        """What docs/LIBRARY.md shows for tqdm."""
        self.total = total
        self.update(done - self.n)


class Reports(unittest.TestCase):
    def check(self, total, least, call):
        """The call reports rising steps up to the total, at least so many."""
        bar = Bar()
        found = call(bar.report)
        self.assertEqual((bar.n, bar.total), (total, total))
        self.assertTrue(all(by > 0 for by in bar.steps) and len(bar.steps) >= least, bar.steps)
        return found

    def test_arrays(self):
        values = np.random.default_rng(1).integers(0, 3, (40, 130, 260)).astype(np.uint8)
        for package in (vdb, scenefile):
            for form in (values, np.asfortranarray(values), values[:, ::-1]):
                for kind in (package.Grid, package.Mask):
                    with mock.patch("vdb.arrays.SLAB", 2**18), mock.patch("vdb.reading.SLAB", 2**18):
                        grid = self.check(values.size, 3, lambda it: kind.from_array(form, origin=(-3, 5, 4000), progress=it))
                        box = ((-3, 5, 4000), (36, 134, 4259))
                        found, states = self.check(values.size, 3, lambda it: grid.to_array(box, progress=it))
                    np.testing.assert_array_equal(found, form if kind is package.Grid else form != 0)
                    np.testing.assert_array_equal(states, form != 0)
        thin = np.zeros((1, 1, 9000), np.uint8)
        self.check(thin.size, 3, lambda it: scenefile.Grid.from_array(thin, progress=it))

    def test_an_exception_of_progress_ends_the_work(self):
        for package in (vdb, scenefile):
            with self.assertRaises(ZeroDivisionError):
                package.Grid.from_array(np.ones((9, 9, 9), np.int32), progress=lambda *_: 1 // 0)

    def test_scene_files(self):
        scene = vdb.Scene({"a": vdb.Grid.from_array(np.random.default_rng(1).integers(0, 9, (50, 50, 50)))})
        with tempfile.TemporaryDirectory() as folder, mock.patch("vdb.scene.PIECE", 2**16):
            path = f"{folder}/a.vdbs"
            self.check(len(scene.to_bytes()), 5, lambda it: scene.save(path, it))
            self.assertEqual(Path(path).read_bytes(), scene.to_bytes())
            self.assertEqual(self.check(len(scene.to_bytes()), 5, lambda it: vdb.load(path, it)), scene)

    def test_images(self):
        values = np.zeros((30, 31, 32), np.uint8)
        values[3:9, 4:20, 5] = 7
        with tempfile.TemporaryDirectory() as folder:
            path = f"{folder}/a.nii.gz"
            nibabel.save(nibabel.Nifti1Image(values, np.diag([1, 2, 3, 1])), path)
            grid = self.check(values.size, 1, lambda it: formats.load(path, vdb.Grid, progress=it))
            self.check(values.size, 1, lambda it: formats.save(path, grid, progress=it))
            np.testing.assert_array_equal(nibabel.load(path).dataobj, values)

    def test_chunks_report_to_callbacks_of_dask(self):
        with tempfile.TemporaryDirectory() as folder:
            done = []
            with mock.patch("vdb.chunks.BLOCK", 8), Callback(posttask=lambda *_: done.append(1)):
                made = chunks.from_array(np.ones((16, 16, 16), np.int32), f"{folder}/a", side=8)
                first = len(done)
                made.dilate(1, f"{folder}/b")
            self.assertGreaterEqual(min(first, len(done) - first), 8)


class States(unittest.TestCase):
    """A cube of 4 voxels, dilated twice, has 304 active voxels and 64 values."""

    def saved(self, grid, **more):
        """The number of voxels of the image that is saved, and the warnings."""
        with tempfile.TemporaryDirectory() as folder, warnings.catch_warnings(record=True) as caught:
            warnings.simplefilter("always")
            formats.save(f"{folder}/a.nii", grid, **more)
            return int(np.count_nonzero(nibabel.load(f"{folder}/a.nii").dataobj)), [str(it.message) for it in caught if it.category is vdb.VdbWarning]

    def test_a_bool_grid(self):
        grid = vdb.Grid.from_array(np.ones((4, 4, 4), np.bool_))
        self.assertEqual(self.saved(grid), (64, []))
        grid.dilate(2)
        with self.assertRaisesRegex(vdb.RangeError, r"240 voxels differ: save vdb\.Mask\(grid\).*values_only=True"):
            self.saved(grid)
        self.assertEqual(self.saved(grid, values_only=True), (64, []))
        self.assertEqual(self.saved(vdb.Mask(grid)), (304, []))
        with tempfile.TemporaryDirectory() as folder:
            self.assertEqual(self.saved(grid, active=f"{folder}/states.nii"), (64, []))
            self.assertEqual(np.count_nonzero(nibabel.load(f"{folder}/states.nii").dataobj), 304)
        mask = vdb.Mask.from_array(np.ones((4, 4, 4), np.bool_))
        mask.dilate(2)
        self.assertEqual((self.saved(mask), mask.count, int(mask[...].sum())), ((304, []), 304, 304))

    def test_an_integer_grid(self):
        grid = vdb.Grid.from_array(np.full((4, 4, 4), 5, np.int32))
        valued = grid.copy()
        grid.dilate(2)
        found, told = self.saved(grid)
        self.assertEqual((found, len(told)), (64, 1))
        self.assertRegex(told[0], r"^240 active voxels look like inactive ones.*value=.*dilate_label.*values_only=True")
        self.assertEqual(self.saved(grid, values_only=True), (64, []))
        self.assertEqual(self.saved(grid, fill=9)[1], [])
        valued.dilate(2, value=5)
        self.assertEqual(self.saved(valued), (304, []))

    def test_an_image_comes_back_as_a_mask(self):
        values = np.zeros((30, 31, 32), np.uint8)
        values[3:9, 4:20, 5] = 7
        with tempfile.TemporaryDirectory() as folder:
            path, affine = f"{folder}/a.nii.gz", np.diag([1.0, 2, 3, 1])
            nibabel.save(nibabel.Nifti1Image(values, affine), path)
            for mask in (formats.load(path, vdb.Mask), formats.load(path, vdb.Grid).select(7), formats.load(path, vdb.Grid) == 7):
                for wanted, made in ((values == 7, mask), (values != 7, ~mask)):
                    formats.save(f"{folder}/b.nii.gz", made)
                    found = nibabel.load(f"{folder}/b.nii.gz")
                    np.testing.assert_array_equal(found.dataobj, wanted)
                    np.testing.assert_array_equal(found.affine, affine)


if __name__ == "__main__":
    unittest.main()
