# SPDX-License-Identifier: Apache-2.0
"""NumPy's manners of grids, views of their images and chunks: arrays part by part, and errors that name the call to use."""
import tempfile
import unittest
from unittest import mock

import dask.array

from .support import chance, library_missing, np, random_array, scenefile, vdb
from vdb import chunks

if library_missing():
    raise unittest.SkipTest(library_missing())

LOW, SHAPE = (-5, 3, 4090), (12, 9, 11)
PAIRS = {"image_array": "uint8,{},{},{}".format(*SHAPE), "image_low": "{},{},{}".format(*LOW)}


def labels(seed=1):
    """Random labels of 0 to 200, most of them 0."""
    dice = np.random.default_rng(seed)
    return np.where(dice.random(SHAPE) < 0.3, dice.integers(0, 201, SHAPE), 0).astype(np.uint8)


def grids(values):
    """The grids, and a view, that have an image of these values."""
    for package in (vdb, scenefile):
        yield package.Grid.from_array(values, origin=LOW, metadata=PAIRS)
    yield vdb.View(vdb.Grid.from_array(values, origin=LOW, metadata=PAIRS))


class Images(unittest.TestCase):
    def test_the_array(self):
        values = labels()
        for grid in grids(values):
            image = grid.image
            self.assertEqual((image.shape, image.ndim, image.dtype, image.size, len(image)), (SHAPE, 3, np.uint8, values.size, 12))
            np.testing.assert_array_equal(np.asarray(image), values)
            self.assertEqual(np.asarray(image).dtype, np.uint8)
            np.testing.assert_array_equal(np.array(image, np.float32), values.astype(np.float32))
            np.testing.assert_array_equal(list(image), list(values))
            self.assertRegex(repr(image), r"^<ImageView of <\w+ i32, .*>, shape \(12, 9, 11\), dtype uint8>$")

    def test_random_indices(self):
        values = labels(2)
        for grid in grids(values):
            dice, image = chance(4), grid.image
            for _ in range(200):
                key = []
                for side in SHAPE:
                    ends = [dice.choice([None, dice.randint(-side - 2, side + 2)]) for _ in range(2)]
                    whole = slice(*ends, dice.choice([None, 1, 2, 3, -1, -2]))
                    key.append(dice.randrange(-side, side) if dice.random() < 0.3 else whole)
                key = tuple(key[: dice.randint(0, 3)])
                key = dice.choice([key, (*key, ...), (..., *key)])
                with self.subTest(key=key):
                    try:
                        wanted = values[key]
                    except IndexError:
                        self.assertRaises(IndexError, image.__getitem__, key)
                        continue
                    np.testing.assert_array_equal(image[key], wanted)
                    self.assertEqual((np.shape(image[key]), image[key].dtype), (wanted.shape, np.uint8))
            np.testing.assert_array_equal(image[np.int64(3)], values[3])

    def test_wrong_indices(self):
        for grid in grids(labels()):
            for key in (12, -13, (0, 9), (0, 0, 0, 0), (..., 0, ...)):
                with self.subTest(key=key), self.assertRaises(IndexError) as caught:
                    grid.image[key]
                self.assertIsInstance(caught.exception, vdb.VdbError)
            for key in (None, True, 1.0, "x", [0, 1], np.array([0]), (0, [1])):
                with self.subTest(key=key), self.assertRaises(vdb.DtypeError):
                    grid.image[key]

    def test_dask_reads_only_its_blocks(self):
        values = labels(3)
        for grid in grids(values):
            lazy = dask.array.from_array(grid.image, chunks=(5, 9, 4))
            self.assertEqual((lazy.shape, lazy.dtype, lazy.numblocks), (SHAPE, np.uint8, (3, 1, 3)))
            np.testing.assert_array_equal(lazy.compute(), values)
            with mock.patch.object(type(grid), "to_array", side_effect=type(grid).to_array, autospec=True) as read:
                np.testing.assert_array_equal(lazy[:5, :, 4:8].compute(), values[:5, :, 4:8])
            self.assertEqual([call.args[1] for call in read.call_args_list], [((-5, 3, 4094), (-1, 11, 4097))])

    def test_a_box_and_a_grid_without_an_image(self):
        values = labels(4)
        grid = vdb.Grid.from_array(values, origin=LOW)
        with self.assertRaisesRegex(vdb.RangeError, r"vdb\.ImageView\(grid, bounds\)"):
            grid.image
        box = vdb.ImageView(grid, ((-6, 3, 4090), (6, 11, 4099)))
        np.testing.assert_array_equal(box, np.pad(values, ((1, 0), (0, 0), (0, 0)))[:, :, :10])
        self.assertEqual(box.dtype, np.int32)

    def test_values_that_the_dtype_does_not_hold(self):
        grid = vdb.Grid.from_array(labels(), origin=LOW, metadata=PAIRS)
        image = grid.image
        grid[0, 5, 4091] = 256
        np.testing.assert_array_equal(image[:5], labels()[:5])
        with self.assertRaisesRegex(vdb.RangeError, "256 is outside uint8"):
            image[5]
        floats = vdb.Grid.from_array(labels(), origin=LOW, metadata={**PAIRS, "image_array": PAIRS["image_array"].replace("uint8", "float32")})
        self.assertEqual((floats.image.dtype, floats.image[0].dtype), (np.int32, np.int32))


class Errors(unittest.TestCase):
    def test_functions_name_the_call_to_use(self):
        values = labels()
        for grid in grids(values):
            for call, text in (
                (lambda it: np.sum(it), r"grid\[\.\.\.\].*labels\(\)"), (lambda it: np.max(it), "labels"), (lambda it: np.unique(it), "labels"),
                (lambda it: np.add(it, 1), r"numpy\.add takes arrays: grid\[\.\.\.\]"), (lambda it: np.arange(3) + it, "to_array"),
                (lambda it: np.concatenate([values, it]), "numpy.concatenate"), (lambda it: np.count_nonzero(it), "count"),
                (lambda it: np.add.reduce(it), "numpy.add"), (lambda it: np.equal(it, 1, out=np.ones(1)), "numpy.equal"),
                (lambda it: np.argwhere(it), "active_coordinates"), (lambda it: np.isnan(it), "numpy.isnan"),
                (lambda it: it == values, "compared with a number"), (lambda it: values < it, "compared with a number"),
                *((lambda it, other=other: it == other, r"select\(\[3, 200\]\)") for other in (values, [3, 200], (3, 200), {3}, range(3))),
                (lambda it: [3] != it, r"select\(\[3, 200\]\)"),
            ):  # fmt: skip
                with self.subTest(grid=grid, text=text), self.assertRaisesRegex(vdb.DtypeError, text):
                    call(grid)
            self.assertEqual((grid == "3", grid != "3", grid == None, grid == {}), (False, True, False, False))  # noqa: E711
            for call in (lambda it: it < "3", lambda it: it < it, lambda it: it + 1, lambda it: 3 in it):
                with self.assertRaises(TypeError):
                    call(grid)

    def test_chunks(self):
        values = labels()
        with tempfile.TemporaryDirectory() as folder:
            made = chunks.from_array(values, f"{folder}/a", side=8, origin=LOW)
            grid = vdb.Grid.from_array(values, origin=LOW)
            np.testing.assert_array_equal(np.asarray(made), grid[...])
            self.assertEqual(np.asarray(made, np.int64).dtype, np.int64)
            for call, text in ((lambda: made == 3, "select"), (lambda: np.sum(made), "chunks.to_array.*labels"), (lambda: np.add(made, 1), "dask")):
                with self.assertRaisesRegex(vdb.DtypeError, text):
                    call()
            with self.assertRaisesRegex(vdb.RangeError, "chunks.to_array"):
                made.image
            kept = chunks.from_array(values, f"{folder}/c", side=8, origin=LOW, metadata=PAIRS)
            self.assertEqual((kept.image.shape, kept.image.dtype), (SHAPE, np.uint8))
            np.testing.assert_array_equal(kept.image, values)
            np.testing.assert_array_equal(kept.image[3:, 2, ::4], values[3:, 2, ::4])
            wide = chunks.from_array(values.astype(np.int32) + 200, f"{folder}/d", side=8, origin=LOW, metadata=PAIRS)
            with self.assertRaisesRegex(vdb.RangeError, "is outside uint8"):
                wide.image.compute()
            with mock.patch("vdb.chunks.MAX_BYTES", 100), self.assertRaises(vdb.ArrayTooLargeError):
                np.asarray(made)
            self.assertEqual(np.asarray(chunks.from_array(values * 0, f"{folder}/b", side=8)).shape, (0, 0, 0))


class Notebooks(unittest.TestCase):
    def test_html(self):
        values = np.arange(40 * 3 * 5, dtype=np.int32).reshape(40, 3, 5) + 1
        grid = vdb.Grid.from_array(values)
        made = grid._repr_html_()
        self.assertIn("<p>Grid i32, background 0, 600 active voxels in (0, 0, 0) to (39, 2, 4)</p>", made)
        self.assertIn("<p>x from 12 down, y from 0 to the right, z 2:</p>", made)
        self.assertEqual(made[made.index("<pre>") + 5 : made.index("</pre>")], str(values[12:28, :, 2]))
        self.assertEqual(vdb.Grid("bool")._repr_html_(), "<p>Grid bool, background False, 0 active voxels</p>")


class Views(unittest.TestCase):
    def test_reports_of_a_view(self):
        values = random_array(chance(7), "i32", 0, LOW, (60, 70, 140))[0]
        grid = vdb.Grid.from_array(values, origin=LOW)
        view, before = vdb.View(grid), grid.copy()
        grid.fill(grid.bounds, 77)
        for found, wanted in zip(view.labels(), before.labels()):
            np.testing.assert_array_equal(found, wanted)
        for label in before.labels().values.tolist():
            self.assertEqual(view.select(label), before.select(label))
        box = ((-3, 4, 4092), (5, 8, 4096))
        self.assertEqual([*view.voxels(box)], [*before.voxels(box)])
        self.assertEqual((view.census(), view.limit, view.count_in(box)), (before.census(), before.limit, before.count_in(box)))
        self.assertEqual(sum(len(it) for it in view.active_coordinates()), before.count)


if __name__ == "__main__":
    unittest.main()
