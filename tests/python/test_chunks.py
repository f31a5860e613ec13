# SPDX-License-Identifier: Apache-2.0
"""Volumes in chunks, on threads and on processes of dask, against one grid."""
import contextlib
import errno
import io
import json
import logging
import os
import signal
import subprocess
import sys
import tempfile
import threading
import time
import unittest
import warnings
from itertools import product
from pathlib import Path
from unittest import mock

from .support import TOP, library_missing, np, rows, vdb

if library_missing():
    raise unittest.SkipTest(library_missing())
try:
    import dask
    import distributed
    import zarr
    from dask import array as dask_array
    from dask.diagnostics import ProgressBar
    from hypothesis import given, settings
    from hypothesis import strategies as some
    from scipy import ndimage
    from vdb import chunks
except ImportError as error:
    raise unittest.SkipTest(f"{error}: Debian has dask, distributed, zarr and hypothesis as python3-dask and so on") from error

quickly = settings(max_examples=8, deadline=None, derandomize=True, database=None)
LEAST, MOST = -(2**31), 2**31 - 1
seed = some.integers(0, 10**6)
side = some.sampled_from([8, 16, 24, 40])
low = some.tuples(*[some.one_of(some.integers(-50, 50), some.integers(-4100, -4090))] * 3)
shape = some.tuples(*[some.integers(1, 28)] * 3)
cut = side.flatmap(lambda length: some.tuples(some.just(length), some.tuples(*[some.integers(1, min(28, length + 4))] * 3)))
density = some.sampled_from([0.002, 0.1, 0.6, 1])


def labels_of(seed, shape, density, dtype=np.int32):
    """Labels 1 to 3, or True, in this part of the voxels, and a box of one label."""
    dice = np.random.default_rng(seed)
    values = np.where(dice.random(shape) < density, dice.integers(1, 4, shape), 0).astype(dtype)
    first = [int(dice.integers(0, length)) for length in shape]
    values[tuple(slice(at, at + 12) for at in first)] = 2
    return values


def stored(folder, name="0"):
    """An array of a volume, with the axes x, y, z, as zarr reads it by the attributes of OME-Zarr, and the coordinate of its first voxel."""
    group = zarr.open_group(str(folder), "r")
    level = group.attrs["multiscales"][0]["datasets"][0]["path"]
    return group[f"{level[:-1]}{name}"][...].T, group.attrs["vdb"]["low"]


class Case(unittest.TestCase):
    """A folder, in which files are not put on the disk, and comparisons with one grid. A block is a chunk."""

    def setUp(self):
        holder = tempfile.TemporaryDirectory()
        self.addCleanup(holder.cleanup)
        self.folder = Path(holder.name)
        for patch in (mock.patch("os.fsync"), mock.patch("vdb.chunks.BLOCK", 8)):
            patch.start()
            self.addCleanup(patch.stop)

    def written(self, values, name="a", **more):
        return chunks.from_array(values, self.folder / name, **more)

    def same(self, volume, grid, halo=2):
        """The volume has the cells of the grid, in the box of both and around it. So has the array that zarr reads, and its store has no other
    chunk, and no other file."""
        self.assertEqual((volume.kind, volume.background), (grid.kind, grid.background))
        self.assertEqual((volume.count, volume.bounds), (grid.count, grid.bounds))
        self.assertEqual(rows(volume.labels()), rows(grid.labels()))
        lows, highs = grid.bounds or ((0, 0, 0), (0, 0, 0))
        box = [[max(at - halo, LEAST) for at in lows], [min(at + halo, MOST) for at in highs]]
        with dask.config.set(scheduler="sync"):
            found = dask.compute(*volume.to_array(box))
        for one, other in zip(found, grid.to_array(box)):
            self.assertEqual((one.dtype, one.shape), (other.dtype, other.shape))
            np.testing.assert_array_equal(one, other)
        values, low = stored(volume.folder)
        if values.size:
            box = low, [at + length - 1 for at, length in zip(low, values.shape)]
            box = [[max(LEAST, min(MOST, at)) for at in corner] for corner in box]
            inner, active = grid.to_array(box)
            np.testing.assert_array_equal(values, inner)
            np.testing.assert_array_equal(stored(volume.folder, "toggled")[0], active ^ (inner != grid.background))
        written = json.loads(Path(volume.folder, ".zattrs").read_text())["vdb"]["written"]
        self.assertEqual(sorted(os.listdir(volume.folder)), sorted([written, ".zattrs", ".zgroup"]))
        for name, empty in (("0", grid.background), ("toggled", 0)):
            found = [tuple(map(int, it.parts[-3:])) for it in Path(volume.folder, written, name).glob("*/*/*") if it.name != ".zarray"]
            full, side = np.argwhere(stored(volume.folder, name)[0].T != empty), volume.side
            self.assertEqual(sorted(found), sorted({*map(tuple, (full // side).tolist())}))


class Threads(Case):
    @quickly
    @given(seed, cut, low, density, some.integers(1, 16), some.sampled_from([0, 2, -1]))
    def test_dilations_and_erosions(self, seed, cut, low, density, iterations, background):
        side, shape = cut
        values = labels_of(seed, shape, density)
        grid = vdb.Grid.from_array(values, origin=low, background=background)
        volume = self.written(values, side=side, origin=low, background=background)
        self.same(volume, grid)
        for name, arguments in (("dilate", (iterations,)), ("dilate_label", (2, iterations)), ("erode", (min(iterations, 3),))):
            getattr(grid, name)(*arguments)
            volume = getattr(volume, name)(*arguments, self.folder / "a")
            self.same(volume, grid)

    @quickly
    @given(seed, cut, low, density, shape, some.sampled_from([np.int64, np.uint8]))
    def test_choices(self, seed, cut, low, density, blocks, dtype):
        side, shape = cut
        values = labels_of(seed, shape, density, dtype)
        grid = vdb.Grid.from_array(values, origin=low)
        volume = self.written(dask_array.from_array(values, chunks=blocks), side=side, origin=low)
        for wanted in (2, [1, 3], []):
            self.same(volume.select(wanted, self.folder / "b"), grid.select(wanted))
        for pairs in ({2: 0}, {1: 2, 2: 1}, {9: 1}):
            self.same(volume.relabel(pairs, self.folder / "b"), grid.relabel(pairs))
        self.assertEqual(rows(volume.labels()), rows(grid.labels()))

    @quickly
    @given(seed, cut, cut, some.tuples(*[some.integers(-30, 30)] * 3), density)
    def test_two_volumes(self, seed, cut, second_cut, low, density):
        (side, shape), (second_side, second_shape) = cut, second_cut
        values, mask = labels_of(seed, shape, density), labels_of(seed + 1, second_shape, density, np.bool_)
        volume, other = self.written(values, side=side), self.written(mask, "b", side=second_side, origin=low)
        for name in ("unite", "subtract", "intersect"):
            for first, second, grids in ((volume, other, (values, mask)), (other, volume, (mask, values))):
                grid, another = [vdb.Grid.from_array(it, origin=low if it is mask else (0, 0, 0)) for it in grids]
                getattr(grid, name)(another)
                self.same(getattr(first, name)(second, self.folder / "c"), grid)

    def test_every_offset(self):
        """A random volume with a box of one label, cut at every offset."""
        for side in (8, 16, 24):
            for offset in range(side):
                values, low = labels_of(100 * side + offset, (14, 11, 9), 0.1), (offset, -offset, offset - side)
                with self.subTest(side=side, offset=offset):
                    grid, volume = vdb.Grid.from_array(values, origin=low), self.written(values, side=side, origin=low)
                    for name, iterations in (("dilate", 2), ("erode", 3)):
                        getattr(grid, name)(iterations)
                        volume = getattr(volume, name)(iterations, volume.folder)
                        self.same(volume, grid)

    def test_corners(self):
        """Chunks at the ends of the coordinates, some of which would reach past them."""
        values = np.ones((5, 9, 10), np.int32)
        for corner, side in zip(product((LEAST, MOST), repeat=3), [8, 24, 40, 16] * 2):
            low = [at if at < 0 else at - length + 1 for at, length in zip(corner, values.shape)]
            with self.subTest(corner=corner, side=side):
                grid, volume = vdb.Grid.from_array(values, origin=low), self.written(values, side=side, origin=low)
                self.same(volume, grid)
                grid.erode(2)
                self.same(volume.erode(2, self.folder / "b"), grid)
                grid.dilate(3)
                self.same(chunks.Chunks(self.folder / "b").dilate(3, self.folder / "b"), grid)

    def test_sources(self):
        values = labels_of(1, (30, 20, 10), 0.1)
        grid = vdb.Grid.from_array(values, origin=(-7, 3, 0))
        path = str(self.folder / "z")
        zarr.save_array(path, values, chunks=(7, 20, 4))
        for source in (path, Path(path), zarr.open_array(path), dask_array.from_zarr(path), values, values.T.copy().T):
            self.same(self.written(source, side=16, origin=(-7, 3, 0)), grid)
        for empty in (np.zeros((0, 3, 3), np.int32), np.zeros((9, 9, 9), np.int32)):
            self.same(self.written(empty, side=8), vdb.Grid("i32"))
        for lengths in (16, (24, 16, 24), (8, 32, 9)):  # parts of whole chunks, which stay, and others
            with mock.patch("vdb.chunks.BLOCK", 24):
                self.same(self.written(dask_array.from_array(values, chunks=lengths), side=8, origin=(-7, 3, 0)), grid)
        values[[0, -1]] = 1
        found, states = self.written(values, side=16).to_array(fill=-1)
        np.testing.assert_array_equal(found, np.where(values, values, -1))
        self.assertEqual((found.dtype, states.dtype), (np.int32, np.bool_))
        self.assertEqual([it.shape for it in self.written(empty).to_array()], [(0, 0, 0)] * 2)


class Measured(Case):
    """Measures and components of labels that the borders of blocks cut through, against one grid and scipy on the dense array."""

    @quickly
    @given(seed, cut, low, density, some.sampled_from([np.int32, np.int64, np.uint8, np.bool_]))
    def test_against_one_grid(self, seed, cut, low, density, dtype):
        (side, shape), spacing = cut, (0.5, 0.75, 3)
        values = labels_of(seed, shape, density, dtype)
        volume, grid = self.written(values, side=side, origin=low), vdb.Grid.from_array(values, origin=low)
        for one, other in zip(volume.measure(spacing), vdb.labels.measure(grid, spacing)):
            self.assertEqual(one.dtype, other.dtype)
            np.testing.assert_array_equal(one, other)
        for connectivity in (6, 18, 26):
            self.same(volume.components(self.folder / "b", connectivity), vdb.labels.components(grid, connectivity))

    def test_against_scipy(self):
        values = labels_of(9, (45, 38, 51), 0.35)
        volume = self.written(values, side=16, metadata={"affine_x": "2,0,0,0", "affine_y": "0,1,0,0", "affine_z": "0,0,1,0"})
        found = volume.measure()
        self.assertEqual(found.voxels.tolist(), [np.count_nonzero(values == it) for it in (1, 2, 3)])
        faces = np.array([[np.count_nonzero(np.diff(np.pad(values == it, 1), axis=axis)) for axis in range(3)] for it in (1, 2, 3)])
        self.assertEqual(found.area.tolist(), (faces @ [1, 2, 2]).tolist())
        np.testing.assert_allclose(found.centroid, ndimage.center_of_mass(values > 0, values, [1, 2, 3]))
        for connectivity, order in ((6, 1), (18, 2), (26, 3)):
            made = np.asarray(volume.select([1, 2, 3], self.folder / "b").components(self.folder / "b", connectivity))
            wanted, count = ndimage.label(values, ndimage.generate_binary_structure(3, order))
            self.assertEqual((made.max(), len(np.unique(np.stack([made[values > 0], wanted[values > 0]]), axis=1).T)), (count, count))

    def test_slabs(self):
        """Blocks of more voxels than are added up at a time."""
        with mock.patch("vdb.labels.SLAB", 600):
            self.test_against_scipy()

    def test_wrong_arguments_write_nothing(self):
        volume = self.written(labels_of(1, (9, 9, 9), 0.5), side=8)
        with self.assertRaisesRegex(vdb.RangeError, "6, 18 or 26"):
            volume.components(self.folder / "b", 8)
        with self.assertRaisesRegex(vdb.RangeError, "three positive numbers"):
            volume.measure((1, 2))
        self.assertFalse((self.folder / "b").exists())


class Images(Case):
    PAIRS = {"affine_x": "0.5,0,0,1", "affine_y": "0,2,0,0", "affine_z": "0,0,1,0", "image_array": "int32,30,20,10", "image_units": "mm"}

    def volume(self, name, **changes):
        return self.written(labels_of(1, (30, 20, 10), 0.1), name, side=16, metadata={**self.PAIRS, "own": "x", **changes})

    def test_every_volume_that_is_made_of_another_one(self):
        volume, other = self.volume("a"), self.written(labels_of(2, (30, 20, 10), 0.1), "b", side=8)
        self.assertEqual(dict(chunks.Chunks(self.folder / "a").metadata), {**self.PAIRS, "own": "x"})
        place = self.folder / "c"
        for made in (
            volume.relabel({1: 2}, place), volume.dilate(1, place), volume.erode(1, place), volume.dilate_label(1, 1, place),
            volume.unite(other, place), volume.subtract(other, place), volume.intersect(other, place),
        ):  # fmt: skip
            self.assertEqual(dict(made.metadata), {**self.PAIRS, "own": "x"})
        self.assertEqual(dict(volume.select(1, place).metadata), {**self.PAIRS, "image_array": "bool,30,20,10"})
        self.assertEqual(dict(other.unite(volume, place).metadata), self.PAIRS)
        names = {1: vdb.label_names.Label("left kidney"), 2: vdb.label_names.Label("liver", (255, 136, 0))}
        named = chunks.from_array(np.ones((3, 3, 3), np.int32), self.folder / "n", 8, metadata={**self.PAIRS, "own": "x"}, names=names)
        made = named.grid(((1, 1, 1), (2, 2, 2)))
        self.assertEqual((made.names, {key: text for key, text in made.metadata.items() if "label" not in key}), (names, {**self.PAIRS, "own": "x"}))
        self.assertEqual(named.map(lambda grid: vdb.labels.measure(grid).volume.tolist()), [[27.0]])  # by the sizes of voxels, 0.5, 2 and 1
        many = {at: vdb.label_names.Label(f"{at:060}") for at in range(9)}
        many = chunks.from_array(np.ones((3, 3, 3), np.int32), self.folder / "n", 8, names=many)
        with self.assertWarnsRegex(vdb.VdbWarning, "n is read without the names of labels: the names of 9 labels have 566 characters"):
            self.assertEqual(many.grid(((1, 1, 1), (2, 2, 2))).names, {})
        made = volume.dilate(1, place)
        made.metadata["more"] = "y"  # a copy
        self.assertEqual(dict(other.metadata), {})

    def test_different_images(self):
        volume, other, place = self.volume("a"), self.volume("b", affine_x="0.6,0,0,1"), self.folder / "c"
        plain = self.written(labels_of(2, (30, 20, 10), 0.1), "d", side=16, metadata={"image_array": "uint8,30,20,10"})
        for call, second in product((volume.unite, volume.subtract, volume.intersect), (other, plain)):
            with self.assertRaisesRegex(vdb.GeometryError, "the affine"):
                call(second, place)
            self.assertFalse(place.exists())
        self.assertEqual(volume.unite(other, place, ignore_geometry=True).metadata["affine_x"], "0.5,0,0,1")

    def ome(self, values, axes, **more):
        """An image of OME-Zarr 0.4, with two levels. Returns its path."""
        group = zarr.open_group(str(self.folder / "ome.zarr"), "w")
        group.create_dataset("full", data=values)
        group.create_dataset("half", data=values[..., ::2])
        group.attrs["multiscales"] = [{"version": "0.4", "axes": axes, "datasets": [{"path": "full", **more}, {"path": "half"}]}]
        return self.folder / "ome.zarr"

    def test_images_of_ome_zarr(self):
        values = labels_of(1, (30, 20, 10), 0.1, np.uint16)
        axes = [{"name": "t"}, {"name": "c"}, *({"name": name, "type": "space", "unit": "micrometer"} for name in "zyx")]
        scales = [{"type": "scale", "scale": [1, 1, 2.5, 0.5, 0.25]}, {"type": "translation", "translation": [0, 0, 7, 8, 9]}]
        path = self.ome(values.T[None, None], axes, coordinateTransformations=scales)
        volume = self.written(path, origin=(-4, 0, 1), side=16)
        self.same(volume, vdb.Grid.from_array(values, origin=(-4, 0, 1)))
        self.assertEqual(dict(volume.metadata), {
            "affine_x": "0.25,0,0,10", "affine_y": "0,0.5,0,8", "affine_z": "0,0,2.5,4.5", "image_array": "uint16,30,20,10", "image_low": "-4,0,1",
            "image_units": "um",
        })  # fmt: skip
        self.same(self.written(self.ome(values[None, :, None], list("tzcyx"))), vdb.Grid.from_array(values.T))

    def test_a_label_image_is_one_of_ome_zarr(self):
        """The layout that ngff.openmicroscopy.org publishes for 0.4: what it says a label image MUST have, and the SHOULD of its axes."""
        names = {1: vdb.label_names.Label("liver", (255, 136, 0)), 3: vdb.label_names.Label("left kidney")}
        values, affine = labels_of(1, (30, 20, 10), 0.1, np.uint16), {"affine_x": "0.5,0,0,1", "affine_y": "0,2,0,0", "affine_z": "0,0,1,-3"}
        pairs = {**affine, "image_array": "uint16,30,20,10", "image_units": "mm"}
        volume = self.written(values, side=16, origin=(4, 0, -1), metadata=pairs, names=names).dilate(1, self.folder / "b")
        group = zarr.open_group(str(self.folder / "b"), "r")
        (image,) = group.attrs["multiscales"]
        self.assertEqual(image["version"], "0.4")
        self.assertEqual(image["axes"], [{"name": name, "type": "space", "unit": "millimeter"} for name in "zyx"])
        (level,) = image["datasets"]
        scale, translation = level["coordinateTransformations"]
        self.assertEqual(scale, {"type": "scale", "scale": [1, 2, 0.5]})
        low, high = volume.bounds
        at = [0.5 * low[0] + 1, 2 * low[1], low[2] - 3]  # the grown volume begins at its first active voxel
        self.assertEqual(translation, {"type": "translation", "translation": at[::-1]})
        array = group[level["path"]]
        self.assertEqual((array.dtype, array.ndim), (np.uint16, 3))  # "The pixels of the label images MUST be integer data types"
        self.assertEqual(array.shape, tuple(b - a + 1 for a, b in zip(low, high))[::-1])
        settings = json.loads(Path(volume.folder, array.path, ".zarray").read_text())
        self.assertEqual((settings["zarr_format"], settings["dimension_separator"], settings["filters"], settings["order"]), (2, "/", None, "C"))
        self.assertEqual((settings["compressor"]["id"], settings["compressor"]["cname"]), ("blosc", "zstd"))
        label = group.attrs["image-label"]
        self.assertEqual((label["version"], label["colors"]), ("0.4", [{"label-value": 1, "rgba": [255, 136, 0, 255]}]))
        self.assertEqual(label["properties"], [{"label-value": 1, "name": "liver"}, {"label-value": 3, "name": "left kidney"}])
        self.assertEqual(volume.names, names)
        with self.assertWarnsRegex(vdb.VdbWarning, "b: the states of the volume aren't taken"):
            self.assertEqual(self.written(volume.folder, "c").names, names)
        self.assertEqual(volume.select(1, self.folder / "c").names, {})
        self.assertEqual(zarr.open_group(str(self.folder / "c"), "r")[f"{chunks.open(self.folder / 'c')._source.written}/0"].dtype, np.uint8)
        turned = self.written(values, "d", metadata={"affine_x": "0,-2,0,5", "affine_y": "3,0,0,6", "affine_z": "0,0,1,7"})
        found = zarr.open_group(turned.folder, "r").attrs["multiscales"][0]["datasets"][0]["coordinateTransformations"]
        self.assertEqual(found, [{"type": "scale", "scale": [1, 2, 3]}, {"type": "translation", "translation": [0, 0, 0]}])
        self.assertEqual(dict(turned.dilate(1, self.folder / "d").metadata)["affine_x"], "0,-2,0,5")

    def test_stores_that_are_no_image(self):
        with self.assertRaisesRegex(vdb.MissingFileError, "none.zarr: No such file"):
            self.written(self.folder / "none.zarr")
        with self.assertRaisesRegex(vdb.VolumeError, f"{self.folder}: no image of zarr: PathNotFoundError"):
            self.written(self.folder)
        zarr.open_group(str(self.folder / "group"), "w").create_dataset("one", data=np.zeros((3, 3, 3)))
        with self.assertRaisesRegex(vdb.VolumeError, "group: no image of zarr: .*name one of its arrays, which are one"):
            self.written(self.folder / "group")
        for values, axes in ((np.zeros((2, 3, 3, 3)), list("tzyx")), (np.zeros((3, 3)), list("yx")), (np.zeros((3, 3, 3)), list("tzyx"))):
            with self.subTest(axes), self.assertRaisesRegex(vdb.VolumeError, f"an array with the axes {''.join(axes)} of the shape"):
                self.written(self.ome(values, axes))
        with self.assertRaisesRegex(vdb.VolumeError, "a coordinate transformation of the type affine, where identity, scale and translation are"):
            self.written(self.ome(np.zeros((3, 3, 3)), list("zyx"), coordinateTransformations=[{"type": "identity"}, {"type": "affine"}]))
        self.assertFalse((self.folder / "a").exists())


class Folders(Case):
    def setUp(self):
        super().setUp()
        self.values = labels_of(3, (20, 20, 20), 0.3)
        self.grid, self.volume = vdb.Grid.from_array(self.values), self.written(self.values, side=8)

    def test_wrong_arguments_write_nothing(self):
        for name, arguments, error in (
            ("select", (1.5,), vdb.DtypeError), ("relabel", ({1: 2**31},), vdb.RangeError), ("dilate", (17,), vdb.RangeError),
            ("erode", (0,), vdb.RangeError), ("dilate_label", ("a", 1), vdb.DtypeError), ("dilate", ("1",), vdb.DtypeError),
        ):  # fmt: skip
            with self.subTest(name=name), self.assertRaises(error):
                getattr(self.volume, name)(*arguments, self.folder / "b")
        for values, more, error in (
            (self.values, {"side": 12}, vdb.RangeError), (self.values, {"side": 0}, vdb.RangeError),
            (self.values, {"side": "8"}, vdb.DtypeError), (self.values * 1.5, {}, vdb.DtypeError), (self.values[0], {}, vdb.RangeError),
            (self.values, {"origin": (MOST, 0, 0)}, vdb.RangeError), (self.values, {"background": 2**31}, vdb.RangeError),
        ):  # fmt: skip
            with self.subTest(more=more), self.assertRaises(error):
                self.written(values, "b", **more)
        far = self.written(np.ones((1, 1, 1), np.int32), "c", side=8, origin=(MOST, 0, 30000))
        with self.assertRaisesRegex(vdb.RangeError, "at most 134,217,728 chunks, not 3751 x 3 x 268435456: choose a larger side"):
            self.volume.unite(far, self.folder / "b")
        self.assertFalse((self.folder / "b").exists())
        self.same(self.volume, self.grid)

    def chunk(self, volume, name="0"):
        """The file of a chunk in the middle."""
        return next(Path(volume.folder).glob(f"*/{name}/1/1/1"))

    def test_after_an_error_the_old_volume_stays(self):
        broken = self.written(self.values, "b", side=8)
        path = self.chunk(broken)
        path.write_bytes(path.read_bytes()[:-1])
        for target in ("a", "b", "c"):
            with self.assertRaisesRegex(chunks.ChunksFault, f"{path}: chunks: the chunk has other bytes"):
                broken.dilate(1, self.folder / target)
        for _ in range(200):  # until blocks end that other threads worked on
            left = [len(os.listdir(self.folder / name)) for name in "abc"]
            if left == [3, 3, 0]:
                break
            time.sleep(0.1)
        self.assertEqual(left, [3, 3, 0])
        self.same(self.volume, self.grid)
        path.unlink()
        with self.assertRaisesRegex(chunks.ChunksFault, f"{path}: chunks: the chunk is missing"):
            broken.labels()

    def test_a_flipped_bit(self):
        """In any byte of a chunk of values, of states or of checksums, and a chunk where none was."""
        volume = self.volume.dilate(1, self.folder / "b")
        for name in ("0", "toggled"):
            path = self.chunk(volume, name)
            data = path.read_bytes()
            for at in range(len(data)):
                path.write_bytes(data[:at] + bytes([data[at] ^ 1 << at % 8]) + data[at + 1 :])
                with self.assertRaisesRegex(chunks.ChunksFault, f"{path}: chunks: the chunk has other bytes than were written"):
                    volume.grid(((8, 8, 8), (8, 8, 8)))
            path.write_bytes(data)
        self.same(volume, volume.grid(volume.bounds))
        path = next(Path(volume.folder).glob("*/sums/0/0/0/0"))
        data = path.read_bytes()
        for wrong in (data[:-1] + bytes([data[-1] ^ 1]), data[:-1], b""):
            path.write_bytes(wrong)
            with self.assertRaisesRegex(chunks.ChunksFault, f"{volume.folder}: chunks: the volume has another form"):
                chunks.open(volume.folder)
        path.unlink()
        with self.assertRaisesRegex(chunks.ChunksFault, "the checksums of the chunks are others"):
            chunks.open(volume.folder)
        lone = self.written(np.pad(self.values[:8, :8, :8], ((0, 8), (0, 0), (0, 0))), "c", side=8)
        path = next(Path(lone.folder).glob("*/0/0/0/0"))
        path.with_name("1").write_bytes(path.read_bytes())
        with self.assertRaisesRegex(chunks.ChunksFault, "0/0/0/1: chunks: the chunk has other bytes"):
            lone.grid(((0, 0, 0), (15, 0, 0)))

    def test_a_full_disk(self):
        """Each write fails in turn. The old volume stays, and nothing else."""
        write, left = zarr.storage.DirectoryStore._tofile, []

        def failing(data, path):
            if not left[0]:
                Path(path).write_bytes(bytes(data)[:1])
                raise OSError(errno.ENOSPC, os.strerror(errno.ENOSPC))
            left[0] -= 1
            write(data, path)

        values, volume = self.values[:8, :8, :16], self.written(self.values[:8], side=8)
        before = vdb.Grid.from_array(self.values[:8])
        with mock.patch.object(zarr.storage.DirectoryStore, "_tofile", staticmethod(failing)), dask.config.set(scheduler="sync"):
            for count in range(100):
                left[:] = [count]
                try:
                    made = self.written(values, side=8)
                    break
                except vdb.FileError as error:
                    self.assertEqual(str(error), f"{volume.folder}: No space left on device")
                self.same(chunks.open(volume.folder), before)
        self.assertGreater(count, 6)
        self.same(made, vdb.Grid.from_array(values))

    def test_nothing_else_is_overwritten(self):
        zarr.save_array(str(self.folder / "z"), self.values)
        zarr.open_group(str(self.folder / "g"), "w").attrs["multiscales"] = []
        Path(self.folder, "old").mkdir()
        Path(self.folder, "old", "chunks.json").write_text("{}")
        for name in ("z", "g", "old"):
            files = {it: it.read_bytes() for it in Path(self.folder, name).rglob("*") if it.is_file()}
            with self.assertRaisesRegex(vdb.VolumeError, f"{self.folder / name}: another array, image or volume is there"):
                self.volume.select(2, self.folder / name)
            self.assertEqual({it: it.read_bytes() for it in Path(self.folder, name).rglob("*") if it.is_file()}, files)

    def test_what_a_program_left_is_removed(self):
        """A program that died left a group, and a worker a temporary file. Files of others stay."""
        left = Path(self.volume.folder, "0123456789abcdef")
        left.mkdir()
        (left / "0").write_bytes(b"left")
        other = Path(self.volume.folder, "notes.txt")
        other.write_text("of others")
        again = self.volume.relabel({1: 5}, self.volume.folder)
        self.assertFalse(left.exists())
        other.unlink()
        self.same(again, self.grid.relabel({1: 5}))

    def test_attributes_with_faults(self):
        path = Path(self.volume.folder, ".zattrs")
        attributes = json.loads(path.read_text())
        for part, wrong in (
            ("version", 1), ("kind", "f32"), ("kind", []), ("background", True), ("background", 2**31), ("side", 12), ("side", None),
            ("written", "../b"), ("written", "0" * 16), ("shape", [20, 20]), ("shape", [-1, 20, 20]), ("shape", [20, 20, 30]), ("low", None),
            ("dtype", "float32"), ("bounds", [[1, 0, 0], [0, 0, 0]]), ("count", "many"), ("sums", 0), ("metadata", {"A": "x"}),
        ):  # fmt: skip
            path.write_text(json.dumps({**attributes, "vdb": {**attributes["vdb"], part: wrong}}))
            with self.subTest(part=part, wrong=wrong), self.assertRaisesRegex(chunks.ChunksFault, f"{self.volume.folder}: chunks: "):
                chunks.Chunks(self.volume.folder)
        for data in (b"", b"{", b"[1]", b"3", b"\xff", b'{"vdb": []}'):
            path.write_bytes(data)
            with self.subTest(data=data), self.assertRaises(vdb.FormatError):
                chunks.Chunks(self.volume.folder)
        path.write_text(json.dumps(attributes))
        array = next(Path(self.volume.folder).glob("*/0/.zarray"))
        array.write_bytes(array.read_bytes()[:-9])
        with self.assertRaisesRegex(chunks.ChunksFault, "/0: chunks: no array of zarr"):
            self.volume.labels()
        for missing in (path, Path(self.volume.folder, ".zgroup")):
            missing.unlink()
            with self.assertRaises(vdb.MissingFileError):
                chunks.Chunks(self.volume.folder)
        with self.assertRaisesRegex(vdb.MissingFileError, "none: No such file"):
            chunks.open(self.folder / "none")

    def test_a_store_of_fsspec(self):
        place = "memory://labels.zarr"
        volume = chunks.from_array(self.values, place, side=8)
        self.grid.dilate(1)
        made = volume.dilate(1, place)
        self.assertEqual((made.folder, made.count, made.bounds), (place, self.grid.count, self.grid.bounds))
        self.assertTrue(made.grid(made.bounds) == self.grid)
        self.assertEqual(len([it for it in zarr.storage.FSStore(place).listdir("") if not it.startswith(".")]), 1)

    def test_blocks(self):
        """A call on each of them, with the voxels around: faces between two labels, against NumPy. And masks are masks."""
        values = np.pad(self.values, ((0, 20), (0, 0), (0, 0)))
        volume = self.written(values, "b", side=8)
        self.assertEqual(len(volume.blocks()), 27)
        self.assertEqual(volume.blocks()[0], ((0, 0, 0), (7, 7, 7)))
        self.assertEqual(sum(volume.map(count_of)), np.count_nonzero(values))
        for (low, high), found in zip(volume.blocks(), volume.map(dense_of, halo=1)):
            box = tuple(slice(max(0, a - 1), b + 2) for a, b in zip(low, high))
            self.assertEqual(found, int(values[box].sum()))
        mask = volume.select(2, self.folder / "c").dilate(1, self.folder / "c")
        one = self.grid.select(2)
        one.dilate(1)
        self.assertIsInstance(mask.grid(mask.bounds), vdb.Mask)
        self.same(mask, one)
        small = self.written(values.astype(np.uint8), "c", side=8)
        for one in (small, volume):
            self.same(one.relabel({1: 70000}, self.folder / "d"), vdb.Grid.from_array(np.where(values == 1, 70000, values)))
        self.same(self.written(values.astype(np.uint8), "c", side=8, background=-1), vdb.Grid.from_array(values, background=-1))

    def test_without_dask(self):
        text = (
            "import sys\nimport vdb\nassert 'dask' not in sys.modules\nsys.modules['dask'] = None\n"
            "try:\n    import vdb.chunks\nexcept ImportError as error:\n    print(error)\n"
        )
        environment = {**os.environ, "PYTHONPATH": str(TOP / "python")}
        ran = subprocess.run([sys.executable, "-c", text], env=environment, capture_output=True, text=True, timeout=60)
        self.assertRegex(ran.stdout, "python3-dask.*python3-distributed.*python3-zarr")
        with mock.patch.dict(sys.modules, {"zarr": None}), self.assertRaisesRegex(ImportError, "python3-zarr"):
            self.written("z", "b")

    def test_chunks_of_values_are_copied(self):
        """Their files stay as they are, beside absent chunks, if the new volume has the same borders of chunks. Otherwise they are new."""
        values, place = np.zeros((48, 24, 24), np.int32), self.folder / "b"
        values[4:12, 9:20, 9:20], values[40:44, 8:10, 8:10] = 3, 5
        grid, volume = vdb.Grid.from_array(values), self.written(values, "b", side=8)

        def files():
            return {it.parts[-3:]: it.read_bytes() for it in place.glob("*/0/*/*/*")}

        before = files()
        self.assertEqual(len(before), 9)
        for name, argument, other in (("erode", 1, 1), ("dilate", 5, 5), ("unite", self.grid, self.volume), ("subtract", self.grid, self.volume)):
            getattr(grid, name)(argument)
            volume = getattr(volume, name)(other, place)
            self.same(volume, grid)
            self.assertEqual(files(), before, name)
        grid.dilate(16)
        self.same(volume.dilate(16, place), grid)
        self.assertNotEqual(files(), before)

    def test_bytes(self):
        """A full volume takes at most 1.3 times the bytes of zarr's own array."""
        values, bytes_of = labels_of(1, (128, 64, 64), 1), []
        zarr.save_array(str(self.folder / "z"), values, chunks=64)
        for folder in ("z", Path(self.written(values, "b", side=64).folder).name):
            bytes_of.append(sum(it.stat().st_size for it in Path(self.folder, folder).rglob("*") if it.is_file()))
        self.assertLess(bytes_of[1], 1.3 * bytes_of[0])

    def test_memory(self):
        """A volume of 4 GiB as an array passes through 2 GiB of addresses. The program fails if its result isn't what it computes."""
        words = [sys.executable, str(Path(__file__).with_name("chunks_memory.py")), "1024", "2"]
        environment = {**os.environ, "PYTHONPATH": str(TOP / "python")}
        ran = subprocess.run(words, env=environment, capture_output=True, text=True, timeout=900)
        self.assertEqual((ran.returncode, ran.stderr), (0, ""), ran.stdout)
        self.assertRegex(ran.stdout, r"1024\^3 voxels")


class OldFolders(Case):
    """Folders of scene files with an index, as version 1.1 wrote them."""

    PAIRS = {"affine_x": "0.5,0,0,1", "affine_y": "0,2,0,0", "affine_z": "0,0,1,0"}

    def old(self, grid, side, box, **changes):
        """Writes the chunks of a grid that has nothing outside a box, each that isn't the background. Returns the index."""
        place = self.folder / "old" / ("0" * 16)
        place.mkdir(parents=True, exist_ok=True)
        rows = []
        for number in product(*(range(low // side, high // side + 1) for low, high in zip(*box))):
            part = grid.copy()
            part.clip([[max(LEAST, at * side) for at in number], [min(MOST, at * side + side - 1) for at in number]])
            if part.census().roots:
                vdb.Scene({"chunk": part}).save(place / "{}_{}_{}.vdbs".format(*number))
                rows.append([number, part.count, part.bounds])
        index = {"version": 1, "kind": grid.kind, "background": grid.background, "side": side, "folder": "0" * 16, "chunks": rows,
                 "metadata": self.PAIRS, **changes}  # fmt: skip
        (self.folder / "old" / "chunks.json").write_text(json.dumps(index))
        return index

    def test_they_are_read_and_converted(self):
        for values, low, side, background in (
            (labels_of(1, (30, 20, 10), 0.1), (-7, 3, 0), 16, 0), (labels_of(2, (9, 9, 9), 0.5), (LEAST, 5, MOST - 8), 24, -1),
            (labels_of(3, (20, 9, 9), 0.2, np.bool_), (0, 0, 0), 8, False), (np.zeros((3, 3, 3), np.int64), (0, 0, 0), 8, 0),
        ):  # fmt: skip
            grid = vdb.Grid.from_array(values, origin=low, background=background)
            grid.erode(1)
            self.old(grid, side, (low, [at + length - 1 for at, length in zip(low, values.shape)]))
            volume = chunks.open(self.folder / "old")
            self.assertEqual((volume.kind, volume.background, volume.count, volume.bounds), (grid.kind, background, grid.count, grid.bounds))
            for made in (chunks.convert(self.folder / "old", self.folder / "a"), chunks.open(self.folder / "a")):
                self.assertTrue(grid_in(made, low, values.shape) == grid_in(volume, low, values.shape))
                self.assertEqual(dict(made.metadata), self.PAIRS)
            self.assertEqual(rows(made.labels()), rows(grid.labels()))
            grid.dilate(2)
            self.assertEqual(rows(volume.dilate(2, self.folder / "b").labels()), rows(grid.labels()))

    def test_an_index_without_metadata(self):
        index = self.old(vdb.Grid.from_array(np.ones((3, 3, 3), np.int32)), 8, ((0, 0, 0), (2, 2, 2)))
        path = self.folder / "old" / "chunks.json"
        del index["metadata"]
        path.write_text(json.dumps(index))
        self.assertEqual(dict(chunks.Chunks(self.folder / "old").metadata), {})
        path.write_text(json.dumps({**index, "metadata": {"A": "x"}}))
        with self.assertRaises(chunks.ChunksFault):
            chunks.Chunks(self.folder / "old")

    def test_indices_with_faults(self):
        index = self.old(vdb.Grid.from_array(np.ones((3, 3, 3), np.int32)), 8, ((0, 0, 0), (2, 2, 2)))
        path = self.folder / "old" / "chunks.json"
        for part, wrong in (
            ("version", 2), ("kind", "f32"), ("kind", []), ("background", True), ("background", 2**31), ("side", 12), ("side", None),
            ("folder", "../b"), ("folder", index["folder"] + "/"), ("chunks", None), ("chunks", [[0, 0, 0]]),
            ("chunks", [[[0, 0], 1, None]]), ("chunks", [[[0, 0, 0], "many", None]]), ("chunks", [[[0, 0, 0], 1, [[1, 0, 0], [0, 0, 0]]]]),
        ):  # fmt: skip
            path.write_text(json.dumps({**index, part: wrong}))
            with self.subTest(part=part, wrong=wrong), self.assertRaisesRegex(chunks.ChunksFault, f"{path}: chunks: "):
                chunks.Chunks(self.folder / "old")
        for data in (b"", b"{", b"[]", b"3", b"\xff", b"{}"):
            path.write_bytes(data)
            with self.assertRaises(vdb.FormatError):
                chunks.Chunks(self.folder / "old")
        path.write_text(json.dumps(index))
        volume = chunks.open(self.folder / "old")
        next((self.folder / "old").glob("*/0_0_0.vdbs")).unlink()
        with self.assertRaisesRegex(vdb.MissingFileError, "0_0_0.vdbs"):
            volume.labels()


def count_of(grid):
    return grid.count


def dense_of(grid):
    return int(grid[...].sum())


def grid_in(volume, low, shape):
    """The voxels of a volume in the box of an array."""
    return volume.grid((low, [at + length - 1 for at, length in zip(low, shape)]))


class Processes(Case):
    """Two worker processes, each of which a nanny starts again."""

    @classmethod
    def setUpClass(cls):
        holder = tempfile.TemporaryDirectory()
        cls.addClassCleanup(holder.cleanup)
        how = {"threads_per_worker": 1, "dashboard_address": None, "silence_logs": logging.CRITICAL, "local_directory": holder.name}
        with warnings.catch_warnings():
            warnings.simplefilter("ignore")  # of libraries below
            cls.client = distributed.Client(distributed.LocalCluster(2, **how))
        cls.addClassCleanup(cls.client.cluster.close)
        cls.addClassCleanup(cls.client.close)

    def setUp(self):
        super().setUp()
        self.values = labels_of(5, (40, 40, 40), 0.05)
        self.grid = vdb.Grid.from_array(self.values, origin=(-20, -3, 5))

    def test_calls(self):
        printed = io.StringIO()
        with ProgressBar(), contextlib.redirect_stdout(printed):
            volume = self.written(dask_array.from_array(self.values, chunks=15), side=16, origin=(-20, -3, 5))
            grown = volume.dilate(3, self.folder / "b")
        self.assertIn("100% Completed", printed.getvalue())
        self.same(volume, self.grid)
        self.grid.dilate(3)
        self.same(grown, self.grid)
        self.same(grown.select([1, 2], self.folder / "a"), self.grid.select([1, 2]))

    def killed_within(self, place, call):
        """What a call returns that writes to a folder, after a worker was killed with three files there, and a temporary file was left."""
        pids, done = self.client.run(os.getpid), []

        def kill():
            while not done:
                files = list(place.glob("*/0/*/*/*"))
                if len(files) >= 3:
                    (files[0].parent / "0.left.partial").write_bytes(b"left")
                    os.kill(next(iter(pids.values())), signal.SIGKILL)
                    done.append(len(files))
                time.sleep(0.001)

        killer = threading.Thread(target=kill)
        killer.start()
        made = call(place)
        killer.join()
        self.assertLess(done[0], len(made.blocks()))
        self.client.wait_for_workers(2)
        self.assertEqual(len({*pids.values()} - {*self.client.run(os.getpid).values()}), 1)
        return made

    def test_a_worker_is_killed(self):
        volume = self.written(self.values, side=8, origin=(-20, -3, 5))
        self.grid.dilate(2)
        self.same(self.killed_within(self.folder / "b", lambda place: volume.dilate(2, place)), self.grid)
