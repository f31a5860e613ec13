# SPDX-License-Identifier: Apache-2.0
"""Measures, components and morphology of labels, against NumPy and scipy on the dense array."""
import itertools
import subprocess
import tempfile
import tracemalloc
import unittest
from fractions import Fraction
from pathlib import Path
from unittest import mock

from scipy import ndimage

from .support import TOP, chance, encoding, library_missing, np, random_array, scenefile, vdb

labels, places = vdb.labels, vdb.library.places
needs_library = unittest.skipIf(library_missing(), library_missing())
LOW = (-37, 3, 4070)


def blobs(seed, shape, count):
    """Labels 1 to count of rough ellipsoids, like organs, some of which meet, with an empty border."""
    dice, made = np.random.default_rng(seed), np.zeros(shape, np.int32)
    for label in range(1, count + 1):
        radii = dice.integers(max(3, min(shape) // 12), max(5, min(shape) // 4), 3)
        centre = [dice.integers(radius + 2, side - radius - 2) for radius, side in zip(radii, shape)]
        place = tuple(slice(at - radius, at + radius + 1) for at, radius in zip(centre, radii))
        x, y, z = (axis / radius for axis, radius in zip(np.ogrid[tuple(slice(-radius, radius + 1) for radius in radii)], radii))
        made[place][x * x + y * y + z * z + 0.2 * np.sin(20 * x) * np.sin(17 * y) * np.sin(23 * z) < 0.9] = label
    return made


def cells(seed, side, step, count=None):
    """Touching cells of about `step` voxels along each axis, or so many along each axis, each with a label of its own."""
    dice = np.random.default_rng(seed)
    count = count or side // step
    numbers = dice.permutation(count**3).reshape((count,) * 3) + 1
    x, y, z = (np.minimum(np.indices((side,) * 3)[axis] + dice.integers(0, 3, (side,) * 3), side - 1) * count // side for axis in range(3))
    return numbers[x, y, z].astype(np.int32)


def samples():
    """Arrays of labels, states and least corners: organs, cells, noise, tiles, one voxel and none."""
    yield "organs", (made := blobs(1, (128,) * 3, 12)), made != 0, LOW
    yield "cells", (made := cells(2, 66, 3)), made != 0, (0, -4, -4100)
    dice = np.random.default_rng(3)
    yield "noise", dice.integers(-2, 30, (24, 17, 31)), dice.random((24, 17, 31)) < 0.4, (-8, 5, 2**31 - 31)
    tiles = np.zeros((148, 140, 136), np.int32)
    tiles[2:140, 3:136, :128] = 5
    tiles[8:136, 8:136, :128] = 6
    tiles[130:147, 60:70, 100:] = 7
    yield "tiles", tiles, tiles != 0, (-8, -8, 256)
    yield "one voxel", np.full((1, 1, 1), 9), np.ones((1, 1, 1), bool), (-(2**31), 7, 2**31 - 1)
    yield "none", np.full((3, 3, 3), 4), np.zeros((3, 3, 3), bool), (0, 0, 0)
    for seed in range(6):
        dice = chance(seed)
        kind = dice.choice(["bool", "i32", "i64"])
        yield (f"boxes {seed}", *random_array(dice, kind, 0, LOW, tuple(dice.randint(1, 40) for _ in range(3))), LOW)


def expected(values, active, low, spacing):
    """The measures of each label by NumPy: voxels, the sum of coordinates, area; and the areas of contact of pairs."""
    among, number = np.unique(values[active], return_inverse=True)
    cell = np.zeros(values.shape, np.int64)
    cell[active] = number + 1
    found, contacts, wide = {}, {}, np.pad(cell, 1)
    areas = np.zeros(len(among) + 1)
    for axis in range(3):
        face = np.prod(spacing) / spacing[axis]
        one, other = (wide.take(np.arange(first, wide.shape[axis] - 1 + first), axis) for first in (0, 1))
        pairs = np.sort(np.stack([one[one != other], other[one != other]]), axis=0)
        codes, counts = np.unique(pairs[0] * (len(among) + 1) + pairs[1], return_counts=True)
        for code, count in zip(codes.tolist(), counts.tolist()):
            first, past = divmod(code, len(among) + 1)
            areas[first] += count * face
            areas[past] += count * face
            if first:
                key = among[first - 1].item(), among[past - 1].item()
                contacts[key] = contacts.get(key, 0) + count * face
    for axis, place in enumerate(np.nonzero(cell)):
        for label, total in enumerate(np.bincount(cell[cell > 0], place, len(among) + 1)[1:].tolist()):
            found.setdefault(among[label].item(), []).append(Fraction(int(total)))
    counts = np.bincount(cell.ravel(), minlength=len(among) + 1)[1:].tolist()
    means = {value: [float(at + total / count) for at, total in zip(low, sums)] for (value, sums), count in zip(found.items(), counts)}
    return among, counts, means, areas[1:], contacts


def neighbours(contacts):
    """Of each label the areas of contact with others, by those of pairs."""
    near = {}
    for (one, other), area in contacts.items():
        near.setdefault(one, {})[other] = near.setdefault(other, {})[one] = area
    return near


def components_of(values, active, order):
    """Components by scipy, label by label."""
    made, count = np.zeros(values.shape, np.int64), 0
    around = ndimage.find_objects(np.where(active, np.unique(values, return_inverse=True)[1].reshape(values.shape) + 1, 0))
    for value, part in zip(np.unique(values), around):
        if part:
            found, number = ndimage.label(active[part] & (values[part] == value), ndimage.generate_binary_structure(3, order))
            made[part][found > 0] = found[found > 0] + count
            count += number
    return made


def in_order(numbers):
    """Components numbered in the order of their first voxels."""
    among, firsts, which = np.unique(numbers[numbers > 0], return_index=True, return_inverse=True)
    ranks = np.empty(len(among), np.int64)
    ranks[np.argsort(firsts)] = np.arange(1, len(among) + 1)
    made = np.zeros(numbers.shape, np.int64)
    made[numbers > 0] = ranks[which]
    return made


class Measured(unittest.TestCase):
    def check(self, grid, values, active, low, spacing=(0.5, 0.75, 3)):
        found = labels.measure(grid, spacing)
        among, counts, means, areas, contacts = expected(values, active, low, spacing)
        np.testing.assert_array_equal(found.values, among)
        self.assertEqual((found.values.dtype, found.voxels.tolist()), (grid.dtype, counts))
        self.assertEqual(dict(zip(among.tolist(), found.centroid.tolist())), means)
        np.testing.assert_array_equal(found.volume, found.voxels * 1.125)
        np.testing.assert_array_equal(found.area, areas)
        self.assertEqual(dict(zip(map(tuple, found.pairs.tolist()), found.contacts.tolist())), contacts)
        np.testing.assert_array_equal(found.extent, (found.high.astype(np.int64) - found.low + 1) * spacing)
        near = neighbours(contacts)
        numbered = np.where(active, np.searchsorted(among, values) + 1, 0)
        for value, part, row in zip(among.tolist(), ndimage.find_objects(numbered), found.rows()):
            ends = tuple(zip(*((at + it.start, at + it.stop - 1) for at, it in zip(low, part))))
            self.assertEqual((row.value, (row.low, row.high), row.neighbours), (value, ends, near.get(value, {})))

    def test_samples(self):
        for name, values, active, low in samples():
            with self.subTest(name):
                self.check(scenefile.Grid.from_array(values, active, low), values, active, low)
                if not library_missing():
                    grid = vdb.Grid.from_array(values, active, low, background=values.dtype.type(1))
                    self.check(grid, values, active, low)
                    self.check(vdb.View(grid), values, active, low)

    def test_chunks_of_leaves(self):
        values = cells(4, 40, 5)
        with mock.patch("vdb.labels_items.CHUNK", 3):
            self.check(scenefile.Grid.from_array(values), values, values != 0, (0, 0, 0))

    def test_many_labels(self):
        values = np.arange(1, 41 * 40 * 39 + 1).reshape(41, 40, 39) * 2**40
        found = labels.measure(scenefile.Grid.from_array(values))
        self.assertEqual((len(found.values), set(found.area.tolist())), (values.size, {6.0}))
        self.assertEqual(len(found.pairs), 40 * 40 * 39 + 41 * 39 * 39 + 41 * 40 * 38)

    def test_huge_tiles_are_items(self):
        """A row of root tiles from end to end of the coordinates, of two labels, and a tile of 128 voxels that lies on it."""
        roots = [((0, 0, at), (2, 5 if at < 0 else 6)) for at in (-2**19, *range(-3, 4))] + [((1, 0, 0), [(0, (2, 5))])]
        grid = scenefile.loads(encoding.save([encoding.Grid(b"a", 1, 0, 90, [], sorted(roots))]))["a"]
        found = labels.measure(grid, (1, 2, 1))
        side = 4096
        self.assertEqual(found.voxels.tolist(), [4 * side**3 + 128**3, 4 * side**3])
        middle = Fraction(side - 1, 2)
        at = sum(Fraction(side * block) + middle for block in (-2**19, -3, -2, -1)) * side**3 + Fraction(127, 2) * 128**3
        self.assertEqual(found.centroid[0, 2], float(at / (4 * side**3 + 128**3)))
        self.assertEqual(found.centroid[1].tolist(), [2047.5, 2047.5, 2 * 4096 - 0.5])
        wide, small = side**2, 128**2  # a face along y has the area 1, the others 2
        self.assertEqual((found.pairs.tolist(), found.contacts.tolist()), ([[5, 6]], [2 * wide + 2 * small]))
        self.assertEqual(found.area.tolist(), [8 * wide * (2 + 1) + 4 * wide * 2 + 2 * small * (2 + 1 + 2), 8 * wide * (2 + 1) + 2 * wide * 2])

    def test_spacing(self):
        grid = scenefile.Grid.from_array(np.ones((2, 2, 2), int), metadata={"affine_x": "0,0,2,5", "affine_y": "-0.5,0,0,1", "affine_z": "0,3,0,1"})
        found = labels.measure(grid)
        self.assertEqual((found.volume.tolist(), found.extent.tolist()), ([24.0], [[1.0, 6.0, 4.0]]))
        for wrong in ((1, 2), (1, 0, 2), (1, 1, float("nan")), 3):
            with self.assertRaisesRegex(vdb.RangeError, "three positive numbers"):
                labels.measure(grid, wrong)


@needs_library
class Components(unittest.TestCase):
    def test_memory(self):
        """No call takes more than three times the memory of the grid, whose leaves have 4 bytes a voxel, besides its result."""
        grid = vdb.Grid.from_array(cells(6, 128, 8))
        wide = lambda grid: labels.margin(grid.select(range(1, 50)), 3)  # noqa: E731
        for call in (labels.measure, labels.components, labels.open, labels.close, labels.fill_holes, wide):
            with mock.patch("vdb.labels_items.CHUNK", 128), self.subTest(call.__name__):
                tracemalloc.start()
                call(grid)
                peak = tracemalloc.get_traced_memory()[1]
                tracemalloc.stop()
                self.assertLess(peak, 3 * 512 * 4 * grid.leaf_count)

    def test_samples(self):
        for name, values, active, low in samples():
            grid = vdb.Grid.from_array(values, active, low, background=values.dtype.type(1))
            box = low, tuple(at + side - 1 for at, side in zip(low, values.shape))
            for connectivity, order in ((6, 1), (18, 2), (26, 3)):
                with self.subTest(name, connectivity=connectivity):
                    made = labels.components(grid, connectivity)
                    found, states = made.to_array(box)
                    np.testing.assert_array_equal(found, in_order(components_of(values, active, order)))
                    np.testing.assert_array_equal(states, active)
                    self.assertEqual((made.kind, made.background, made.count), ("i32", 0, grid.count))

    def test_masks_are_one_label(self):
        values = cells(5, 40, 5) * (np.random.default_rng(5).random((40,) * 3) < 0.3)
        for connectivity, order in ((6, 1), (26, 3)):
            found = labels.components(vdb.Mask(vdb.Grid.from_array(values)), connectivity)
            wanted, count = ndimage.label(values, ndimage.generate_binary_structure(3, order))
            np.testing.assert_array_equal(found.to_array(((0,) * 3, (39,) * 3))[0], in_order(wanted))
            self.assertEqual(len(found.labels().values), count)

    def test_huge_tiles_are_items(self):
        grid = vdb.Grid("i32")
        grid.fill(((0, 0, -4096), (4095, 4095, 8191)), 3)
        grid.fill(((4096, 4096, 8192), (4096 + 127, 4096 + 127, 8192 + 127)), 3)
        grid[4096, 0, 0] = 3
        for connectivity, count in ((6, 2), (18, 2), (26, 1)):
            found = labels.components(grid, connectivity)
            self.assertEqual((len(found.labels().values), found.count), (count, grid.count))
            self.assertLess(found.tree_leaf_count, 2)

    def test_a_hundred_thousand_cells(self):
        """Labels, measures and components of 47^3 touching cells in 128^3 voxels."""
        values = cells(8, 128, None, 47)
        grid, (among, counts, means, areas, contacts) = vdb.Grid.from_array(values), expected(values, values != 0, (0, 0, 0), (1, 1, 2))
        found = labels.measure(grid, (1, 1, 2))
        self.assertGreater(len(among), 10**5)
        self.assertEqual((found.values.tolist(), found.voxels.tolist(), found.area.tolist()), (among.tolist(), counts, areas.tolist()))
        self.assertEqual(dict(zip(among.tolist(), found.centroid.tolist())), means)
        self.assertEqual(dict(zip(map(tuple, found.pairs.tolist()), found.contacts.tolist())), contacts)
        box = (0,) * 3, (127,) * 3
        for connectivity, order in ((6, 1), (26, 3)):
            made = labels.components(grid, connectivity).to_array(box)[0]
            np.testing.assert_array_equal(made, in_order(components_of(values, values != 0, order)))

    def test_what_stays(self):
        grid = vdb.Grid.from_array(np.ones((2, 2, 2), np.int64), limit=7, metadata={"image_array": "uint8,2,2,2", "patient": "3"})
        found = labels.components(grid)
        self.assertEqual((found.limit, dict(found.metadata)), (7, {"image_array": "int32,2,2,2"}))
        with self.assertRaisesRegex(vdb.RangeError, "6, 18 or 26"):
            labels.components(grid, 8)


@needs_library
class Morphology(unittest.TestCase):
    def check(self, mask, wanted, low):
        self.assertIs(type(mask), vdb.Mask)
        self.assertEqual(mask, vdb.Mask.from_array(wanted, origin=low))

    def masks(self):
        for seed in range(4):
            states = blobs(seed, (60, 44, 50), 5) != 0
            states[20:36, 8:40, 8:40] |= seed % 2 == 0
            states ^= np.random.default_rng(seed).random(states.shape) < 0.002
            yield np.pad(states, 20), tuple(at - 20 for at in LOW)

    def test_open_and_close(self):
        for wide, low in self.masks():
            grid = vdb.Grid.from_array(wide.astype(np.int32) * 7, origin=low)
            for times in (1, 3, 18):
                self.check(labels.open(grid, times), ndimage.binary_opening(wide, iterations=times), low)
                self.check(labels.close(grid, times), ndimage.binary_closing(wide, iterations=times), low)
            self.assertEqual(grid, vdb.Grid.from_array(wide.astype(np.int32) * 7, origin=low))
        with self.assertRaisesRegex(vdb.RangeError, "at least 1"):
            labels.open(grid, 0)

    def test_fill_holes(self):
        for wide, low in self.masks():
            shell = wide & ~ndimage.binary_erosion(wide, iterations=2)
            self.check(labels.fill_holes(vdb.Mask.from_array(shell, origin=low)), ndimage.binary_fill_holes(shell), low)
        hollow = np.ones((300, 20, 20), bool)
        hollow[3:290, 3:15, 3:15] = False
        for low in ((-(2**31), -(2**31), 0), (2**31 - 300, 0, 2**31 - 20)):
            self.check(labels.fill_holes(vdb.Mask.from_array(hollow, origin=low)), np.ones_like(hollow), low)
            opened = hollow.copy()
            opened[:4, 8, 8] = False
            self.check(labels.fill_holes(vdb.Mask.from_array(opened, origin=low)), opened, low)
        self.assertEqual(labels.fill_holes(vdb.Mask()).count, 0)

    def test_margin(self):
        for (wide, low), spacing in zip(self.masks(), [(1, 1, 1), (0.7, 0.7, 3), (0.1, 0.3, 0.2), (2, 1, 0.75)]):
            grid = vdb.Grid.from_array(wide.astype(np.int64) * 2, origin=low)
            distances = ndimage.distance_transform_edt(~wide, spacing)
            near = np.unique(distances)
            for distance in (0, 5 * min(spacing), float(near[len(near) // 3]), *[18.5] * (spacing == (1, 1, 1))):
                with self.subTest(spacing=spacing, distance=distance):
                    found = labels.margin(grid, distance, spacing)
                    box = low, tuple(at + side - 1 for at, side in zip(low, wide.shape))
                    np.testing.assert_array_equal(found.to_array(box)[0], distances <= distance)

    def test_margin_of_tiles_and_of_one_voxel(self):
        wide = np.zeros((144, 148, 152), bool)
        wide[8:136, 10:138, 12:140] = True
        grid = vdb.Mask.from_array(wide, origin=(120, -10, 116))
        self.assertEqual(grid.tree_leaf_count, 0)
        self.check(labels.margin(grid, 7.2), ndimage.distance_transform_edt(~wide) <= 7.2, (120, -10, 116))
        wide = np.zeros((90, 50, 90), bool)
        wide[45, 25, 44] = True
        self.check(labels.margin(vdb.Mask.from_array(wide), 40, (1, 2, 1)), ndimage.distance_transform_edt(~wide, (1, 2, 1)) <= 40, (0, 0, 0))
        corner = vdb.Mask.from_array(np.ones((1, 1, 1), bool), origin=(-(2**31) + 2, 0, 2**31 - 3))
        self.assertEqual(labels.margin(corner, 2).count, 33)
        with self.assertRaisesRegex(vdb.RangeError, "past 32 bits"):
            labels.margin(corner, 3)
        for wrong in (-1, 257, float("nan")):
            with self.assertRaisesRegex(vdb.RangeError, "the distance"):
                labels.margin(corner, wrong)
        self.assertEqual(labels.margin(vdb.Mask(), 3).count, 0)

    def test_erode_label(self):
        values = blobs(9, (48, 40, 33), 4)
        for label, times in itertools.product((1, 3, 77), (1, 2)):
            grid = vdb.Grid.from_array(values, origin=LOW, background=5)
            grid.erode_label(label, times)
            lost = (values == label) & ~ndimage.binary_erosion(values == label, iterations=times)
            box = LOW, tuple(at + side - 1 for at, side in zip(LOW, values.shape))
            found, states = grid.to_array(box)
            np.testing.assert_array_equal(found, np.where(lost, 5, values))
            np.testing.assert_array_equal(states, (values != 5) & ~lost)


@needs_library
class Cpp(unittest.TestCase):
    """Each call of vdb_labels.hpp makes what the call of Python does, which the tests above compare with scipy."""

    def test_calls(self):
        with tempfile.TemporaryDirectory() as folder:
            library = next(Path(place).resolve() for place in places() if Path(place).exists())
            program = f"{folder}/labels"
            Path(folder, "libvdb.so.1").symlink_to(library)
            words = "-std=c++17 -O1 -Wall -Wextra -pedantic -Werror".split()
            subprocess.run(["g++", *words, f"-I{TOP / 'include'}", TOP / "tests" / "c" / "labels.cpp", library, f"-Wl,-rpath,{folder}", "-o",
                            program], check=True)  # fmt: skip
            values = blobs(7, (70, 40, 48), 4)
            values[8:25, 8:40, 8:33], values[12:16, 12:16, 12:16] = 1, 0
            tiles = np.pad(values, ((0, 138), (24, 96), (32, 80)))
            tiles[72:200, 24:152, 32:160] = 2
            for array, label, low in ((values, 1, (-5, 3, -77)), (tiles, 2, (56, -24, -160))):
                with self.subTest(shape=array.shape):
                    self.check(vdb.Grid.from_array(array, origin=low), label, array, low, program, folder)

    def check(self, grid, label, array, low, program, folder):
        vdb.Scene({"a": grid}).save(f"{folder}/a.vdbs")
        spacing = (0.5, 0.75, 3)
        words = [program, f"{folder}/a.vdbs", f"{folder}/made.vdbs", label, 3.2, *spacing]
        lines = subprocess.run([*map(str, words)], check=True, capture_output=True, text=True).stdout.splitlines()
        among, counts, means, areas, contacts = expected(array, array != 0, low, spacing)
        for line, value, count, area, row in zip(lines, among.tolist(), counts, areas.tolist(), labels.measure(grid, spacing).rows()):
            found = [float(word) for word in line.split()]
            self.assertEqual(found[:7], [value, count, count * 1.125, area, *means[value]])
            self.assertEqual(found[7:13], [*row.low, *row.high])
            self.assertEqual(dict(zip(found[13::2], found[14::2])), neighbours(contacts).get(value, {}))
        self.assertEqual(len(lines), len(among))
        wanted = {"six": labels.components(grid), "eighteen": labels.components(grid, 18), "more": labels.components(grid, 26)}
        wanted.update(opened=labels.open(grid, 2), closed=labels.close(grid, 18), filled=labels.fill_holes(grid))
        wanted.update(margin=labels.margin(grid, 3.2, spacing), chosen=grid.select([label, label + 1]))
        wanted.update(changed=grid.relabel({label: label + 1, label + 1: 77}), where=grid.where(grid == label))
        wanted.update(dilated=grid.copy(), eroded=grid.copy())
        wanted["dilated"].dilate_label(label, 2)
        wanted["eroded"].erode_label(label, 2)
        made = vdb.load(f"{folder}/made.vdbs")
        self.assertEqual([*made], sorted(wanted))
        for name, one in wanted.items():
            self.assertEqual(made[name], one, name)


if __name__ == "__main__":
    unittest.main()
