# SPDX-License-Identifier: Apache-2.0
"""Grids and dense arrays, against brute force."""
import unittest
from itertools import product

from .support import DTYPES, EXTREMES, boxes, cell, chance, encoding, np, random_array, rows, scenefile, vdb

LEAST, MOST = -(2**31), 2**31 - 1


def through_file(grid):
    """The grid after it is saved and loaded. Its file must be what the independent reader makes of it."""
    data = scenefile.Scene({"a": grid}).to_bytes()
    assert encoding.verdict(data) == data, "the file isn't the encoding of its scene"
    return scenefile.loads(data)["a"]


class Arrays(unittest.TestCase):
    def check(self, values, active, low, background):
        """There and back, and every report by brute force."""
        grid = through_file(scenefile.Grid.from_array(values, active, low, background))
        high = tuple(at + side - 1 for at, side in zip(low, values.shape))
        found, states = grid.to_array((low, high))
        self.assertEqual((found.dtype, states.dtype), (values.dtype, np.dtype(np.bool_)))
        np.testing.assert_array_equal(found, values)
        np.testing.assert_array_equal(states, active)
        bounds, labels = boxes(values, active, low)
        self.assertEqual(grid.bounds, bounds)
        self.assertEqual(grid.count, int(active.sum()))
        self.assertEqual(rows(grid.labels()), labels)
        return grid

    def test_random(self):
        for seed in range(60):
            dice = chance(seed)
            kind = dice.choice(list(EXTREMES))
            background = dice.choice(EXTREMES[kind])
            low = tuple(dice.choice([0, -8, 3, -5, 124, 4090, -4100]) for _ in range(3))
            shape = tuple(dice.randint(1, 40) for _ in range(3))
            values, active = random_array(dice, kind, background, low, shape)
            with self.subTest(seed=seed):
                grid = self.check(values, active, low, background)
                for _ in range(20):
                    at = tuple(dice.randrange(side) for side in shape)
                    place = tuple(a + b for a, b in zip(at, low))
                    self.assertEqual(cell(grid, place), (values[at].item(), bool(active[at])))
                self.part(dice, grid, values, active, low, background)

    def test_equal_tiles_of_other_states(self):
        active = np.ones((128, 128, 128), np.bool_)
        active[:8, :8, :8] = False
        self.check(np.full(active.shape, 5, np.int32), active, (0, 0, 0), 0)

    def test_a_box_that_begins_in_the_only_leaf(self):
        values = np.arange(1, 513, dtype=np.int32).reshape(8, 8, 8)
        wanted = np.zeros((17, 17, 17), np.int32)
        wanted[:4, :4, :4] = values[4:, 4:, 4:]
        found = scenefile.Grid.from_array(values).to_array(((4, 4, 4), (20, 20, 20)))
        np.testing.assert_array_equal(found[0], wanted)
        np.testing.assert_array_equal(found[1], wanted != 0)

    def part(self, dice, grid, values, active, low, background):
        """A box that goes over the array's edges, with and without a fill."""
        first = [dice.randint(-20, side) for side in values.shape]
        last = [at + dice.randint(0, 30) for at in first]
        wanted = np.full([b - a + 1 for a, b in zip(first, last)], background, values.dtype)
        states = np.zeros(wanted.shape, np.bool_)
        inner = tuple(slice(max(0, a), max(0, b + 1)) for a, b in zip(first, last))
        put = tuple(slice(max(0, -a), max(0, -a) + values[inner].shape[axis]) for axis, a in enumerate(first))
        wanted[put], states[put] = values[inner], active[inner]
        box = tuple(tuple(a + at for a, at in zip(corner, low)) for corner in (first, last))
        found = grid.to_array(box)
        np.testing.assert_array_equal(found[0], wanted)
        np.testing.assert_array_equal(found[1], states)
        fill = dice.choice(EXTREMES[grid.kind])
        np.testing.assert_array_equal(grid.to_array(box, fill)[0], np.where(states, wanted, np.array(fill, values.dtype)))

    def test_corners(self):
        """All types and backgrounds in the corners of the coordinate range."""
        shape = (3, 9, 10)
        for corner, kind in product(product((LEAST, MOST), repeat=3), EXTREMES):
            low = tuple(at if at < 0 else at - side + 1 for at, side in zip(corner, shape))
            dice = chance(str((corner, kind)))
            for background in EXTREMES[kind]:
                values = np.array(dice.choices(EXTREMES[kind], k=270), DTYPES[kind]).reshape(shape)
                active = np.array(dice.choices([True, False], k=270)).reshape(shape)
                self.check(values, active, low, background)

    def test_outside_32_bits(self):
        one = np.ones((2, 1, 1), np.int32)
        for origin in ((MOST, 0, 0), (LEAST - 1, 0, 0), (0, 0, MOST + 1)):
            with self.assertRaises(ValueError):
                scenefile.Grid.from_array(one, origin=origin)
        self.assertEqual(scenefile.Grid.from_array(one, origin=(MOST - 1, 0, 0)).bounds, ((MOST - 1, 0, 0), (MOST, 0, 0)))
        with self.assertRaises(ValueError):
            scenefile.Grid("i32")[0, 0, 2**31]

    def test_a_thin_array(self):
        """A long array of few voxels has many root blocks; those that hold nothing but the background are passed over."""
        values = np.zeros((1, 3, 30000), np.int32)
        values[0, 1, 20000] = 7
        active = np.zeros(values.shape, np.bool_)
        active[0, 2, 10000] = True
        for states, wanted in ((None, {(5, 0, 0): (7, True)}), (active, {(5, 0, 0): (7, False), (5, 1, -10000): (0, True)})):
            grid = scenefile.Grid.from_array(values, states, origin=(5, -1, -20000))
            found = {at: (int(grid[at]), bool(grid.active[at])) for at in [(5, 0, 0), (5, 1, -10000), (5, 0, 1), (5, -1, -20000)]}
            self.assertEqual(found, {(5, 0, 1): (0, False), (5, -1, -20000): (0, False), (5, 1, -10000): (0, False), **wanted})

    def test_default_active(self):
        values = np.arange(24, dtype=np.int32).reshape(2, 3, 4)
        for background in (0, 5, -1):
            grid = scenefile.Grid.from_array(values, background=background)
            np.testing.assert_array_equal(grid.to_array(((0, 0, 0), (1, 2, 3)))[1], values != background)

    def test_tiles(self):
        """Constant blocks become tiles of each level, active or not."""
        values = np.zeros((128, 128, 136), np.int64)
        values[:, :, :128] = 9
        values[:8, 8:16, 128:] = 4
        grid = self.check(values, values == 9, (0, -128, 256), 0)
        self.assertEqual(grid.tile_counts, {8: 1, 128: 1, 4096: 0})
        self.assertEqual(list(grid.tiles()), [((0, -128, 256), 128, 9, True), ((0, -120, 384), 8, 4, False)])
        self.assertEqual(cell(grid, (0, -120, 384)), (4, False))

    def test_tiles_with_a_fill(self):
        """Inactive voxels of tiles have the fill, active ones their value."""
        values, active = np.full((16, 8, 8), 5, np.int32), np.ones((16, 8, 8), np.bool_)
        active[8:] = False
        grid = scenefile.Grid.from_array(values, active)
        self.assertEqual(grid.tile_counts[8], 2)
        found, states = grid.to_array(((0, 0, 0), (15, 7, 7)), fill=-1)
        self.assertEqual([found[:8].min(), found[:8].max(), found[8:].min(), found[8:].max()], [5, 5, -1, -1])
        np.testing.assert_array_equal(states, active)

    def test_root_tile(self):
        """A root block of one value, which a file holds and no array of a reasonable size."""
        roots = [((-1, 0, 0), (2, 6)), ((0, 0, 0), [(0, (1, 3)), (32767, (2, 6))])]
        data = encoding.save([encoding.Grid(b"a", 1, 0, 2, [], roots)])
        grid = scenefile.loads(data)["a"]
        self.assertEqual(scenefile.Scene({"a": grid}).to_bytes(), data)
        self.assertEqual(grid.count, 4096**3 + 128**3)
        self.assertEqual(grid.bounds, ((-4096, 0, 0), (4095, 4095, 4095)))
        self.assertEqual(rows(grid.labels()), [(6, 4096**3 + 128**3, grid.bounds)])
        self.assertEqual((cell(grid, (-1, 5, 5)), cell(grid, (0, 127, 0)), cell(grid, (4095, 4095, 4000))), ((6, True), (3, False), (6, True)))
        values, active = grid.to_array(((-2, 126, 127), (1, 128, 128)))
        self.assertEqual(values[:, 0, 0].tolist(), [6, 6, 3, 3])
        self.assertEqual(values[:, 2, 1].tolist(), [6, 6, 0, 0])
        self.assertEqual(active[:, 0, 0].tolist(), [True, True, False, False])

    def test_huge_count(self):
        """The largest count that a grid can have is exact."""
        roots = [((x, y, 0), (2, 1)) for x in range(-128, 128) for y in range(-128, 128)]
        grid = scenefile.loads(encoding.save([encoding.Grid(b"a", 1, 0, 65536, [], roots)]))["a"]
        self.assertEqual(grid.count, 65536 * 4096**3)
        self.assertEqual(grid.labels().counts.tolist(), [65536 * 4096**3])

    def test_leaves(self):
        dice = chance(5)
        values, active = random_array(dice, "i32", 7, (-9, 0, 4090), (30, 20, 40))
        grid = scenefile.Grid.from_array(values, active, (-9, 0, 4090), 7)
        leaves = list(grid.leaves())
        self.assertEqual(len(leaves), grid.leaf_count)
        for leaf in leaves:
            box = leaf.origin, tuple(at + 7 for at in leaf.origin)
            found = grid.to_array(box)
            np.testing.assert_array_equal(leaf.values, found[0])
            np.testing.assert_array_equal(leaf.active, found[1])

    def test_forms_of_arrays(self):
        """Other orders of axes in memory, steps, byte orders and narrower dtypes give the same grid."""
        dice = chance(8)
        values, active = random_array(dice, "i32", 0, (0, 0, 0), (30, 40, 35))
        values = values % 100
        plain = scenefile.Scene({"a": scenefile.Grid.from_array(values, active)}).to_bytes()
        wide = np.zeros((60, 40, 70), np.int32)
        wide[::2, :, ::2] = values
        forms = [np.asfortranarray(values), wide[::2, :, ::2], values[:, :, ::-1].copy()[:, :, ::-1]]
        forms += [values.astype(dtype) for dtype in (">i4", np.int8, np.int16, np.uint8, ">u2")]
        for form in forms:
            made = scenefile.Grid.from_array(form, np.asfortranarray(active))
            self.assertEqual(scenefile.Scene({"a": made}).to_bytes(), plain)
        self.assertEqual(scenefile.Grid.from_array(values.astype(np.uint32)).kind, "i64")

    def test_wrong_arrays(self):
        one = np.ones((2, 2, 2), np.int32)
        for dtype in (np.float32, np.uint64, np.complex64, object, "U1"):
            with self.assertRaisesRegex(TypeError, "astype"):
                scenefile.Grid.from_array(one.astype(dtype))
        for values, active in ((one[0], None), (one, np.ones((2, 2, 3), np.bool_))):
            with self.assertRaises(ValueError):
                scenefile.Grid.from_array(values, active)
        with self.assertRaisesRegex(TypeError, "astype"):
            scenefile.Grid.from_array(one, one)
        for background, error in ((2**31, ValueError), (True, TypeError), (1.0, TypeError)):
            with self.assertRaises(error):
                scenefile.Grid.from_array(one, background=background)

    def test_empty(self):
        for shape in ((0, 3, 3), (5, 5, 5)):
            grid = through_file(scenefile.Grid.from_array(np.zeros(shape, np.bool_)))
            self.assertEqual((grid.count, grid.bounds, rows(grid.labels())), (0, None, []))
            self.assertEqual(grid.to_array()[0].shape, (0, 0, 0))
            self.assertEqual(grid.to_array(((0, 0, 0), (1, 0, 0)))[0].tolist(), [[[False]], [[False]]])

    def test_too_large(self):
        grid = scenefile.Grid("i64")
        with self.assertRaises(vdb.ArrayTooLargeError) as caught:
            grid.to_array(((LEAST, LEAST, LEAST), (MOST, MOST, MOST)))
        self.assertEqual(caught.exception.needed, 9 * 2**96)
        box = (0, 0, 0), (9, 9, 9)
        with self.assertRaises(vdb.ArrayTooLargeError):
            grid.to_array(box, max_bytes=8999)
        self.assertEqual(grid.to_array(box, max_bytes=9000)[0].size, 1000)

    def test_root_limit(self):
        values = np.zeros((8200, 1, 1), np.int32)
        values[[0, 4096, 8192]] = 1
        with self.assertRaises(vdb.RootLimitError) as caught:
            scenefile.Grid.from_array(values, limit=2)
        self.assertEqual((caught.exception.needed, caught.exception.limit), (3, 2))
        grid = scenefile.Grid.from_array(values, limit=3)
        with self.assertRaises(vdb.RootLimitError):
            grid.limit = 2
        self.assertEqual((grid.limit, grid.root_blocks, grid.count), (3, 3, 3))


class Forms(unittest.TestCase):
    def test_grid(self):
        with self.assertRaises(ValueError):
            scenefile.Grid("float")
        for limit, error in ((0, ValueError), (65537, ValueError), (1.5, TypeError), (True, TypeError)):
            with self.assertRaises(error):
                scenefile.Grid("i32", limit=limit)

    def test_metadata(self):
        grid = scenefile.Grid("bool", metadata={"b": "2", "a": "1"})
        self.assertEqual(list(grid.metadata.items()), [("a", "1"), ("b", "2")])
        for key, text in (("A", "x"), ("", "x"), ("a" * 17, "x"), ("a", ""), ("a", "x y"), ("a", "x" * 65), ("a", "é"), ("a\n", "x")):
            with self.assertRaises(ValueError, msg=(key, text)):
                grid.metadata[key] = text
        with self.assertRaises(TypeError):
            grid.metadata["a"] = 5
        grid.metadata = {f"k{at}": "~" * 64 for at in range(16)}
        with self.assertRaises(ValueError):
            grid.metadata["k16"] = "x"
        grid.metadata["k0"] = "!"
        self.assertEqual((len(grid.metadata), grid.metadata["k0"]), (16, "!"))
        self.assertEqual(dict(through_file(grid).metadata), dict(grid.metadata))

    def test_bounds(self):
        grid = scenefile.Grid("i32")
        for bounds, error in (
            (((1, 0, 0), (0, 0, 0)), vdb.RangeError), (((0, 0), (1, 1, 1)), vdb.DtypeError), (((0, 0, 0), (0, 0, 0.5)), vdb.DtypeError),
            (5, vdb.DtypeError), (((0, 0, 0),), vdb.DtypeError),
        ):  # fmt: skip
            with self.assertRaises(error):
                grid.to_array(bounds)
        with self.assertRaises(TypeError):
            grid.to_array(((0, 0, 0), (0, 0, 0)), fill=True)


if __name__ == "__main__":
    unittest.main()
