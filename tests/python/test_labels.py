# SPDX-License-Identifier: Apache-2.0
"""Labels: their numbers, boxes, choices and growth, against dense arrays."""
import unittest
from unittest import mock

from .support import DTYPES, EXTREMES, boxes, chance, encoding, library_missing, np, random_array, rows, scenefile, vdb

PACKAGES = [scenefile] if library_missing() else [scenefile, vdb]
needs_library = unittest.skipIf(library_missing(), library_missing())
FORMS = ("pruned", "voxelised", "raw")


def sample(seed, kind=None):
    """Random values and states, some of them tiles, and the least corner."""
    dice = chance(seed)
    kind = kind or dice.choice(list(DTYPES))
    low = tuple(dice.choice([0, -8, 3, 120, 4090, -4100]) for _ in range(3))
    shape = tuple(dice.randint(1, 40) for _ in range(3))
    values, active = random_array(dice, kind, 0, low, shape)
    if dice.random() < 0.3:
        values = np.array(dice.choices(range(-20, 20), k=values.size), values.dtype).reshape(shape)
        active |= np.array(dice.choices([True, False], k=values.size)).reshape(shape)
    return values, active, low


def grid_of(values, active, low, form="pruned"):
    """A grid of the engine whose tree has tiles, or none, or what `write_box` leaves."""
    grid = vdb.Grid.from_array(values, active, low)
    if form == "voxelised" and grid.bounds:
        grid.voxelise(grid.bounds)
    elif form == "raw":
        grid = vdb.Grid(values.dtype)
        grid.write_box(low, values, active)
    return grid


def box_of(values, low):
    return low, tuple(at + side - 1 for at, side in zip(low, values.shape))


class Reports(unittest.TestCase):
    def check(self, grid, values, active, low):
        self.assertEqual(rows(grid.labels()), boxes(values, active, low)[1])
        found, states = np.zeros_like(values), np.zeros_like(active)
        for part in grid.boxes():
            self.assertEqual((part.low.dtype, part.high.dtype, part.values.dtype), (np.int32, np.int32, values.dtype))
            for first, last, value in zip(part.low - low, part.high - low, part.values):
                place = tuple(slice(a, b + 1) for a, b in zip(first, last))
                self.assertFalse(states[place].any(), "two boxes overlap")
                found[place], states[place] = value, True
        np.testing.assert_array_equal(states, active)
        np.testing.assert_array_equal(found[active], values[active])

    def test_random(self):
        for seed in range(40):
            values, active, low = sample(seed)
            with self.subTest(seed=seed):
                self.check(scenefile.Grid.from_array(values, active, low), values, active, low)
                for form in FORMS if vdb in PACKAGES else ():
                    self.check(grid_of(values, active, low, form), values, active, low)

    def test_many_labels(self):
        """Leaves of many labels, which are grouped after a few leaves: then voxels within the box of their label are only counted."""
        for seed, step in enumerate([1, 1, 5000, -(2**26)]):
            dice = np.random.default_rng(seed)
            values = (dice.integers(1, 30, (40, 24, 30)) * step).astype(np.int32)
            active, low = dice.random(values.shape) < 0.6, (-9, 0, 4090)
            for package in PACKAGES:
                grid = package.Grid.from_array(values, active, low)
                with mock.patch("vdb.blocks.MANY", 40), mock.patch("vdb.walk.LEAVES", 2), mock.patch("vdb.scenefile.tree.LEAVES", 2):
                    self.assertEqual(rows(grid.labels()), boxes(values, active, low)[1])

    def test_types(self):
        for package in PACKAGES:
            for kind, form in DTYPES.items():
                for grid in (package.Grid(kind), package.Grid.from_array(np.ones((3, 3, 3), form))):
                    found = grid.labels()
                    self.assertEqual([column.dtype for column in found], [form, np.int64, np.int32, np.int32])
                    self.assertEqual([column.shape for column in found], [(len(found[0]),)] * 2 + [(len(found[0]), 3)] * 2)

    def test_tiles_of_every_size(self):
        """A root tile, two tiles of 128 voxels, one of 8 and a leaf, in 6 boxes. With a root block that has an inactive tile alone, the root
        tile may be cut."""
        lower = [(5, (2, 3)), (6, [(0, (2, 3)), (1, (1, 8)), (9, (2, 6))])]
        roots = [((-1, 0, 0), (2, 6)), ((0, 0, -1), [(0, (2, 3)), (1, lower), (32767, (2, 6))]), ((0, 0, 0), [(9, (1, 6))])]
        wanted = [
            (3, 128**3 + 512 + 1, ((0, 0, -4096), (127, 127, -4096 + 128 + 48))),
            (6, 4096**3 + 128**3 + 1, ((-4096, 0, -4096 + 128 + 49), (4095, 4095, 4095))),
        ]
        for package in PACKAGES:
            for some in (roots[:2], roots):
                grid = package.loads(encoding.save([encoding.Grid(b"a", 1, 0, 9, [], some)]))["a"]
                self.assertEqual(rows(grid.labels()), wanted)
                sizes = [np.prod(part.high.astype(np.int64) - part.low + 1, axis=1) for part in grid.boxes()]
                self.assertEqual(int(sum(size.sum() for size in sizes)), grid.count)
                if some is not roots:
                    self.assertEqual(sorted(np.concatenate(sizes).tolist()), [1, 1, 512, 128**3, 128**3, 4096**3])


@needs_library
class Choices(unittest.TestCase):
    def test_select(self):
        for seed in range(30):
            values, active, low = sample(seed)
            labels = np.unique(values[active]) if active.any() else values[0, 0, :1]
            for form in FORMS:
                with self.subTest(seed=seed, form=form):
                    grid = grid_of(values, active, low, form)
                    for wanted in (labels[0], labels[::2], labels):
                        found = grid.select(wanted)
                        mask = active & np.isin(values, wanted)
                        self.assertEqual((found.kind, found.background, found.tree_leaf_count), ("bool", False, found.leaf_count))
                        self.assertEqual(found, vdb.Grid.from_array(mask, origin=low))
        ends = np.array([[[*range(20), -(2**63), 2**63 - 1, -1]]])
        grid = vdb.Grid.from_array(ends, ends != 3)
        for wanted in (range(1, 12), [-(2**63), *range(9)], [*range(9), 2**63 - 1]):
            self.assertEqual(grid.select([*wanted])[0, 0, 0:23].tolist(), (np.isin(ends, [*wanted]) & (ends != 3))[0, 0].tolist())
        with self.assertRaisesRegex(vdb.DtypeError, "1.5"):
            vdb.Grid("i32").select(1.5)
        self.assertEqual(vdb.Grid("i32").select([]).count, 0)

    def test_relabel(self):
        for seed in range(30):
            values, active, low = sample(seed, chance(seed).choice(["i32", "i64"]))
            for form in FORMS:
                with self.subTest(seed=seed, form=form):
                    grid = grid_of(values, active, low, form)
                    labels = np.unique(values[active]).tolist()
                    for pairs in ({label: label // 2 + 1 for label in labels}, dict(zip(labels, labels[::-1])), dict(zip(labels[:2], [0, 9])), {99: 1}, {}):
                        before = grid.copy()
                        found, wanted = grid.relabel(pairs), values.copy()
                        for old, new in pairs.items():
                            wanted[active & (values == old)] = new
                        np.testing.assert_array_equal(found.to_array(box_of(values, low)), (wanted, active))
                        self.assertEqual((found.count, before), (grid.count, grid))
        grid = vdb.Grid.from_array(np.full((9, 9, 9), 3, np.int32), limit=5, metadata={"unit": "mm"})
        found = grid.relabel({3: 1})
        self.assertEqual((found[0, 0, 0], found.limit, found.metadata["unit"], grid[0, 0, 0]), (1, 5, "mm", 3))
        for pairs, error in (({3: 2**31}, ValueError), ({2**31: 3}, ValueError), ({3: 1.5}, TypeError)):
            with self.assertRaises(error):
                grid.relabel(pairs)

    def test_where(self):
        for seed in range(30):
            values, active, low = sample(seed)
            mask = np.array(chance(seed).choices([True, False], k=active.size)).reshape(active.shape)
            with self.subTest(seed=seed):
                grid = grid_of(values, active, low, FORMS[seed % 3])
                found = grid.where(vdb.Grid.from_array(mask, origin=low))
                np.testing.assert_array_equal(found.to_array(box_of(values, low)), (values * (active & mask), active & mask))
                self.assertEqual(grid.where(grid), vdb.Grid.from_array(values * active, active, low))
        with self.assertRaises(TypeError):
            grid.where(mask)

    def test_tiles_stay_tiles(self):
        """Choices in a grid of 2^36 voxels make leaves only where leaves are."""
        grid = vdb.Grid("i32")
        grid.fill(((0, 0, 0), (4095, 4095, 4095)), 6)
        grid.fill(((-128, 0, 0), (-1, 127, 127)), 3)
        grid[-200, 0, 0] = 3
        for found, voxels, leaves in (
            (grid.select(6), 2**36, 0), (grid.select(3), 2**21 + 1, 1), (grid.select([3, 6]), grid.count, 1),
            (grid.relabel({6: 7}), grid.count, 1), (grid.where(grid.select(6)), 2**36, 0),
        ):  # fmt: skip
            self.assertEqual((found.count, found.tree_leaf_count), (voxels, leaves))
        self.assertEqual(rows(grid.relabel({6: 7}).labels()), [(3, *rows(grid.labels())[0][1:]), (7, *rows(grid.labels())[1][1:])])
        grid.dilate_label(3)
        self.assertEqual(grid.select(6).count, 2**36)

    def test_dilate_label(self):
        for seed in range(25):
            dice = chance(seed)
            values = np.array(dice.choices([0, 0, 0, 0, 0, 1, 2, 3], k=20 * 9 * 14), np.int32).reshape(20, 9, 14)
            values[:, :, 6] = dice.choice([0, 2, 2])
            wide = np.pad(values, 4)
            times = dice.randint(1, 3)
            for label in (1, 2, 7):
                with self.subTest(seed=seed, label=label):
                    grid = vdb.Grid.from_array(values, origin=(-4, 0, 4090))
                    grid.dilate_label(label, times)
                    wanted = wide.copy()
                    for _ in range(times):
                        grown = np.zeros(wanted.shape, np.bool_)
                        for axis in range(3):
                            for step in (-1, 1):
                                grown |= np.roll(wanted == label, step, axis)
                        wanted[grown & (wanted == 0)] = label
                    found, states = grid.to_array(((-8, -4, 4086), (19, 12, 4107)))
                    np.testing.assert_array_equal(found, wanted)
                    np.testing.assert_array_equal(states, wanted != 0)
        for wrong, error in (((1.5,), TypeError), ((1, 0), ValueError), ((1, 17), ValueError)):
            with self.assertRaises(error):
                grid.dilate_label(*wrong)

    def test_a_growth_past_the_root_limit_changes_nothing(self):
        grid = vdb.Grid("i32", limit=1)
        grid[0, 0, 4095] = 5
        with self.assertRaises(vdb.RootLimitError):
            grid.dilate_label(5)
        self.assertEqual((grid.count, grid[0, 0, 4095]), (1, 5))


if __name__ == "__main__":
    unittest.main()
