# SPDX-License-Identifier: Apache-2.0
"""Masks: sets of voxels, against NumPy and scipy."""
import copy
import operator
import pickle
import unittest

from scipy import ndimage

from .support import EXTREMES, chance, encoding, library_missing, np, random_array, scenefile, vdb

if library_missing():
    raise unittest.SkipTest(library_missing())

CROSS = ndimage.generate_binary_structure(3, 1)
LOW, SHAPE = (-5, 3, 4090), (20, 19, 21)
BOX = LOW, tuple(at + side - 1 for at, side in zip(LOW, SHAPE))
PART = tuple(slice(at, at + side) for at, side in zip(LOW, SHAPE))


def some(seed):
    """Random voxels of a box, some of them whole leaf extents, with a free border of 4 voxels."""
    states = random_array(chance(seed), "bool", False, LOW, SHAPE)[1]
    states ^= np.random.default_rng(seed).random(SHAPE) < 0.1
    return np.pad(states[4:-4, 4:-4, 4:-4], 4)


class Sets(unittest.TestCase):
    def check(self, mask, wanted):
        """The values, the states, the reports and the file are those of the set."""
        self.assertIs(type(mask), vdb.Mask)
        np.testing.assert_array_equal(mask.to_array(BOX), (wanted, wanted))
        np.testing.assert_array_equal(mask[PART], mask.active[PART])
        self.assertEqual(mask.count, int(wanted.sum()))
        self.assertEqual(mask, vdb.Grid.from_array(wanted, origin=LOW))
        saved = vdb.loads(vdb.Scene({"a": mask}).to_bytes())["a"]
        np.testing.assert_array_equal(saved.to_array(BOX), (wanted, wanted))
        self.assertEqual(vdb.Mask(saved), mask)

    def test_operators(self):
        for seed in range(8):
            one, other = some(seed), some(seed + 100)
            values = np.where(other, np.int32(7), np.int32(3))
            others = [vdb.Mask.from_array(other, origin=LOW), vdb.Grid.from_array(values, other, LOW)]
            for name in ("or_", "and_", "xor"):
                for grid in others:
                    with self.subTest(seed=seed, name=name, kind=grid.kind):
                        mask = vdb.Mask.from_array(one, origin=LOW)
                        wanted = getattr(operator, name)(one, other)
                        self.check(getattr(operator, name)(mask, grid), wanted)
                        self.check(mask, one)
                        same = mask
                        self.check(getattr(operator, f"i{name.strip('_')}")(mask, grid), wanted)
                        self.check(same, wanted)
            mask = vdb.Mask.from_array(one, origin=LOW)
            self.check(mask - others[0], one & ~other)
            for name, wanted in (("maximum", one | other), ("minimum", one & other), ("replace", one | other), ("subtract", one & ~other)):
                made = mask.copy()
                getattr(made, name)(others[0])
                self.check(made, wanted)
            self.check(mask.where(others[1]), one & other)
            self.check(mask - mask, one & False)
            self.check(mask.complement(BOX), ~one)

    def test_dilate_and_erode(self):
        for seed in range(6):
            states = some(seed)
            for count in (1, 3):
                mask, told = vdb.Mask.from_array(states, origin=LOW), []
                mask.dilate(count, lambda *done: told.append(done))
                self.check(mask, ndimage.binary_dilation(states, CROSS, count))
                self.assertEqual(told, [(done, count) for done in range(1, count + 1)])
                mask.erode(count)
                self.check(mask, ndimage.binary_erosion(ndimage.binary_dilation(states, CROSS, count), CROSS, count))
            mask = vdb.Mask.from_array(states, origin=LOW)
            mask.dilate_label(True, 2)
            self.check(mask, ndimage.binary_dilation(states, CROSS, 2))

    def test_an_interrupted_iteration_changes_nothing(self):
        mask = vdb.Mask.from_array(some(1), origin=LOW)
        with self.assertRaises(KeyError):
            mask.dilate(2, lambda *_: {}["stop"])
        self.check(mask, some(1))

    def test_writes(self):
        states, mask = some(3), vdb.Mask.from_array(some(3), origin=LOW)
        dice = np.random.default_rng(3)
        whole = dice.random((6, 7, 8)) < 0.5
        at = dice.integers(0, SHAPE, (40, 3))
        values, active = dice.random(40) < 0.5, dice.random(40) < 0.7
        box = tuple(slice(low + 2, low + 2 + side) for low, side in zip(LOW, whole.shape))
        inner = tuple(slice(2, 2 + side) for side in whole.shape)
        for write in (mask.__setitem__, mask.active.__setitem__):
            write(box, whole)
            states[inner] = whole
            self.check(mask, states)
            for one in (True, False):
                write((slice(0, 4), slice(5, 9), 4095), one)
                states[5:9, 2:6, 5] = one
                self.check(mask, states)
        mask.write_many(at + LOW, values, active)
        for place, one in zip(at, values & active):
            states[tuple(place)] = one
        self.check(mask, states)
        mask.write_box((0, 9, 4092), whole, ~whole[:, :, ::-1])
        states[5:11, 6:13, 2:10] = whole & ~whole[:, :, ::-1]
        self.check(mask, states)
        mask.fill(((0, 5, 4092), (3, 8, 4095)), True, False)
        states[5:9, 2:6, 2:6] = False
        mask[0, 5, 4092] = True
        mask.set_value((1, 5, 4092), True)
        mask.set_active((2, 5, 4092), True)
        mask.set_value((2, 5, 4092), False)
        states[5:7, 2, 2] = True
        self.check(mask, states)
        mask.clip(((0, 3, 4090), (9, 9, 4100)))
        self.check(mask, np.pad(states[5:15, :7, :11], ((5, 5), (0, 12), (0, 10))))
        for wrong in (1, 0.0, "x", [1, 0]):
            with self.assertRaises(vdb.DtypeError):
                mask[0:2, 3, 4090] = wrong

    def test_what_makes_a_mask(self):
        values, active = random_array(chance(5), "i32", 0, LOW, SHAPE)
        values[0, 0, :5], active[0, 0, :4] = (3, 3, -3, 5, 3), True
        for package in (vdb, scenefile):
            grid = package.Grid.from_array(values, active, LOW)
            for name in ("eq", "ne", "lt", "le", "gt", "ge"):
                for number in (3, np.int64(3), np.uint8(5), 2.5, True, 2**40, np.array(3)):
                    with self.subTest(package=package.__name__, name=name, number=number):
                        compare = getattr(operator, name)
                        mask, wanted = compare(grid, number), compare(values, number) & active
                        self.assertIs(type(mask), package.Mask)
                        self.assertEqual(mask, package.Grid.from_array(wanted, origin=LOW))
                        np.testing.assert_array_equal(compare(number, grid).to_array(BOX)[1], compare(number, values) & active)
            self.assertEqual(package.Mask(grid), package.Grid.from_array(active, origin=LOW))
            self.assertEqual(package.Mask.from_array(values, origin=LOW), package.Grid.from_array(values != 0, origin=LOW))
            self.assertEqual(package.Mask.from_array(values, active, LOW), package.Mask(grid))
            self.assertEqual(package.Mask.from_array(values, None, LOW, 3), package.Grid.from_array(values != 3, origin=LOW))
            self.assertEqual(package.Mask().count, 0)
        grid = vdb.Grid.from_array(values, active, LOW)
        self.check(grid.select(3), (values == 3) & active)
        self.check(vdb.View(grid) >= 0, (values >= 0) & active)
        self.assertEqual(grid.where(grid > 2), vdb.Grid.from_array(np.where((values > 2) & active, values, 0), (values > 2) & active, LOW))
        for kind in EXTREMES:
            for background in EXTREMES[kind]:
                self.assertEqual(vdb.Mask(vdb.Grid(kind, background)), vdb.Grid("bool"))

    def test_tiles_of_every_size(self):
        """Masks of both packages have the same bytes: of tiles and leaves in several root blocks, some of which become one tile."""
        lower = [(5, (2, 3)), (6, [(0, (2, 3)), (1, (1, 8)), (9, (2, 6))])]
        whole = [(at, (2, 3 + at % 2)) for at in range(4096)]
        roots = [((-1, 0, 0), (2, 6)), ((0, 0, -1), [(0, (2, 3)), (1, lower), (2, whole), (32767, (2, 6))])]
        data = encoding.save([encoding.Grid(b"a", 1, 0, 9, [], roots)])
        for test, wanted in (
            (lambda it: it == 6, 4096**3 + 128**3 + 1), (lambda it: it == 3, 128**3 * 3 // 2 + 513), (lambda it: it >= 3, 4096**3 + 3 * 128**3 + 514),
        ):  # fmt: skip
            one, other = (test(package.loads(data)["a"]) for package in (vdb, scenefile))
            self.assertEqual((one.count, other.count), (wanted, wanted))
            self.assertEqual(scenefile.Scene({"a": other}).to_bytes(), vdb.Scene({"a": one}).to_bytes())

    def test_copies(self):
        mask = vdb.Mask.from_array(some(1), origin=LOW, limit=9, metadata={"unit": "mm"})
        for other in (mask.copy(), copy.copy(mask), copy.deepcopy(mask), pickle.loads(pickle.dumps(mask)), vdb.Mask(mask), vdb.Mask(vdb.View(mask))):
            self.check(other, some(1))
            self.assertEqual((other.limit, dict(other.metadata)), (9, {"unit": "mm"}))
        self.assertEqual((vdb.Mask(mask, 5).limit, dict(vdb.Mask(mask, metadata={}).metadata)), (5, {}))
        self.assertIs(type(mask.relabel({True: False})), vdb.Grid)

    def test_truth_and_complement_without_an_image_are_errors(self):
        mask = vdb.Mask.from_array(some(1), origin=LOW)
        with self.assertRaisesRegex(vdb.RangeError, r"mask\.count"):
            bool(mask)
        with self.assertRaisesRegex(vdb.RangeError, r"mask\.complement\(bounds\)"):
            ~mask
        with self.assertRaisesRegex(vdb.DtypeError, r"vdb\.Mask\(grid\)"):
            ~vdb.Grid("bool")

    def test_complement_in_an_image(self):
        states = some(2)
        pairs = {"image_array": "uint8,{},{},{}".format(*SHAPE), "image_low": "{},{},{}".format(*LOW)}
        self.check(~vdb.Mask.from_array(states, origin=LOW, metadata=pairs), ~states)


class Values(unittest.TestCase):
    """What `dilate` does to the values of other grids."""

    def test_dilate_with_a_value(self):
        for seed in range(6):
            values, active = random_array(chance(seed), "i32", 5, LOW, SHAPE)
            values, active = (np.pad(it[4:-4, 4:-4, 4:-4], 4, constant_values=fill) for it, fill in ((values, 5), (active, False)))
            grid = vdb.Grid.from_array(values, active, LOW, 5)
            grid.dilate(2, value=-8)
            grown = ndimage.binary_dilation(active, CROSS, 2)
            np.testing.assert_array_equal(grid.to_array(BOX), (np.where(grown & ~active, -8, values), grown))
        with self.assertRaises(vdb.DtypeError):
            grid.dilate(1, value=2.5)

    def test_xor_of_integers(self):
        one, other = some(1), some(2)
        grid = vdb.Grid.from_array(np.where(one, 4, 0), one, LOW) ^ vdb.Grid.from_array(other, origin=LOW)
        np.testing.assert_array_equal(grid.to_array(BOX), (np.where(one, 4, 0), one ^ other))


if __name__ == "__main__":
    unittest.main()
