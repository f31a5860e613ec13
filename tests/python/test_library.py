# SPDX-License-Identifier: Apache-2.0
"""Grids and scenes of the engine, against brute force and against scenefile."""
import copy
import os
import pickle
import signal
import tempfile
import threading
import time
import unittest
from itertools import product
from pathlib import Path
from unittest import mock

from .support import DTYPES, EXTREMES, boxes, cell, chance, library_missing, np, random_array, scenefile, vdb

if library_missing():
    raise unittest.SkipTest(library_missing())

MOST = 2**31 - 1


def random_grid(dice, kind=None):
    """A random array with its states and its least corner, and the grid of it."""
    kind = kind or dice.choice(list(EXTREMES))
    background = dice.choice(EXTREMES[kind])
    low = tuple(dice.choice([0, -8, 3, -5, 124, 4090, -4100]) for _ in range(3))
    shape = tuple(dice.randint(1, 20) for _ in range(3))
    values, active = random_array(dice, kind, background, low, shape)
    return values, active, low, vdb.Grid.from_array(values, active, low, background)


def shifted(mask, axis, step):
    """The mask moved by one voxel along an axis."""
    moved = np.zeros_like(mask)
    source, target = [slice(None)] * 3, [slice(None)] * 3
    source[axis], target[axis] = (slice(None, -1), slice(1, None)) if step > 0 else (slice(1, None), slice(None, -1))
    moved[tuple(target)] = mask[tuple(source)]
    return moved


def dilated(mask):
    return np.logical_or.reduce([mask, *(shifted(mask, axis, step) for axis in range(3) for step in (-1, 1))])


def unaligned(array):
    """The same array, whose elements lie at odd addresses."""
    raw = np.zeros(array.nbytes + 1, np.uint8)
    raw[1:] = np.ascontiguousarray(array).view(np.uint8).ravel()
    return raw[1:].view(array.dtype).reshape(array.shape)


class Arrays(unittest.TestCase):
    def test_random(self):
        for seed in range(60):
            with self.subTest(seed=seed):
                dice = chance(seed)
                values, active, low, grid = random_grid(dice)
                high = tuple(at + side - 1 for at, side in zip(low, values.shape))
                found, states = grid.to_array((low, high))
                self.assertEqual((found.dtype, states.dtype), (values.dtype, np.dtype(np.bool_)))
                np.testing.assert_array_equal(found, values)
                np.testing.assert_array_equal(states, active)
                self.assertEqual((grid.bounds, grid.count), (boxes(values, active, low)[0], int(active.sum())))
                wider = tuple(tuple(a + step for a in corner) for corner, step in ((low, -9), (high, 9)))
                found, states = grid.to_array(wider, fill=EXTREMES[grid.kind][1])
                inner = tuple(slice(9, -9) for _ in range(3))
                np.testing.assert_array_equal(found[inner][active], values[active])
                self.assertTrue((found[~states] == EXTREMES[grid.kind][1]).all())
                self.assertEqual(int(states.sum()), grid.count)

    def test_bricks(self):
        """Arrays that cross in several slabs and bricks, which end between leaves."""
        with mock.patch("vdb.arrays.SLAB", 700), mock.patch("vdb.arrays.BRICK", 700):
            self.test_random()

    def test_masks(self):
        """Masks with whole leaf extents, which are filled, and such that a voxel or the border of the array cuts."""
        for low, background in product(((0, 0, 0), (-8, 16, 120), (-5, 3, 4090)), (False, True)):
            with self.subTest(low=low, background=background):
                mask = np.full((29, 24, 40), not background)
                mask[9, 10, 11] = mask[:, :8, 30:] = background
                grid, other = vdb.Grid.from_array(mask, None, low, background), vdb.Grid.from_array(mask, mask != background, low, background)
                found, states = grid.to_array((low, tuple(at + side - 1 for at, side in zip(low, mask.shape))))
                np.testing.assert_array_equal(found, mask)
                np.testing.assert_array_equal(states, mask != background)
                self.assertEqual(grid, other)
                self.assertEqual(grid.leaf_count, other.leaf_count)

    def test_orders(self):
        """Arrays in rows, in columns, in steps, backwards, of one value, unaligned, and of either byte order, for values and for states."""
        dice = np.random.default_rng(3)
        forms = [
            np.ascontiguousarray, np.asfortranarray, unaligned, lambda it: np.ascontiguousarray(it[::-1, :, ::-1])[::-1, :, ::-1],
            lambda it: np.repeat(it, 2, axis=1)[:, ::2], lambda it: it.transpose(2, 0, 1).copy().transpose(1, 2, 0),
            lambda it: np.broadcast_to(it[:1], it.shape), lambda it: it.astype(it.dtype.newbyteorder(">")),
        ]  # fmt: skip
        for dtype, (one, other) in product((np.bool_, np.int16, np.int32, np.int64), product(forms, forms)):
            values, active = one(dice.integers(0, 2, (20, 17, 18)).astype(dtype)), other(dice.random((20, 17, 18)) < 0.5)
            for states in (active, None):
                grid = vdb.Grid.from_array(values, states, (-3, 5, 120))
                found, on = grid.to_array(((-3, 5, 120), (16, 21, 137)))
                np.testing.assert_array_equal(found, values)
                np.testing.assert_array_equal(on, values != 0 if states is None else active)
                self.assertEqual(grid.tree_leaf_count, grid.leaf_count)

    def test_equal(self):
        """Grids are equal by their cells, whatever their trees are; another value, state, background or type makes them differ."""
        box = (-9, 0, 4000), (30, 40, 4200)
        grid = vdb.Grid("i32", 3)
        grid.fill(box, 7)
        other = grid.copy()
        self.assertEqual(grid, other)
        other.voxelise(box)
        self.assertEqual(grid, other)
        self.assertEqual(other, grid)
        for at in (box[0], box[1], (0, 0, 4096), (100, 100, 100), (MOST, -MOST - 1, 0)):
            changed = other.copy()
            changed[at] = 8
            self.assertNotEqual(changed, grid)
            self.assertNotEqual(grid, changed)
            changed = other.copy()
            changed.active[at] = not changed.active[at]
            self.assertNotEqual(changed, grid)
        self.assertNotEqual(vdb.Grid("i32", 3), vdb.Grid("i32", 4))
        self.assertNotEqual(vdb.Grid("i32"), vdb.Grid("i64"))
        self.assertEqual(vdb.Grid("i32", limit=5), vdb.Grid("i32"))
        whole = vdb.Grid("i64", 5)
        whole.fill(((0, 0, 0), (8191, 8191, 8191)), 5, False)
        self.assertEqual(whole, vdb.Grid("i64", 5))

    def test_equal_as_arrays(self):
        """Grids of arrays are equal if the values and the states of all voxels are, however their trees are cut."""
        for seed in range(90):
            with self.subTest(seed=seed):
                dice = chance(seed)
                values, active, low, grid = random_grid(dice)
                other_values, other_active = values.copy(), active.copy()
                at = tuple(dice.randrange(side) for side in values.shape)
                if seed % 3 == 1:
                    other_values[at] = dice.choice(EXTREMES[grid.kind])
                elif seed % 3 == 2:
                    other_active[at] = not active[at]
                other = vdb.Grid.from_array(other_values, other_active, low, grid.background)
                high = tuple(least + side for least, side in zip(low, values.shape))
                dice.choice([other.prune, lambda: other.voxelise((low, high)), lambda: None])()
                same = np.array_equal(values, other_values) and np.array_equal(active, other_active)
                self.assertEqual((grid == other, other == grid, grid != other), (same, same, not same))

    def test_equal_beyond_a_file(self):
        """Grids whose file would have more than 268,435,456 bytes are compared as others are."""
        grid = vdb.Grid("bool")
        for x in (0, 8, 16, 24):
            grid.fill(((x, 0, 0), (x, 4095, 4095)), True)
        self.assertRaises(vdb.SceneTooLongError, vdb.Scene({"a": grid}).to_bytes)
        other = grid.copy()
        self.assertEqual(grid, other)
        other.active[24, 4095, 4095] = False
        self.assertNotEqual(grid, other)

    def test_empty(self):
        for shape in ((0, 0, 0), (0, 5, 5), (5, 0, 5)):
            self.assertEqual(vdb.Grid.from_array(np.zeros(shape, np.int64)).count, 0)
        values, active = vdb.Grid("bool").to_array()
        self.assertEqual((values.shape, active.shape, values.dtype), ((0, 0, 0), (0, 0, 0), np.bool_))

    def test_types_are_checked(self):
        for dtype in (np.float32, np.uint64, "U1"):
            with self.assertRaises(TypeError):
                vdb.Grid.from_array(np.zeros((1, 1, 1), dtype))
        cube = np.zeros((2, 2, 2), np.int32)
        for wrong in (np.zeros((2, 2), np.int32), np.zeros((2, 2, 2, 1), np.int32)):
            with self.assertRaises(ValueError):
                vdb.Grid.from_array(wrong)
        with self.assertRaises(ValueError):
            vdb.Grid.from_array(cube, np.zeros((2, 2, 1), np.bool_))
        with self.assertRaises(TypeError):
            vdb.Grid.from_array(cube, cube)
        with self.assertRaises(ValueError):
            vdb.Grid.from_array(cube, origin=(0, 0, MOST))
        with self.assertRaisesRegex(vdb.RootLimitError, "more root blocks than its root limit"):
            vdb.Grid.from_array(cube + 1, origin=(-1, 0, 0), limit=1)
        with self.assertRaises(vdb.ArrayTooLargeError):
            vdb.Grid("i64").to_array(((0, 0, 0), (4095, 4095, 4095)))


class Many(unittest.TestCase):
    def test_random(self):
        for seed in range(30):
            with self.subTest(seed=seed):
                dice = chance(seed)
                kind = dice.choice(list(EXTREMES))
                grid, cells = vdb.Grid(kind, EXTREMES[kind][0]), {}
                for _ in range(3):
                    places = [[dice.choice([-9, 0, 1, 7, 8, 4096, MOST]) for _ in range(3)] for _ in range(dice.randint(0, 40))]
                    at = np.array(places, np.int64).reshape(-1, 3)
                    values = np.array([dice.choice(EXTREMES[kind]) for _ in at], DTYPES[kind])
                    active = np.array([dice.random() < 0.5 for _ in at], np.bool_)
                    grid.write_many(at, values, active)
                    cells.update({tuple(key): (value, on) for key, value, on in zip(at.tolist(), values.tolist(), active.tolist())})
                keys = list(cells) + [(5, 5, 5)]
                values, active = grid.get_many(np.array(keys))
                self.assertEqual(values.dtype, DTYPES[kind])
                self.assertEqual(list(zip(values.tolist(), active.tolist())), [*cells.values(), (EXTREMES[kind][0], False)])
                self.assertEqual(grid.count, sum(on for _, on in cells.values()))

    def test_unaligned(self):
        at, values = unaligned(np.array([[0, 0, 0], [5, -6, 4100]], np.int32)), unaligned(np.array([7, -(2**40)]))
        grid = vdb.Grid("i64")
        grid.write_many(at, values)
        np.testing.assert_array_equal(grid.get_many(at)[0], values)
        grid.write_box((0, 0, 0), unaligned(np.arange(1000).reshape(10, 10, 10)))
        np.testing.assert_array_equal(grid.to_array(((0, 0, 0), (9, 9, 9)))[0].ravel(), np.arange(1000))

    def test_one_value_for_all(self):
        grid = vdb.Grid("i32", 4)
        grid.write_many(np.array([[0, 0, 0], [1, 2, 3]]), 7, False)
        self.assertEqual((cell(grid, (0, 0, 0)), cell(grid, (1, 2, 3)), cell(grid, (0, 0, 1))), ((7, False), (7, False), (4, False)))

    def test_errors(self):
        grid = vdb.Grid("i32", limit=1)
        for at, error in (([[0, 0]], ValueError), ([0, 0, 0], ValueError), ([[0.0, 0, 0]], TypeError), ([[0, 0, MOST + 1]], ValueError)):
            with self.subTest(at=at), self.assertRaises(error):
                grid.write_many(np.array(at), 1)
        with self.assertRaises(vdb.RangeError):
            grid.write_many(np.array([[0, 0, 0], [0, 0, 1]]), np.array([1, MOST + 1]))
        self.assertEqual(grid.count, 0)
        with self.assertRaises(vdb.RootLimitError):
            grid.write_many(np.array([[0, 0, 0], [0, 0, 4096], [0, 0, 1]]), 1)
        self.assertEqual((grid.count, cell(grid, (0, 0, 0))), (1, (1, True)))


class Boxes(unittest.TestCase):
    def test_write_box(self):
        dice = np.random.default_rng(3)
        for kind, dtype in DTYPES.items():
            values = dice.integers(0, 2, (9, 5, 17)).astype(dtype)
            active = dice.integers(0, 2, values.shape).astype(np.bool_)
            for states in (active, True, False):
                with self.subTest(kind=kind, states=type(states)):
                    grid = vdb.Grid(kind)
                    grid.write_box((-4, 3, -9), values[:, ::-1], states)
                    read, on = grid.to_array(((-4, 3, -9), (4, 7, 7)))
                    np.testing.assert_array_equal(read, values[:, ::-1])
                    np.testing.assert_array_equal(on, np.broadcast_to(states, values.shape))

    def test_errors(self):
        grid = vdb.Grid("i32")
        with self.assertRaises(vdb.RangeError):
            grid.write_box((0, 0, 0), np.array([[[1, MOST + 1]]]))
        with self.assertRaises(ValueError):
            grid.write_box((MOST, 0, 0), np.zeros((2, 1, 1), np.int32))
        with self.assertRaises(ValueError):
            grid.write_box((0, 0, 0), np.zeros((2, 1, 1), np.int32), np.zeros((1, 1, 1), np.bool_))
        self.assertEqual(grid.count, 0)

    def test_leaves(self):
        grid = vdb.Grid("i32", 5)
        self.assertEqual((grid.leaf_count, list(grid.leaves())), (0, []))
        for number in range(600):
            grid.write_many([[number * 8 - 2400, -3, 2**31 - 1]], number + 6, number % 3 == 0)
        self.assertEqual(grid.leaf_count, 600)
        for number, (at, values, states) in enumerate(sorted(grid.leaves(), key=lambda leaf: leaf[0])):
            self.assertEqual((at, values.shape, values.dtype), ((number * 8 - 2400, -8, 2**31 - 8), (8, 8, 8), np.int32))
            self.assertEqual((values[0, 5, 7], states[0, 5, 7], values.sum()), (number + 6, number % 3 == 0, 511 * 5 + number + 6))
            self.assertEqual(states.sum(), number % 3 == 0)


class Calls(unittest.TestCase):
    def test_voxels(self):
        grid = vdb.Grid("i32", -1, limit=3)
        self.assertEqual((grid.kind, grid.background, grid.limit, cell(grid, (1, 2, 3))), ("i32", -1, 3, (-1, False)))
        grid[1, 2, 3] = 5
        grid.write_many([[1, 2, 4]], 6, False)
        grid.set_active((1, 2, 5), True)
        grid.set_value((1, 2, 3), np.int32(7))
        self.assertEqual([cell(grid, (1, 2, z)) for z in (3, 4, 5)], [(7, True), (6, False), (-1, True)])
        self.assertEqual(list(grid.voxels()), [((1, 2, 3), 7), ((1, 2, 5), -1)])
        self.assertEqual(list(grid.voxels(((1, 2, 4), (1, 2, 9)))), [((1, 2, 5), -1)])
        flags = vdb.Grid("bool")
        flags[0, 0, -1] = True
        self.assertEqual((cell(flags, (0, 0, -1)), flags.count), ((True, True), 1))

    def test_boxes(self):
        grid = vdb.Grid("i64")
        grid.fill(((0, 0, 0), (9, 9, 9)), 2**40)
        self.assertEqual((grid.count, grid.count_in(((0, 0, 0), (0, 9, 4))), grid.bounds), (1000, 50, ((0, 0, 0), (9, 9, 9))))
        grid.voxelise(((0, 0, 0), (9, 9, 9)))
        self.assertEqual(grid.census(), (1, 1, 1, 7))
        grid.prune()
        grid.clip(((0, 0, 0), (9, 9, 0)))
        self.assertEqual(grid.count, 100)
        grid.fill(((0, 0, 0), (4095, 4095, 4095)), -1)
        self.assertEqual((grid.count, grid.census()), (2**36, (1, 0, 0, 0)))

    def test_dilate_and_erode(self):
        for seed in range(20):
            with self.subTest(seed=seed):
                dice = chance(seed)
                values, active, low, grid = random_grid(dice)
                times = dice.randint(1, 3)
                wider = np.pad(active, 4)
                box = tuple(tuple(a + step for a in corner) for corner, step in ((low, -4), ([a + b - 1 for a, b in zip(low, active.shape)], 4)))
                grown, shrunk = wider, wider
                for _ in range(times):
                    grown, shrunk = dilated(grown), ~dilated(~shrunk)
                other = grid.copy()
                grid.dilate(times)
                other.erode(times)
                np.testing.assert_array_equal(grid.to_array(box)[1], grown)
                np.testing.assert_array_equal(other.to_array(box)[1], shrunk)

    def test_iterations_are_reported_and_an_interrupted_one_changes_nothing(self):
        grid, seen = vdb.Grid("i32"), []
        grid.fill(((0, 0, 0), (9, 9, 9)), 5)
        grid.dilate(3, lambda *reported: seen.append(reported))
        self.assertEqual((seen, grid.bounds), ([(1, 3), (2, 3), (3, 3)], ((-3, -3, -3), (12, 12, 12))))
        whole = grid.copy()
        with self.assertRaises(KeyboardInterrupt):
            grid.erode(5, lambda done, _all: signal.raise_signal(signal.SIGINT) if done == 2 else None)
        self.assertEqual(grid, whole)
        grid.erode(3)
        self.assertEqual(grid.count, 1000)

    def test_two_grids(self):
        for seed in range(20):
            with self.subTest(seed=seed):
                dice = chance(seed)
                first, second = (random_array(dice, "i32", 0, (0, 0, 0), (17, 9, 12)) for _ in range(2))
                (a, on), (b, also) = [(np.clip(values, -1000, 1000), active) for values, active in (first, second)]
                one, two = vdb.Grid.from_array(a, on), vdb.Grid.from_array(b, also)
                box = (0, 0, 0), (16, 8, 11)
                for made, wanted in ((one | two, on | also), (one & two, on & also), (one - two, on & ~also)):
                    np.testing.assert_array_equal(made.to_array(box)[1], wanted)
                    np.testing.assert_array_equal(made.to_array(box)[0], a)
                for name, values in (("maximum", np.maximum(a, b)), ("minimum", np.minimum(a, b)), ("sum", a + b)):
                    made = one.copy()
                    getattr(made, name)(two)
                    np.testing.assert_array_equal(made.to_array(box), (values, on | also))
                made = one.copy()
                made.replace(two)
                np.testing.assert_array_equal(made.to_array(box), (np.where(also, b, a), on | also))
                np.testing.assert_array_equal(one.to_array(box), (a, on))

    def test_one_grid_twice(self):
        values, active, low, grid = random_grid(chance(3), "i64")
        before = grid.to_array()
        for call in (grid.unite, grid.intersect, grid.maximum, grid.minimum, grid.replace):
            call(grid)
        grid |= grid
        grid &= grid
        for found, wanted in zip(grid.to_array(), before):
            np.testing.assert_array_equal(found, wanted)
        self.assertEqual(((grid - grid).count, (grid | grid).count, (grid & grid).count), (0, grid.count, grid.count))
        small = vdb.Grid("i32")
        small[0, 0, 0] = 4
        small.sum(small)
        self.assertEqual(cell(small, (0, 0, 0)), (8, True))
        small -= small
        self.assertEqual(cell(small, (0, 0, 0)), (8, False))

    def test_copies_are_independent(self):
        grid = vdb.Grid("i32", metadata={"unit": "mm"})
        for other in (grid.copy(), copy.copy(grid), copy.deepcopy(grid)):
            other[0, 0, 0] = 5
            other.metadata["unit"] = "cm"
            self.assertEqual((cell(grid, (0, 0, 0)), grid.metadata["unit"], cell(other, (0, 0, 0))), ((0, False), "mm", (5, True)))

    def test_arrays_in_place_of_grids(self):
        array, measured = np.ones((2, 2, 2), int), vdb.labels
        for call in (
            measured.measure, measured.components, measured.fill_holes, measured.open, measured.close, vdb.Mask, vdb.scenefile.Mask,
            lambda array: measured.margin(array, 3), lambda array: vdb.formats.save("never.npy", array),
        ):  # fmt: skip
            with self.assertRaisesRegex(vdb.DtypeError, r"a grid is wanted, not ndarray: make one by Grid\.from_array first"):
                call(array)
        for distance in ("3", None, [3]):
            with self.assertRaisesRegex(vdb.DtypeError, "the distance is a number, of millimetres if the spacing is, not"):
                measured.margin(vdb.Grid.from_array(array), distance)

    def test_errors_name_the_reason_and_change_nothing(self):
        grid = vdb.Grid("i32", limit=1)
        grid[0, 0, 0] = MOST
        box, flags = ((0, 0, 0), (1, 1, 1)), vdb.Grid("bool")
        for error, text, call in (
            (ValueError, "the value 2147483648 is outside i32", lambda: grid.fill(box, MOST + 1)),
            (TypeError, "the value of an i32 grid is an integer", lambda: grid.fill(box, 1.5)),
            (TypeError, "the value of an i32 grid is an integer", lambda: grid.fill(box, True)),
            (ValueError, "greater than the maximum", lambda: grid.fill(box[::-1], 1)),
            (ValueError, "outside 32 bits", lambda: grid[0, 0, MOST + 1]),
            (ValueError, "outside 32 bits", lambda: grid.fill((box[0], (0, 0, MOST + 1)), 1)),
            (TypeError, "three integers", lambda: grid[0, 0]),
            (vdb.DtypeError, r"not Mask: where\(mask\) reads .* replace\(vdb.Grid\(grid.kind, background=6\) \| mask\) makes them 6", lambda: grid[grid == 3]),
            (vdb.DtypeError, r"not ndarray: where\(mask\) reads", lambda: grid.__setitem__(np.ones((2, 2, 2), bool), 9)),
            (vdb.RangeError, r"not ndarray: Grid\.from_array makes", lambda: vdb.Grid(np.ones((2, 2, 2), np.uint8))),
            (vdb.RangeError, r"not list: Grid\.from_array makes", lambda: vdb.Grid([[[3]]])),
            (ValueError, "1 to 16, not 17", lambda: grid.dilate(17)),
            (ValueError, "1 to 16, not 0", lambda: grid.erode(0)),
            (TypeError, "not float", lambda: grid.unite(1.5)),
            (ValueError, "'bool', 'i32' or 'i64'", lambda: vdb.Grid("f32")),
            (ValueError, "from 1 to 65,536", lambda: vdb.Grid("i32", limit=0)),
            (vdb.RootLimitError, "more root blocks than its root limit", lambda: grid.fill(((0, 0, 0), (0, 0, 4096)), 1)),
            (vdb.RootLimitError, "more root blocks than its root limit", lambda: grid.dilate(1)),
            (vdb.SumRangeError, "a sum is outside the type", lambda: grid.sum(grid)),
            (vdb.KindsError, "different types", lambda: grid.maximum(flags)),
            (vdb.KindsError, "booleans have no sum", lambda: flags.sum(vdb.Grid("bool"))),
        ):
            with self.subTest(text), self.assertRaisesRegex(error, text):
                call()
            self.assertEqual((grid.count, cell(grid, (0, 0, 0))), (1, (MOST, True)))


class Scenes(unittest.TestCase):
    def test_ctrl_c_ends_a_load_a_save_and_a_comparison_at_once(self):
        grid = vdb.Grid.from_array(np.random.default_rng(1).integers(1, 2**40, (144, 144, 144)))
        scene = vdb.Scene({"a": grid, "b": grid.copy()})
        data, whole = scene.to_bytes(), grid.copy()
        for call in (scene.to_bytes, lambda: vdb.loads(data), lambda: scene["a"] == scene["b"], lambda: pickle.dumps(grid)):
            ended = []
            with self.assertRaises(KeyboardInterrupt):
                threading.Timer(0.005, os.kill, [os.getpid(), signal.SIGINT]).start()
                call()
                ended.append("before the signal")
                time.sleep(60)
            self.assertEqual(ended, [])
            self.assertEqual(grid, whole)

    def test_a_grid_under_two_names_is_saved_under_both(self):
        grid = vdb.Grid("i32")
        grid[1, 2, 3] = 5
        scene = vdb.loads(vdb.Scene({"a": grid, "b": grid}).to_bytes())
        self.assertEqual((scene["a"], scene["b"]), (grid, grid))

    def test_the_files_are_those_of_scenefile(self):
        for seed in range(20):
            with self.subTest(seed=seed):
                dice = chance(seed)
                scene, other = vdb.Scene(), scenefile.Scene()
                for name in ("organ", "a_1"):
                    values, active, low, grid = random_grid(dice)
                    grid.metadata = {"unit": "mm", "by": name}
                    scene[name] = grid
                    other[name] = scenefile.Grid.from_array(values, active, low, grid.background, grid.limit, grid.metadata)
                encoding = other.to_bytes()
                self.assertEqual(scene.to_bytes(), encoding)
                loaded = vdb.loads(encoding)
                self.assertEqual((loaded.to_bytes(), list(loaded)), (encoding, ["a_1", "organ"]))
                self.assertEqual(dict(loaded["organ"].metadata), {"unit": "mm", "by": "organ"})

    def test_the_first_fault_is_that_of_scenefile(self):
        values = np.zeros((3, 3, 3), np.int32)
        values[1, 1] = 5
        encoding = scenefile.Scene({"a": scenefile.Grid.from_array(values, metadata={"unit": "mm"})}).to_bytes()
        files = [encoding[:at] for at in range(len(encoding))] + [encoding + b"\0"]
        files += [encoding[:at] + bytes([255 - encoding[at]]) + encoding[at + 1 :] for at in range(len(encoding))]
        for data in files:
            try:
                wanted = scenefile.loads(data).to_bytes()
            except vdb.FormatError as fault:
                wanted = fault.fault
            try:
                found = vdb.loads(data).to_bytes()
            except vdb.FormatError as fault:
                found = fault.fault
            self.assertEqual(found, wanted, data)

    def test_save_and_load(self):
        scene = vdb.Scene({"a": vdb.Grid.from_array(np.ones((3, 3, 3), np.bool_))})
        with tempfile.TemporaryDirectory() as folder:
            path = Path(folder) / "scene.vdbs"
            scene.save(path)
            self.assertEqual(path.read_bytes(), scene.to_bytes())
            self.assertEqual((vdb.load(path)["a"].count, os.listdir(folder)), (27, ["scene.vdbs"]))
            path.write_bytes(b"VDBS")
            with self.assertRaisesRegex(vdb.FormatError, f"{path}: truncated: the file ends") as caught:
                vdb.load(path)
            self.assertEqual((caught.exception.fault, caught.exception.path), ("truncated", str(path)))
            for missing in (lambda: vdb.load(f"{folder}/none"), lambda: scene.save(f"{folder}/none/scene.vdbs")):
                with self.assertRaisesRegex(FileNotFoundError, f"{folder}/none"):
                    missing()

    def test_mapping(self):
        scene = vdb.Scene({"b": vdb.Grid("i32"), "a": vdb.Grid("bool")})
        self.assertEqual((list(scene), len(scene), "a" in scene), (["a", "b"], 2, True))
        del scene["a"]
        self.assertEqual(list(vdb.loads(scene.to_bytes())), ["b"])
        for name, grid in (("A", vdb.Grid("i32")), ("a" * 17, vdb.Grid("i32")), ("a", scenefile.Grid("i32"))):
            with self.assertRaises((TypeError, ValueError)):
                scene[name] = grid
        with self.assertRaises(KeyError):
            scene["a"]
        scene["b"][0, 0, 0] = 5
        self.assertEqual(cell(vdb.loads(scene.to_bytes())["b"], (0, 0, 0)), (5, True))
