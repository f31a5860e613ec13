# SPDX-License-Identifier: Apache-2.0
"""NumPy's manners of grids, with NumPy itself as the oracle: those of the engine and those of scene files."""
import copy
import gc
import inspect
import itertools
import pickle
import re
import threading
import time
import unittest
import zlib
from collections.abc import Iterator
from unittest import mock

from .support import DTYPES, EXTREMES, chance, encoding, library_missing, np, random_array, scenefile, vdb

MOST = 2**31 - 1
PACKAGES = [scenefile] if library_missing() else [scenefile, vdb]
needs_library = unittest.skipIf(library_missing(), library_missing())
LOW, SHAPE = (-5, 3, 4090), (12, 9, 11)


def sample(seed=1, kind="i32", background=0):
    """Random values and states of a box that begins at LOW."""
    return random_array(chance(seed), kind, background, LOW, SHAPE)


class Slices(unittest.TestCase):
    def cases(self):
        """Grids of both packages, each with dense arrays that reach 4 voxels past its box."""
        for package in PACKAGES:
            for seed, kind in enumerate(DTYPES):
                background = EXTREMES[kind][1]
                values, active = sample(seed + 7, kind, background)
                active[0, 0, 0] = active[-1, -1, -1] = True
                grid = package.Grid.from_array(values, active, LOW, background)
                with self.subTest(package=package.__name__, kind=kind):
                    yield grid, np.pad(values, 4, constant_values=background), np.pad(active, 4)

    def test_random_indices(self):
        for grid, values, active in self.cases():
            dice, origin = chance(3), [at - 4 for at in LOW]
            for _ in range(100):
                key, wanted = [], []
                for first, side in zip(origin, values.shape):
                    a, b = dice.randint(0, side), dice.randint(0, side)
                    inner = dice.random() < 0.3
                    key.append(first + min(a, side - 1) if inner else slice(np.int64(first + a), first + b))
                    wanted.append(min(a, side - 1) if inner else slice(a, b))
                for found, oracle in ((grid[tuple(key)], values[tuple(wanted)]), (grid.active[tuple(key)], active[tuple(wanted)])):
                    np.testing.assert_array_equal(found, oracle)
                    self.assertEqual(np.shape(found), oracle.shape)
                    self.assertEqual(np.asarray(found).dtype.kind, oracle.dtype.kind)
            self.assertEqual(type(grid[LOW]), bool if grid.kind == "bool" else int)
            self.assertIs(type(grid.active[LOW]), bool)

    def test_open_ends_go_to_the_bounding_box(self):
        for grid, values, active in self.cases():
            inner = values[4:-4, 4:-4, 4:-4]
            np.testing.assert_array_equal(grid[...], inner)
            np.testing.assert_array_equal(grid[:, :, :], inner)
            np.testing.assert_array_equal(grid[-3, ...], inner[2])
            np.testing.assert_array_equal(grid[..., 4095:], inner[:, :, 5:])
            np.testing.assert_array_equal(grid.active[:0, 5, :], active[4:-4, 4:-4, 4:-4][:5, 2])
            np.testing.assert_array_equal(np.asarray(grid), inner)
            np.testing.assert_array_equal(np.asarray(grid.active), active[4:-4, 4:-4, 4:-4])
            self.assertEqual(np.array(grid, np.float64).dtype, np.float64)
        for package in PACKAGES:
            empty = package.Grid(np.int32)
            self.assertEqual((empty[...].shape, empty[1, :, 2:4].shape, np.asarray(empty).dtype), ((0, 0, 0), (0, 2), np.int32))

    def test_the_ends_of_the_coordinates(self):
        for package in PACKAGES:
            grid = package.Grid.from_array(np.full((2, 1, 1), 7), origin=(MOST - 1, -MOST - 1, 0))
            self.assertEqual(grid[MOST - 2 : MOST + 1, -MOST - 1, 0].tolist(), [0, 7, 7])
            self.assertEqual(grid[MOST + 1 :, 0:1, 0].shape, (0, 1))
            with self.assertRaises(vdb.ArrayTooLargeError):
                grid[-MOST - 1 : MOST + 1, 0:10, 0:10]

    def test_wrong_indices(self):
        for package in PACKAGES:
            grid = package.Grid.from_array(np.ones((2, 2, 2), np.int32))
            for key, error in (
                ((0, 0), TypeError), (0, TypeError), ((0, 0, 0, 0), TypeError), ((0, 0, 0.5), TypeError), ((0, 0, True), TypeError),
                ((..., ..., 0), TypeError), ((0, 0, None), TypeError), ((0, 0, slice(0, 1.0)), TypeError), ((0, 0, slice(0, 4, 2)), ValueError),
                ((0, 0, MOST + 1), ValueError), ((0, 0, slice(0, MOST + 2)), ValueError), ((-MOST - 2, 0, 0), ValueError),
            ):  # fmt: skip
                for read in (grid, grid.active):
                    with self.subTest(key=key), self.assertRaises(error) as caught:
                        read[key]
                    self.assertIsInstance(caught.exception, vdb.VdbError)
            with self.assertRaises(TypeError):
                iter(grid)


class Dense(unittest.TestCase):
    def test_out(self):
        values, active = sample()
        box = LOW, tuple(at + side - 1 for at, side in zip(LOW, SHAPE))
        for package in PACKAGES:
            grid = package.Grid.from_array(values, active, LOW)
            wide, states = np.zeros((12, 9, 22), np.int64), np.zeros(SHAPE, np.bool_, order="F")
            found = grid.to_array(box, out=(wide[:, :, ::2], states))
            self.assertIs(found[1], states)
            np.testing.assert_array_equal(wide[:, :, ::2], values)
            np.testing.assert_array_equal(states, active)
            self.assertFalse(wide[:, :, 1::2].any())
            for form in (np.int32, np.int64, np.float64):
                made = np.empty(SHAPE, form)
                self.assertIs(grid.to_array(box, fill=3, out=made, max_bytes=made.size)[0], made)
                np.testing.assert_array_equal(made, np.where(active, values, 3))
            fixed = np.zeros(SHAPE, np.int32)
            fixed.flags.writeable = False
            for wrong, error in ((made[1:], ValueError), (made.tolist(), TypeError), ((None, made), TypeError), (fixed, ValueError)):
                with self.assertRaises(error):
                    grid.to_array(box, out=wrong)
            self.assertFalse(fixed.any())

    def test_orders_and_strides(self):
        """Arrays of each dtype in every order of the axes, backwards, with gaps, with one voxel along axes, with voxels that share an
        element, unaligned, and in the other byte order: to a grid and back into an array of the same form."""

        def forms(values):
            for order in itertools.permutations(range(3)):
                yield values.transpose(order).copy().transpose(np.argsort(order))
            yield from (values[::-1], values[:, :, ::-1], np.repeat(values, 2, axis=1)[:, ::2], values[3:4, :, 2:3], values[:, 5:6])
            yield np.broadcast_to(values[:, :1], values.shape)
            yield np.frombuffer(b"-" + values.tobytes(), values.dtype, offset=1).reshape(values.shape)

        for dtype in "?", "b", "B", "h", "H", "i", "I", "q", ">i2", ">i4", ">i8":
            for values in forms(sample(5)[0].astype(dtype)):
                box, states = (LOW, tuple(at + side - 1 for at, side in zip(LOW, values.shape))), values != 0
                for package in PACKAGES:
                    grid = package.Grid.from_array(values, origin=LOW)
                    np.testing.assert_array_equal(grid.to_array(box), (values, states))
                    self.assertEqual(grid.count, np.count_nonzero(values))
                    out = np.copy(values, order="K"), np.copy(states, order="F")
                    out[0].fill(1), out[1].fill(False)
                    grid.to_array(box, out=out)
                    np.testing.assert_array_equal(out[0], values)
                    np.testing.assert_array_equal(out[1], states)

    def test_dtype(self):
        values = np.arange(-3, 124, dtype=np.int32).reshape(1, 1, -1)
        for package in PACKAGES:
            grid = package.Grid.from_array(values, values > -9)
            self.assertEqual(grid.to_array(dtype=np.int8)[0].tolist(), values.tolist())
            with self.assertRaisesRegex(vdb.RangeError, "the value -3 is outside uint8"):
                grid.to_array(dtype=np.uint8)
            with self.assertRaisesRegex(vdb.RangeError, "-3 is outside uint64"):
                np.asarray(grid, np.uint64)
            for wrong in (np.float32, np.bool_, "U1", "none", 5.0):
                with self.assertRaises(vdb.DtypeError):
                    grid.to_array(dtype=wrong)
            mask = package.Grid.from_array(values == 0)
            self.assertEqual(mask.to_array(dtype=np.uint8)[0].tolist(), [[[1]]])

    def test_kinds_by_dtype(self):
        for package in PACKAGES:
            for form, kind in (
                (np.int32, "i32"), ("int64", "i64"), (bool, "bool"), (np.uint8, "i32"), (np.uint32, "i64"), (np.dtype(">i2"), "i32"), (int, "i64"),
            ):  # fmt: skip
                self.assertEqual(package.Grid(form).kind, kind)
            for form in (np.uint64, np.float32, float, None, "f32", object, 5):
                with self.assertRaisesRegex(ValueError, "'bool', 'i32' or 'i64'"):
                    package.Grid(form)
            with self.assertRaisesRegex(TypeError, "18446744073709551615.*astype"):
                package.Grid.from_array(np.full((1, 1, 1), 2**64 - 1, np.uint64))


class Coordinates(unittest.TestCase):
    def test_random(self):
        for seed in range(20):
            values, active = sample(seed)
            for package in PACKAGES:
                grid = package.Grid.from_array(values, active, LOW)
                parts = list(grid.active_coordinates(rows=50))
                self.assertTrue(all(part.dtype == np.int32 and part.shape[1:] == (3,) and 0 < len(part) <= 50 for part in parts))
                found = sorted(map(tuple, np.concatenate([np.zeros((0, 3), int), *parts]).tolist()))
                self.assertEqual(found, sorted(map(tuple, (np.argwhere(active) + LOW).tolist())))

    def test_tiles(self):
        """Tiles of each size beside leaves, in two root blocks."""
        for package in PACKAGES:
            values = np.zeros((140, 128, 136), np.int32)
            values[:128, :, :128], values[128:136, 8:24, 0:8], values[139, 0, 0] = 5, 6, 7
            grid = package.Grid.from_array(values, origin=(-128, 0, 256))
            self.assertEqual(grid.leaf_count, 1)
            found = np.concatenate(list(grid.active_coordinates())) - (-128, 0, 256)
            self.assertEqual((len(found), len(np.unique(found, axis=0))), (grid.count, grid.count))
            self.assertTrue((values[tuple(found.T)] > 0).all())

    def test_a_root_tile_is_expanded_part_by_part(self):
        data = encoding.save([encoding.Grid(b"a", 0, 0, 9, [], [((-1, 0, 0), (2, 1))])])
        for package in PACKAGES:
            first = next(package.loads(data)["a"].active_coordinates(rows=1000))
            self.assertEqual((first.shape, first[0].tolist(), first[-1].tolist()), ((1000, 3), [-4096, 0, 0], [-4096 + 7, 4, 15]))
            for wrong in (0, -1):
                with self.assertRaises(vdb.RangeError):
                    next(package.loads(data)["a"].active_coordinates(rows=wrong))


class Copies(unittest.TestCase):
    def test_equality_pickle_and_copy(self):
        for package in PACKAGES:
            for kind in DTYPES:
                values, active = sample(5, kind)
                grid = package.Grid.from_array(values, active, LOW, limit=9, metadata={"unit": "mm"})
                for other in (pickle.loads(pickle.dumps(grid)), copy.copy(grid), copy.deepcopy(grid), grid.copy()):
                    self.assertIsNot(other, grid)
                    self.assertTrue(other == grid and not other != grid)
                    self.assertEqual((other.limit, dict(other.metadata), other.kind), (9, {"unit": "mm"}, kind))
                    other.metadata["unit"] = "cm"
                    self.assertEqual((grid.metadata["unit"], other), ("mm", grid))
                changed = values.copy()
                changed[3, 3, 3] = not changed[3, 3, 3]
                self.assertNotEqual(package.Grid.from_array(changed, active, LOW), grid)
                self.assertNotEqual(package.Grid.from_array(values, active ^ (values != values[0, 0, 0]) ^ True, LOW), grid)
                self.assertNotEqual(package.Grid.from_array(values, active, LOW, True if kind == "bool" else 1), grid)
                self.assertNotEqual(grid, package.Grid("i64" if kind == "i32" else "i32"))
                self.assertNotEqual(package.Grid(kind, EXTREMES[kind][0]), package.Grid(kind, EXTREMES[kind][1]))
                self.assertNotEqual(grid, "5")
                with self.assertRaises(TypeError):
                    hash(grid)
            scene = package.Scene({"a": grid})
            self.assertEqual(package.loads(scene.to_bytes()), scene)

    @needs_library
    def test_grids_too_long_for_a_file_are_compared_in_parts(self):
        values, active = sample(5)
        grid = vdb.Grid.from_array(values, active, LOW)
        other = grid.copy()
        with mock.patch("vdb.encoded.MAX_FILE", 300):
            self.assertEqual(grid, other)
            other.set_value((2, 8, 4095), 77)
            self.assertNotEqual(grid, other)

    @needs_library
    def test_grids_too_long_for_a_file_are_pickled_in_parts(self):
        """With values of every kind that are inactive, and voxels at both ends of the coordinates. Parts are compressed."""
        for kind, backgrounds in (("bool", (False, True)), ("i32", (0, -3)), ("i64", (0, 2**40))):
            for background in backgrounds:
                values, active = sample(5, kind)
                grid = vdb.Grid.from_array(values // 4 if kind != "bool" else values, active, LOW, background, 9, {"unit": "mm"})
                grid.write_many([(-(2**31),) * 3, (2**31 - 1,) * 3], [True, False] if kind == "bool" else [7, -9], [True, False])
                length = len(vdb.Scene({"a": grid}).to_bytes()) // 3
                with self.subTest(kind=kind, background=background), mock.patch("vdb.encoded.MAX_FILE", length):
                    parts = grid.__reduce__()[1][0]
                    self.assertGreater(len(parts), 2)
                    self.assertLessEqual(max(len(zlib.decompress(it)) for it in parts), length)
                    other = pickle.loads(pickle.dumps(grid))
                self.assertEqual((other, other.limit, dict(other.metadata)), (grid, 9, {"unit": "mm"}))
        with mock.patch("vdb.encoded.MAX_FILE", 2000), self.assertRaises(vdb.SumRangeError):
            pickle.dumps(vdb.Grid.from_array(np.arange(2**31 - 512, 2**31).reshape(8, 8, 8).astype(np.int32), background=-1))

    def test_text(self):
        for package in PACKAGES:
            grid = package.Grid.from_array(np.ones((10, 10, 10), np.int32), origin=(-1, 0, 1))
            self.assertEqual(repr(grid), "<Grid i32, background 0, 1,000 active voxels in (-1, 0, 1) to (8, 9, 10)>")
            self.assertEqual(repr(package.Grid("bool", True)), "<Grid bool, background True, 0 active voxels>")


def plain(found):
    """A result as lists, with the names of its types. What a call yields part by part is joined."""
    if isinstance(found, Iterator):
        parts = list(found)
        if isinstance(parts[0], np.ndarray):
            return plain(np.concatenate(parts))
        return plain(vdb.Boxes(*map(np.concatenate, zip(*parts)))) if isinstance(parts[0], vdb.Boxes) else [plain(it) for it in parts]
    if isinstance(found, np.ndarray):
        return str(found.dtype), found.tolist()
    if isinstance(found, tuple):
        return type(found).__name__, [plain(it) for it in found]
    return type(found).__name__, found


class Same(unittest.TestCase):
    NAMES = (
        "active active_coordinates background bounds boxes copy count dtype from_array image kind labels leaf_count leaves limit metadata names"
        " to_array"
    )

    @needs_library
    def test_what_both_packages_have_is_the_same(self):
        """Names, arguments, and results with their types."""
        values, active = sample(3)
        active[0, 0, 0] = True
        pairs = {"unit": "mm", "label_names_1": "3:ear", "image_array": "int64,{},{},{}".format(*SHAPE), "image_low": "{},{},{}".format(*LOW)}
        one, other = (package.Grid.from_array(values, active, LOW, 5, 9, pairs) for package in (vdb, scenefile))
        shared = sorted(name for name in {*dir(one)} & {*dir(other)} if not name.startswith("_"))
        self.assertEqual(" ".join(shared), self.NAMES)
        for name in shared:
            found = [getattr(grid, name) for grid in (one, other)]
            if callable(found[0]):
                arguments = [[(it.name, it.default, it.kind) for it in inspect.signature(call).parameters.values()] for call in found]
                self.assertEqual(*arguments, name)
                found = [values] * 2 if name == "from_array" else [call() for call in found]
            if name in ("copy", "active", "image"):
                found = [np.asarray(it) for it in found]
            self.assertEqual(*map(plain, found), name)
        for name in ("Scene", "Metadata"):
            self.assertEqual(*([it for it in dir(getattr(package, name)) if it[0] != "_"] for package in (vdb, scenefile)))


class Errors(unittest.TestCase):
    def test_the_table(self):
        """The table of the documentation names the built-in class of each error."""
        table, builtin = {}, ""
        for line in (it for it in vdb.errors.__doc__.splitlines() if it.startswith("    ")):
            builtin = line[4:23].strip() or builtin
            table.update({name: builtin for name in re.findall(r"\w+Error", line[23:])})
        kinds = {name: getattr(vdb, name) for name in vdb.errors.__all__ if name.endswith("Error") and name != "VdbError"}
        self.assertEqual(table, {name: next(it for it in kind.__mro__ if it.__module__ == "builtins").__name__ for name, kind in kinds.items()})

    def test_one_tree(self):
        for name in vdb.errors.__all__:
            kind = getattr(vdb, name)
            if isinstance(kind, type) and kind is not vdb.VdbError:
                self.assertTrue(issubclass(kind, (vdb.VdbError, vdb.VdbWarning)), name)
                builtin = [it for it in kind.__mro__ if it.__module__ == "builtins" and it not in (Exception, BaseException, object)]
                self.assertTrue(builtin, f"{name} is of no built-in class")
        for number, text in vdb.errors.TEXTS.items():
            error = vdb.errors.error_of(number)
            self.assertEqual((error.code, type(error) is vdb.VdbError), (number, False))
            self.assertIn(text.partition(": ")[2] or text, str(error))
            self.assertEqual(str(pickle.loads(pickle.dumps(error))), str(error))

    def test_missing_names_and_files(self):
        for package in PACKAGES:
            scene = package.Scene({"a": package.Grid("i32")})
            with self.assertRaisesRegex(vdb.MissingError, "no grid 'b'; it has a") as caught:
                scene["b"]
            self.assertIsInstance(caught.exception, KeyError)
            self.assertIs(scene.get("b"), None)
            with self.assertRaises(vdb.MissingError):
                scene["a"].metadata["unit"]
            with self.assertRaisesRegex(vdb.MissingFileError, "^/none/none: No such file") as caught:
                package.load("/none/none")
            self.assertIsInstance(caught.exception, FileNotFoundError)
            with self.assertRaisesRegex(vdb.FileError, "^/none/none: ") as caught:
                scene.save("/none/none")
            self.assertIsInstance(caught.exception, OSError)


@needs_library
class Assignments(unittest.TestCase):
    def check(self, kind, key, wanted, given, dice):
        """Assigns to a grid and to dense arrays, and compares all."""
        values, active = sample(dice.randint(0, 99), kind)
        grid = vdb.Grid.from_array(values, active, LOW)
        grid[key] = given
        values[wanted], active[wanted] = given, True
        box = LOW, tuple(at + side - 1 for at, side in zip(LOW, SHAPE))
        np.testing.assert_array_equal(grid.to_array(box), (values, active))
        states = np.array([dice.random() < 0.5 for _ in range(active[wanted].size)], np.bool_).reshape(active[wanted].shape)
        for part in (states, bool(dice.random() < 0.5)):
            grid.active[key] = part
            active[wanted] = part
            np.testing.assert_array_equal(grid.to_array(box), (values, active))

    def test_random(self):
        for seed in range(60):
            with self.subTest(seed=seed):
                dice = chance(seed)
                kind, key, wanted = dice.choice(list(DTYPES)), [], []
                for first, side in zip(LOW, SHAPE):
                    a, b = dice.randint(0, side - 1), dice.randint(0, side)
                    inner = dice.random() < 0.3
                    key.append(first + a if inner else slice(first + a, first + b))
                    wanted.append(a if inner else slice(a, b))
                key, wanted = tuple(key), tuple(wanted)
                shape = np.empty(SHAPE)[wanted].shape
                whole = np.array(dice.choices(EXTREMES[kind], k=int(np.prod(shape))), DTYPES[kind]).reshape(shape)
                for given in (dice.choice(EXTREMES[kind]), whole, whole[..., :1] if shape and shape[-1] else whole):
                    self.check(kind, key, wanted, given, dice)

    def test_dtypes(self):
        grid = vdb.Grid(np.int32)
        grid[0:3, 0, 0] = [1, 2, 3]
        grid[3:6, 0, 0] = np.array([True, False, True])
        grid[6:8, 0, 0] = np.array([250, 251], np.uint8)
        self.assertEqual(grid[0:8, 0, 0].tolist(), [1, 2, 3, 1, 0, 1, 250, 251])
        before, flags = grid.copy(), vdb.Grid("bool")
        for call, error, text in (
            (lambda it: grid.__setitem__((slice(0, 2), 0, 0), it), TypeError, "1.7"), (lambda it: grid.write_many([[0, 0, 0]] * 2, it), TypeError, "1.7"),
            (lambda it: grid.write_box((0, 0, 0), np.reshape(it, (2, 1, 1))), TypeError, "1.7"),
            (lambda it: grid.write_many(np.reshape([it] * 3, (2, 3)), 1), TypeError, "1.7"),
        ):  # fmt: skip
            for given in ([1.7, 2.0], np.array([1.7, np.nan], np.float32)):
                with self.assertRaisesRegex(error, text):
                    call(given)
        for given, text in ((np.array([1, 2**32], np.uint64), "4294967296"), ([5, -(2**31) - 1], "-2147483649"), ([2**63], "9223372036854775808")):
            with self.assertRaisesRegex(ValueError, text):
                grid[0 : len(given), 0, 0] = given
            with self.assertRaisesRegex(ValueError, text):
                grid.write_many([[0, 0, 0]] * len(given), given)
        for given in (float("nan"), 1.0, True, "1", None, 2j):
            with self.assertRaises(TypeError):
                grid[0, 0, 0] = given
        for given in ([0, 1], [1.0, 0.0]):
            with self.assertRaises(TypeError):
                flags[0:2, 0, 0] = given
        for call in (
            lambda: grid.active.__setitem__((slice(0, 2), 0, 0), [0, 1]), lambda: grid.set_active((0, 0, 0), 1),
            lambda: grid.fill(((0, 0, 0), (1, 1, 1)), 1, "off"), lambda: grid.write_many([[0, 0, 0]], 1, 0.0),
        ):  # fmt: skip
            with self.assertRaises(vdb.DtypeError):
                call()
        with self.assertRaisesRegex(ValueError, r"\(3,\) doesn't fit the shape \(2,\)"):
            grid[0:2, 0, 0] = [1, 2, 3]
        self.assertEqual(grid, before)
        self.assertEqual(flags.count, 0)

    def test_boxes_of_scalars_stay_sparse(self):
        grid = vdb.Grid("i64")
        grid[0:4096, -4096:0, 0:4096] = 2**40
        grid.active[0:4096, -4096:0, 0:128] = False
        self.assertEqual((grid.count, grid.tree_leaf_count, grid[5, -5, 5]), (2**36 - 2**31, 0, 2**40))


@needs_library
class Lives(unittest.TestCase):
    def test_a_grid_lives_as_long_as_its_iterators(self):
        values, active = sample(2)
        active[0, 0, 0] = True
        data = vdb.Scene({"g": vdb.Grid.from_array(values, active, LOW)}).to_bytes()
        for make in (vdb.Grid.leaves, vdb.Grid.voxels, vdb.Grid.active_coordinates, vdb.Grid.boxes):
            walk = make(vdb.loads(data)["g"])
            gc.collect()
            self.assertGreater(len(list(walk)), 0)

    def test_leaf_extents_of_one_cell_are_no_leaves(self):
        """What the tree does about them is its own affair."""
        for package in PACKAGES:
            values = np.zeros((16, 8, 8), np.int32)
            values[:8], values[8, 0, 0] = 5, 6
            grid = package.Grid.from_array(values)
            if package is vdb:
                grid.voxelise(grid.bounds)
                self.assertEqual(grid.tree_leaf_count, 2)
            self.assertEqual((grid.leaf_count, [leaf.origin for leaf in grid.leaves()]), (1, [(8, 0, 0)]))


@needs_library
class Threads(unittest.TestCase):
    def test_other_threads_go_on_during_a_call(self):
        """While one thread dilates, another one looks at the clock in the middle half of the call. With the lock of the interpreter held, it
        would stand still all the time."""
        sparse = vdb.Grid("bool")
        sparse.write_many(np.argwhere(np.ones((24, 24, 24))) * 9, True)
        for _ in range(20):
            grid, span, ticks = sparse.copy(), [], []

            def work(grid=grid, span=span):
                span.append(time.perf_counter())
                grid.dilate(4)
                span.append(time.perf_counter())

            worker = threading.Thread(target=work)
            worker.start()
            while worker.is_alive():
                ticks.append(time.perf_counter())
                time.sleep(0.0002)
            begun, ended = span
            quarter = (ended - begun) / 4
            if sum(begun + quarter < tick < ended - quarter for tick in ticks) > 5:
                return
        self.fail("no other thread ran during a call")

    def test_two_grids_in_both_orders(self):
        one, two = vdb.Grid("bool"), vdb.Grid("bool")
        one.fill(((0, 0, 0), (9, 9, 9)), True)
        two.fill(((5, 5, 5), (20, 20, 20)), True)

        def work(first, second):
            for _ in range(300):
                first.unite(second)
                first.subtract(second)

        threads = [threading.Thread(target=work, args=pair) for pair in ((one, two), (two, one)) * 2]
        for thread in threads:
            thread.start()
        for thread in threads:
            thread.join(60)
            self.assertFalse(thread.is_alive(), "two calls wait for each other")

    def test_one_grid_in_several_threads(self):
        grid = vdb.Grid("i32")
        threads = [threading.Thread(target=lambda k=k: [grid.write_many([[k, n, 0]], k) for n in range(200)]) for k in range(4)]
        for thread in threads:
            thread.start()
        for thread in threads:
            thread.join()
        self.assertEqual(grid[0:4, 0:200, 0].tolist(), [[k] * 200 for k in range(4)])

    def test_threads_fill_one_array(self):
        """The same arrays for each number of threads, from a grid and a view, in order and out of it. The grid is whole after an error too."""
        values = np.zeros((136, 130, 129), np.int32)
        values[5:90, 7:100, 3:70], values[::5, ::7, ::3] = 4, np.arange(28 * 19 * 43).reshape(28, 19, 43)
        grid, box = vdb.Grid.from_array(values, origin=LOW), (LOW, tuple(at + side - 1 for at, side in zip(LOW, values.shape)))
        for source in (grid, vdb.View(grid)):
            for threads in (1, 2, 7, np.int64(3), None):
                np.testing.assert_array_equal(source.to_array(box, threads=threads), (values, values != 0))
                out = np.empty(values.shape, np.int64, order="F")
                source.to_array(box, fill=-1, out=out, threads=threads)
                np.testing.assert_array_equal(out, np.where(values == 0, -1, values))
                with self.assertRaisesRegex(vdb.RangeError, "outside int8"):
                    source.to_array(box, dtype=np.int8, threads=threads)
            for wrong, error in ((0, vdb.RangeError), (-1, vdb.RangeError), (True, vdb.DtypeError), ("2", vdb.DtypeError), (1.0, vdb.DtypeError)):
                with self.assertRaises(error):
                    source.to_array(box, threads=wrong)
        self.assertEqual((grid.count, grid[LOW]), (np.count_nonzero(values), 0))
        grid[0, 0, 4000] = 9
        self.assertEqual(grid.count, np.count_nonzero(values) + 1)

    def test_view(self):
        values, active = sample(4)
        grid = vdb.Grid.from_array(values, active, LOW, metadata={"unit": "mm"})
        bounds, view, failed = grid.bounds, vdb.View(grid), []
        grid.fill(bounds, 9)
        box = LOW, tuple(at + side - 1 for at, side in zip(LOW, SHAPE))

        def work():
            for _ in range(50):
                found = view.to_array(box)
                at = np.argwhere(active)[:50]
                if not (np.array_equal(found, (values, active)) and np.array_equal(view.get_many(at + LOW)[0], values[tuple(at.T)])):
                    failed.append(found)

        threads = [threading.Thread(target=work) for _ in range(4)]
        for thread in threads:
            thread.start()
        for thread in threads:
            thread.join()
        self.assertEqual((failed, view.bounds, view.count, view.background), ([], bounds, int(active.sum()), 0))
        self.assertEqual((view[LOW], view.active[LOW]), (values[0, 0, 0], active[0, 0, 0]))
        self.assertEqual((view.copy(), view.copy().metadata["unit"]), (vdb.Grid.from_array(values, active, LOW), "mm"))


if __name__ == "__main__":
    unittest.main()
