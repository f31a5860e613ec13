# SPDX-License-Identifier: Apache-2.0
"""Properties of slices, dtypes and labels, on what hypothesis finds. NumPy is the oracle."""
import unittest

from .support import DTYPES, library_missing, np, rows, vdb

try:
    from hypothesis import given, settings
    from hypothesis import strategies as some
    from hypothesis.extra import numpy as arrays
except ImportError as error:
    raise unittest.SkipTest(f"{error}: Debian has it as python3-hypothesis") from error
if library_missing():
    raise unittest.SkipTest(library_missing())

quickly = settings(max_examples=60, deadline=None, derandomize=True, database=None)
SHAPE, LOW = (6, 9, 10), (-3, 4093, 2**31 - 10)
FORMS = ["bool", "int8", "uint8", "int16", "uint16", "int32", "uint32", "int64", "uint64", "float32", "float64", "complex64"]
index = some.one_of(*[some.integers(0, 5), some.builds(slice, *[some.integers(0, 6)] * 2)])
key = some.tuples(index, index, index)
labels = arrays.arrays(np.int32, SHAPE, elements=some.integers(-2, 3))


def absolute(key):
    """The index of a grid for that of an array whose first voxel lies at LOW."""
    return tuple(slice(part.start + low, part.stop + low) if isinstance(part, slice) else part + low for part, low in zip(key, LOW))


def cells(grid):
    return grid.to_array((LOW, tuple(at + side - 1 for at, side in zip(LOW, SHAPE))))


class Properties(unittest.TestCase):
    @quickly
    @given(labels, key)
    def test_slices_read_what_numpy_reads(self, values, key):
        grid = vdb.Grid.from_array(values, origin=LOW)
        np.testing.assert_array_equal(grid[absolute(key)], values[key])
        np.testing.assert_array_equal(grid.active[absolute(key)], (values != 0)[key])

    @quickly
    @given(labels, key, some.data())
    def test_assignments_set_what_numpy_sets(self, values, key, data):
        grid, active = vdb.Grid.from_array(values, origin=LOW), values != 0
        sides = [data.draw(some.sampled_from([1, side, side, side + 1])) for side in values[key].shape]
        given_values = data.draw(arrays.arrays(np.int32, tuple(sides[data.draw(some.integers(0, len(sides))) :])))
        try:
            np.broadcast_to(given_values, values[key].shape)
        except ValueError:
            with self.assertRaises(vdb.RangeError):
                grid[absolute(key)] = given_values
        else:
            grid[absolute(key)] = given_values
            values[key], active[key] = given_values, True
        np.testing.assert_array_equal(cells(grid), (values, active))

    @quickly
    @given(some.sampled_from(list(DTYPES)), some.sampled_from(FORMS).flatmap(lambda form: arrays.arrays(form, 4)))
    def test_values_are_kept_or_refused(self, kind, values):
        """A value that a grid takes is the value that it has; it takes those of a safe dtype, and integers in range."""
        grid, form = vdb.Grid(kind), np.dtype(DTYPES[kind])
        integers = kind != "bool" and values.dtype.kind in "iu"
        fits = np.can_cast(values.dtype, form, "safe") or integers and all(np.iinfo(form).min <= it <= np.iinfo(form).max for it in values.tolist())
        if fits:
            grid[0, 0, 0:4] = values
            self.assertEqual(grid[0, 0, 0:4].tolist(), values.tolist())
        else:
            with self.assertRaises((vdb.DtypeError, vdb.RangeError)) as caught:
                grid[0, 0, 0:4] = values
            self.assertTrue(any(str(it) in str(caught.exception) or repr(it) in str(caught.exception) for it in values))
            self.assertEqual(grid.count, 0)

    @quickly
    @given(labels, some.dictionaries(some.integers(-2, 3), some.integers(-2, 3)))
    def test_labels(self, values, pairs):
        grid = vdb.Grid.from_array(values, origin=LOW)
        wanted, numbers = np.unique(values[values != 0], return_counts=True)
        found = grid.relabel(pairs)
        self.assertEqual([row[:2] for row in rows(grid.labels())], list(zip(wanted.tolist(), numbers.tolist())))
        changed = np.vectorize(lambda it: pairs.get(it, it), otypes=[np.int32])(values)
        np.testing.assert_array_equal(cells(found), (np.where(values != 0, changed, 0), values != 0))
        for label in wanted:
            np.testing.assert_array_equal(cells(grid.select(label))[1], values == label)


if __name__ == "__main__":
    unittest.main()
