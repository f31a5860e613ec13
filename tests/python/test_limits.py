# SPDX-License-Identifier: Apache-2.0
"""Each limit of README.md through the Python package: at its value, and one past it."""
import unittest

import numpy as np
import vdb

LEAST, GREATEST = -(2**31), 2**31 - 1
TEXT = "!" * 64


class Limits(unittest.TestCase):
    def refused(self, error, call):
        with self.assertRaises(error) as raised:
            call()
        self.assertIsInstance(raised.exception, vdb.VdbError)

    def test_root_limits(self):
        for limit in (1, 65536):
            self.assertEqual(vdb.Grid("i32", limit=limit).limit, limit)
        for limit in (0, 65537, -1):
            self.refused(ValueError, lambda: vdb.Grid("i32", limit=limit))

    def test_a_grid_reaches_its_root_limit(self):
        grid = vdb.Grid("i32", limit=2)
        grid.fill(((0, 0, 0), (8191, 4095, 4095)), 7)
        self.refused(vdb.RootLimitError, lambda: grid.set_value((-1, 0, 0), 1))
        self.assertEqual((grid[8191, 4095, 4095], grid[-1, 0, 0], grid.count), (7, 0, 8192 * 4096 * 4096))

    def test_values(self):
        for kind, least, greatest in (("i32", LEAST, GREATEST), ("i64", -(2**63), 2**63 - 1)):
            grid = vdb.Grid(kind)
            for value in (least, greatest):
                grid[0, 0, 0] = value
                self.assertEqual(grid[0, 0, 0], value)
            for value in (least - 1, greatest + 1):
                self.refused((ValueError, TypeError, OverflowError), lambda: grid.set_value((0, 0, 0), value))
                self.assertEqual(grid[0, 0, 0], greatest)

    def test_coordinates(self):
        grid = vdb.Grid("i32")
        for at in (LEAST, GREATEST):
            grid[at, at, at] = 5
            self.assertEqual(grid[at, at, at], 5)
        for at in (LEAST - 1, GREATEST + 1, 2**63, -(2**63) - 1, 2**100):
            self.refused((ValueError, IndexError), lambda: grid.set_value((at, 0, 0), 5))
            self.refused(ValueError, lambda: grid.get_many([(7, at, 0)]))

    def test_iterations(self):
        for name in ("dilate", "erode"):
            grid = vdb.Grid("bool")
            grid.fill(((0, 0, 0), (40, 40, 40)), True)
            for iterations in (0, 17):
                self.refused(ValueError, lambda: getattr(grid, name)(iterations))
            self.assertEqual(grid.count, 41**3)
            getattr(grid, name)(16)
            self.assertNotEqual(grid.count, 41**3)

    def test_grids_of_a_scene(self):
        scene = vdb.Scene()
        for number in range(64):
            scene[f"g{number}"] = vdb.Grid("i32")
        self.refused(ValueError, lambda: scene.__setitem__("one_more", vdb.Grid("i32")))
        scene["g0"] = vdb.Grid("bool")
        self.assertEqual((len(scene), scene["g0"].kind), (64, "bool"))

    def test_names(self):
        scene = vdb.Scene()
        scene["z" * 16] = vdb.Grid("i32")
        for name in ("", "z" * 17, "Z", "1a", "a-b"):
            self.refused(ValueError, lambda: scene.__setitem__(name, vdb.Grid("i32")))
        self.assertEqual([*scene], ["z" * 16])

    def test_metadata(self):
        grid = vdb.Grid("i32")
        for number in range(16):
            grid.metadata[f"k{number}"] = TEXT
        self.refused(ValueError, lambda: grid.metadata.__setitem__("one_more", "mm"))
        for key, text in (("k0", ""), ("k0", TEXT + "!"), ("k0", "a b"), ("", "mm"), ("k" * 17, "mm")):
            self.refused(ValueError, lambda: grid.metadata.__setitem__(key, text))
        self.assertEqual(dict(grid.metadata), {f"k{number}": TEXT for number in range(16)})

    def test_the_longest_file(self):
        plane = vdb.Grid("bool")
        plane.fill(((0, 0, 0), (0, 4095, 4095)), True)
        scene = vdb.Scene({name: plane.copy() for name in "abcd"})
        self.refused(vdb.SceneTooLongError, scene.to_bytes)

    def test_arrays(self):
        grid = vdb.Grid("i32")
        grid.fill(((0, 0, 0), (4095, 4095, 4095)), 1)
        self.refused(vdb.ArrayTooLargeError, lambda: grid.to_array())
        values, _ = grid.to_array(((0, 0, 0), (7, 7, 7)), max_bytes=8**3 * 5)
        self.assertTrue(np.array_equal(values, np.ones((8, 8, 8), np.int32)))
        self.refused(vdb.ArrayTooLargeError, lambda: grid.to_array(((0, 0, 0), (7, 7, 7)), max_bytes=8**3 * 4 - 1))


if __name__ == "__main__":
    unittest.main()
