#!/usr/bin/env python3
# SPDX-License-Identifier: Apache-2.0
"""Limits of README.md through the C library, at their value and one past it, that neither a script of tests/fuzz nor a random call of fuzz.py
reaches: many grids, many pairs, a full root table and the longest file. They need what tests/c/test_libvdb.py needs."""
from __future__ import annotations

import functools
import sys
import unittest
from ctypes import byref, c_int32, c_int64, c_uint8, c_uint64
from pathlib import Path

sys.path.insert(0, str(Path(__file__).resolve().parent))
from test_libvdb import Header, prefix  # noqa: E402

TEXT = b"!" * 64


@functools.lru_cache(None)
def header():
    return Header()


@functools.lru_cache(None)
def library():
    return header().load(prefix() / "lib" / "libvdb.so")


class Handles(unittest.TestCase):
    """Grids and scenes that are freed at the end of a test."""

    def made(self, kind):
        handle = header().types[kind]()
        self.addCleanup(getattr(library(), f"{kind}_free"), handle)
        return handle

    def grid(self, kind=1, background=0, limit=4096):
        grid = self.made("vdb_grid")
        self.code("VDB_OK", library().vdb_grid_new(grid, kind, background, limit))
        return grid

    def scene(self):
        scene = self.made("vdb_scene")
        self.code("VDB_OK", library().vdb_scene_new(scene))
        return scene

    def code(self, wanted, found, what=None):
        names = {code: name for name, code in header().constants.items() if name not in ("VDB_BOOL", "VDB_I32", "VDB_I64")}
        self.assertEqual(found, header().constants[wanted], f"{what}: {names.get(found, found)}")

    def box(self, *corners):
        coord = header().types["vdb_coord"]
        return header().types["vdb_box"](coord(*corners[:3]), coord(*corners[3:]))

    def cell(self, grid, *at):
        value, active = c_int64(), c_int32()
        self.code("VDB_OK", library().vdb_grid_get(grid, *at, byref(value), byref(active)))
        return value.value, active.value


class Grids(Handles):
    def test_a_grid_reaches_its_root_limit(self):
        for limit, last in ((1, (4095, 4095, 4095)), (4096, (65535, 65535, 65535)), (65536, (65535, 262143, 262143))):
            with self.subTest(limit):
                grid = self.grid(limit=limit)
                self.code("VDB_OK", library().vdb_grid_fill(grid, self.box(0, 0, 0, *last), 7, 1))
                self.code("VDB_ROOT_LIMIT", library().vdb_grid_set(grid, -1, -1, -1, -1, 7, 1))
                self.assertEqual((self.cell(grid, *last), self.cell(grid, -1, -1, -1)), ((7, 1), (0, 0)))
                self.code("VDB_OK", library().vdb_grid_fill(grid, self.box(0, 0, 0, 4095, 4095, 4095), 0, 0))
                self.code("VDB_OK", library().vdb_grid_set(grid, -1, -1, -1, -1, 7, 1))


class Scenes(Handles):
    def test_grids(self):
        scene = self.scene()
        for number in range(65):
            name = f"g{number}".encode()
            wanted = "VDB_OK" if number < 64 else "VDB_GRID_LIMIT"
            self.code(wanted, library().vdb_scene_put(scene, name, len(name), self.grid()), number)

    def test_metadata(self):
        scene = self.scene()
        self.code("VDB_OK", library().vdb_scene_put(scene, b"a", 1, self.grid()))

        def put(key, text):
            return library().vdb_scene_meta_set(scene, b"a", 1, key, len(key), text, len(text))

        for text, wanted in ((b"", "VDB_TEXT"), (TEXT, "VDB_OK"), (TEXT + b"!", "VDB_TEXT")):
            self.code(wanted, put(b"k0", text), text)
        for key, wanted in ((b"", "VDB_NAME"), (b"k" * 16, "VDB_OK"), (b"k" * 17, "VDB_NAME")):
            self.code(wanted, put(key, TEXT), key)
        for number in range(1, 16):
            wanted = "VDB_OK" if number < 15 else "VDB_META_LIMIT"
            self.code(wanted, put(f"k{number}".encode(), TEXT), number)
        self.code("VDB_OK", put(b"k0", b"mm"))

    def test_the_longest_file(self):
        scene, length, written = self.scene(), c_uint64(), c_uint64()
        for name in (b"a", b"b", b"c", b"d"):
            grid = self.grid(kind=0)
            self.code("VDB_OK", library().vdb_grid_fill(grid, self.box(0, 0, 0, 0, 4095, 4095), 1, 1))
            self.code("VDB_OK", library().vdb_scene_put(scene, name, 1, grid))
        self.code("VDB_OK", library().vdb_scene_length(scene, byref(length)))
        self.assertEqual(length.value, 273_698_936)
        nothing = (c_uint8 * 1)()
        self.code("VDB_FILE_TOO_LONG", library().vdb_scene_save(scene, nothing, 1, byref(written)))
        self.code("VDB_OK", library().vdb_scene_take(scene, b"d", 1, self.made("vdb_grid")))
        self.code("VDB_OK", library().vdb_scene_length(scene, byref(length)))
        self.assertLessEqual(length.value, 268_435_456)
        self.code("VDB_BUFFER", library().vdb_scene_save(scene, nothing, 1, byref(written)))


if __name__ == "__main__":
    unittest.main()
