# SPDX-License-Identifier: Apache-2.0
"""Walks over a grid of the engine, chunk by chunk as arrays: its leaves and its active tiles."""
from __future__ import annotations

from ctypes import byref, c_size_t
from typing import Iterator, Union

import numpy as np

from .blocks import Cubes, Rows
from .library import COORD, I64, U64, Held, Part

#: How many leaves, and how many parts, cross at a time.
LEAVES, PARTS = 256, 4096


def leaf_rows(held: Held) -> Iterator[Rows]:
    """Yields the leaves of the tree in block order, chunk by chunk."""
    origins, words, copied = np.empty((LEAVES, 3), np.int32), np.empty((LEAVES, 8), np.uint64), c_size_t()
    name = "first_leaves"
    after: "tuple[int, ...]" = ()
    while True:
        numbers = np.empty((LEAVES, 512), np.int64)
        room = origins.ctypes.data_as(COORD), LEAVES, numbers.ctypes.data_as(I64), numbers.size, words.ctypes.data_as(U64), words.size
        held.call(name, *after, *room, byref(copied))
        count = copied.value
        if not count:
            return
        states = np.unpackbits(words[:count].astype("<u8").view(np.uint8), bitorder="little").view(np.bool_).reshape(-1, 512)
        yield Rows(origins[:count].copy(), numbers[:count], states)
        name, after = "next_leaves", tuple(origins[count - 1].tolist())


def parts_of(held: Held) -> "Iterator[Union[Rows, Cubes]]":
    """Yields all active voxels of a grid, and some others: its leaves in block order, then its active tiles."""
    yield from leaf_rows(held)
    yield from active_tiles(held)


def active_tiles(held: Held) -> Iterator[Cubes]:
    """Yields the active tiles of the tree, chunk by chunk, those of one side together."""
    parts, copied = (Part * PARTS)(), c_size_t()
    fields = np.dtype([("low", np.int32, 3), ("high", np.int32, 3), ("value", np.int64), ("state", np.int32)], align=True)
    rows = np.frombuffer(memoryview(parts).cast("B"), fields)
    name = "first_parts"
    after: "tuple[int, ...]" = ()
    while True:
        held.call(name, *after, parts, len(parts), byref(copied))
        if not copied.value:
            return
        found = rows[: copied.value]
        tiles = found[found["state"] == 1]
        sides = tiles["high"][:, 0].astype(np.int64) - tiles["low"][:, 0] + 1
        for side in np.unique(sides).tolist():
            yield Cubes(tiles["low"][sides == side], side, tiles["value"][sides == side])
        name, after = "next_parts", tuple(found["high"][-1].tolist())
