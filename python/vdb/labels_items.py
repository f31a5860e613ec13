# SPDX-License-Identifier: Apache-2.0
"""The items of a grid, which are leaves and active tiles, and which of them touch: what measures and components of labels share."""
from __future__ import annotations

from itertools import product
from typing import Iterator, Sequence, Tuple

import numpy as np

from .blocks import OFFSETS, Rows, ranks
from .forms import SIDES
from .reading import Walkable

#: How many leaves are worked on at a time.
CHUNK = 1024
#: Of the block before a leaf along an axis, the leaf, and the block after it: where its voxels lie around the leaf, and in the block.
HALO = {-1: (slice(0, 1), slice(7, 8)), 0: (slice(1, 9), slice(0, 8)), 1: (slice(9, 10), slice(0, 1))}
Step = Tuple[int, int, int]
#: What touches by a step: the step, two arrays, and over how many faces each two touch.
Contact = Tuple[Step, np.ndarray, np.ndarray, int]


def steps_of(order: int) -> "list[Step]":
    """Returns the steps to the blocks around one that change at most `order` of the coordinates, in rising order."""
    return [(x, y, z) for x, y, z in product((-1, 0, 1), repeat=3) if 0 < abs(x) + abs(y) + abs(z) <= order]


def inside(leaves: np.ndarray, steps: "Sequence[Step]") -> "Iterator[Contact]":
    """Yields what voxels of leaves have (n x 512) and what those a step away in the same leaf have."""
    for step in steps:
        one, other = (tuple(slice(max(0, by), 8 + min(0, by)) for by in way) for way in ([-by for by in step], step))
        cubes = leaves.reshape(-1, 8, 8, 8)
        yield step, cubes[(slice(None), *one)].ravel(), cubes[(slice(None), *other)].ravel(), 1


def across(leaves: np.ndarray, wide: np.ndarray, steps: "Sequence[Step]") -> "Iterator[Contact]":
    """Yields what voxels of leaves have (n x 512) and what those a step away outside the leaf have, of leaves and a voxel around them (n x 10 x
    10 x 10)."""
    for step in steps:
        at = OFFSETS + step
        out = np.flatnonzero((at & -8).any(axis=1))
        yield step, leaves[:, out].ravel(), wide.reshape(-1, 1000)[:, (at[out] + 1) @ (100, 10, 1)].ravel(), 1


class Items:
    """The leaves and the active tiles of a grid: least corners of leaves (n x 3, int32), and of tiles (m x 3) with their sides (m). `cells` has
    the cells of the voxels of leaves (n x 512), and `tiles` those of tiles (m). A cell is 0 for an inactive voxel, else 1 + the index of its value
    among rising values."""

    def __init__(self, grid: Walkable, values: np.ndarray) -> None:
        among, dtype, none = values.astype(np.int64), np.min_scalar_type(len(values)), np.zeros((0, 3), np.int32)
        leaves, tiles = [(none, np.zeros((0, 512), dtype))], [(none, np.zeros(0, np.int64), np.zeros(0, dtype))]
        for part in grid._parts() if len(values) else ():
            number = (ranks(part.values.astype(np.int64, copy=False), among) + 1).astype(dtype)
            if isinstance(part, Rows):
                some = part.active.any(axis=1)
                leaves.append((part.origins[some], (number * part.active)[some]))
            else:
                tiles.append((part.low, np.full(len(number), part.side), number))
        self.lows, self.cells = (np.concatenate(column) for column in zip(*leaves))
        self.corners, self.sides, self.tiles = (np.concatenate(column) for column in zip(*tiles))
        self.leaves = Places(self.lows, 8, np.arange(len(self.lows)))
        sets = ((side, np.flatnonzero(self.sides == side)) for side in SIDES)
        self.sets = [Places(self.corners[which], side, which) for side, which in sets if len(which)]

    def chunks(self) -> "Iterator[slice]":
        """Yields slices of the leaves."""
        return (slice(first, first + CHUNK) for first in range(0, len(self.cells), CHUNK))

    def contacts(self, order: int, leaves: np.ndarray, tiles: np.ndarray) -> "Iterator[Contact]":
        """Yields what voxels of different leaves (n x 512) and tiles (m) have where they touch by a step that changes at most `order` coordinates,
        each two once. A voxel also meets 0 where nothing is."""
        steps, cubes = steps_of(order), leaves.reshape(-1, 8, 8, 8)
        for part in self.chunks():
            wide, large = np.zeros((2, len(cubes[part]), 10, 10, 10), leaves.dtype)
            for step in steps:
                here, there = zip(*(HALO[by] for by in step))
                near = self.lows[part] + 8 * np.array(step, np.int64)
                found, at = self.leaves.find(near)
                wide[(found, *here)] = cubes[(at, *there)]
                for places in self.sets:
                    found, at = places.find(near)
                    wide[(found, *here)] = large[(found, *here)] = tiles[at].reshape(-1, 1, 1, 1)
            yield from across(leaves[part], wide, steps[len(steps) // 2 :])
            some = large.any(axis=(1, 2, 3))  # what comes before a voxel yields it, but for tiles
            yield from across(leaves[part][some], large[some], steps[: len(steps) // 2])
        for (one, other), step in product(product(self.sets, repeat=2), steps):
            if one.side < other.side or (one is other and step > (0, 0, 0)):
                found, at = other.find(self.corners[one.which] + one.side * np.array(step, np.int64))
                yield step, tiles[one.which[found]], tiles[at], one.side**2


class Places:
    """Finds cubes of a side by voxels in them. `which` are their indices among others."""

    def __init__(self, low: np.ndarray, side: int, which: np.ndarray) -> None:
        self.side, self.which, self.tables, rank = side, which, [], np.zeros(len(low), np.int64)
        for axis in low.T:
            table, index, rank = np.unique(self.keys(rank, axis), return_index=True, return_inverse=True)
            self.tables.append(table)
        self.found = which[index]

    def keys(self, rank: np.ndarray, axis: np.ndarray) -> np.ndarray:
        """Returns numbers of the rank by the axes before and the coordinate along this one, which may lie a cube past 32 bits."""
        return (rank << 33) + axis + 2**32

    def find(self, corners: np.ndarray) -> "tuple[np.ndarray, np.ndarray]":
        """Returns which of these voxels (n x 3, int64) a cube holds, and the index of each of those cubes."""
        at = np.arange(len(corners) * bool(len(self.which)))
        rank = np.zeros(len(at), np.int64)
        for table, axis in zip(self.tables, (corners & -self.side).T):
            key = self.keys(rank, axis[at])
            rank = np.searchsorted(table, key).clip(max=len(table) - 1)
            same = table[rank] == key
            at, rank = at[same], rank[same]
        return at, self.found[rank]
