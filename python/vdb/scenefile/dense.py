# SPDX-License-Identifier: Apache-2.0
"""Dense arrays into trees, and trees into dense arrays. Axes are x, y, z."""
from __future__ import annotations

import math
from typing import Iterator

import numpy as np

from ..forms import SIDES, Coordinate, Kind, Progress, Value, narrow
from .tree import CODE_BITS, Leaves, Tiles, Tree, collapse, empty_tree

#: How many voxels along x are handled at once, and how many of a root block are few.
SLAB, FEW = 16, 2**20


def tree_of(
    kind: Kind, values: np.ndarray, active: "np.ndarray | None", origin: "tuple[int, int, int]", background, progress: "Progress | None" = None
) -> Tree:
    """Returns the tree of a dense array whose first voxel lies at `origin`. Without `active`, what differs from the background is."""
    if values.size == 0:
        return empty_tree(kind, background)
    source = Source(kind, values, active, origin, background, progress)
    roots: "list[tuple[int, int, int]]" = []
    for key in covering(origin, source.past, SIDES[2]):
        source.root_block(key, len(roots))
        if source.filled(len(roots)):
            roots.append(key)
    return source.tree(roots)


def covering(low, past, side: int) -> "Iterator[tuple[int, int, int]]":
    """Yields the aligned cubes of this side that meet a box, by their least coordinates divided by the side."""
    x, y, z = (range(a // side, -(-b // side)) for a, b in zip(low, past))
    yield from ((i, j, k) for i in x for j in y for k in z)


class Source:
    """Reads a dense array in block order, a lower extent at a time."""

    def __init__(
        self, kind: Kind, values: np.ndarray, active: "np.ndarray | None", origin, background, progress: "Progress | None"
    ) -> None:
        self.kind, self.background, self.origin = kind, background, origin
        self.progress, self.done = progress, 0
        self.values, self.active = values, active
        self.past = tuple(at + side for at, side in zip(origin, values.shape))
        self.tile_parts: "list[tuple[np.ndarray, np.ndarray, np.ndarray]]" = []
        self.leaf_parts: "list[tuple[np.ndarray, np.ndarray]]" = []
        self.voxel_parts: "list[tuple[np.ndarray, np.ndarray, np.ndarray]]" = []

    def filled(self, place: int) -> bool:
        """Says whether the root block at this place holds anything but the inactive background."""
        lasts = [*self.tile_parts[-1:], *self.leaf_parts[-1:]]
        return any(part[0][-1] >> CODE_BITS[0] == place for part in lasts)

    def root_block(self, key: "tuple[int, int, int]", place: int) -> None:
        low = [max(at, part * SIDES[2]) for at, part in zip(self.origin, key)]
        past = [min(at, (part + 1) * SIDES[2]) for at, part in zip(self.past, key)]
        if self.is_thin_background(low, past):
            return self.report(low, past)
        for x, y, z in covering(low, past, SIDES[1]):
            self.lower_extent((x, y, z), place << 15 | (x & 31) << 10 | (y & 31) << 5 | z & 31)

    def report(self, low: "list[int]", past: "list[int]") -> None:
        """Reports a box of the array as done."""
        self.done += math.prod(b - a for a, b in zip(low, past))
        if self.progress:
            self.progress(self.done, self.values.size)

    def is_thin_background(self, low: "list[int]", past: "list[int]") -> bool:
        """Says whether a box within the array has few voxels, and all of them are the inactive background. A long array of few voxels has
        many root blocks, each with many lower extents."""
        part = tuple(slice(a - at, b - at) for a, b, at in zip(low, past, self.origin))
        values = self.values[part]
        if values.size > FEW or (values != self.background).any():
            return False
        return self.active is None or not self.active[part].any()

    def lower_extent(self, number: "tuple[int, int, int]", code: int) -> None:
        """Reads the part of the array in a lower extent, a slab of SLAB voxels along x at a time: block order goes by x first."""
        first = [max(at, part * SIDES[1]) for at, part in zip(self.origin, number)]
        last = [min(at, (part + 1) * SIDES[1]) for at, part in zip(self.past, number)]
        low, past = [at // 8 * 8 for at in first], [-(-at // 8) * 8 for at in last]
        for x in range(low[0], past[0], SLAB):
            self.slab([x, *low[1:]], [min(x + SLAB, past[0]), *past[1:]], code)
        self.report(first, last)

    def slab(self, low: "list[int]", past: "list[int]", code: int) -> None:
        """Reads the leaf extents in a box of whole ones. `code` is that of the lower extent."""
        values = self.cut(self.values, low, past, self.kind.dtype, self.background)
        listed = np.not_equal(values, self.background, out=np.empty(values.shape, np.bool_))
        states = None if self.active is None else self.cut(self.active, low, past, np.dtype(np.bool_), False)
        if states is not None:
            listed |= states
        rows = rows_of(listed).view(np.uint64)
        found = np.bitwise_or.reduce(np.bitwise_or.reduce(rows, axis=3), axis=1) != 0
        if found.any():
            x, y, z = (part + (at // 8 & 15) for part, at in zip(np.nonzero(found), low))
            codes = code << 12 | x << 8 | y << 4 | z
            block_values, block_listed = blocks_of(values, found), blocks_of(listed, found)
            self.leaf_extents(codes, block_values, block_listed if states is None else blocks_of(states, found), block_listed)

    def cut(self, array: np.ndarray, low, past, dtype: np.dtype, fill) -> np.ndarray:
        """Returns the part of an array in a box of whole leaf extents, filled outside the array, contiguous along z."""
        inner = [(max(a, o), min(b, p)) for a, b, o, p in zip(low, past, self.origin, self.past)]
        part = array[tuple(slice(a - o, b - o) for (a, b), o in zip(inner, self.origin))]
        if any((a, b) != pair for a, b, pair in zip(low, past, inner)):
            whole = np.full([b - a for a, b in zip(low, past)], fill, dtype)
            whole[tuple(slice(a - at, b - at) for (a, b), at in zip(inner, low))] = part
            return whole
        if part.dtype != dtype or part.strides[2] != dtype.itemsize:
            return part.astype(dtype, order="C")
        return part

    def leaf_extents(self, codes: np.ndarray, values: np.ndarray, active: np.ndarray, listed: np.ndarray) -> None:
        """Notes leaf extents, rows of 512 voxels of which some are listed, as tiles or leaves."""
        constant = (values[:, 0] == values[:, 511]) & (values[:, 0] == values[:, 200])
        likely = np.flatnonzero(constant)  # most rows that differ are passed over
        constant[likely] = (values[likely] == values[likely, :1]).all(axis=1)
        if active is not listed:
            constant &= (active == active[:, :1]).all(axis=1)
        if constant.any():
            self.tile_parts.append((codes[constant], values[constant, 0], active[constant, 0]))
        if not constant.all():
            every = active is listed
            listed[constant] = False
            places = np.flatnonzero(listed)
            counts = np.diff(np.searchsorted(places, np.arange(len(codes) + 1) * 512))
            self.leaf_parts.append((codes[~constant], counts[~constant]))
            states = np.ones(len(places), np.bool_) if every else active.ravel()[places]
            self.voxel_parts.append(((places & 511).astype(np.uint16), values.ravel()[places], states))

    def tree(self, roots: "list[tuple[int, int, int]]") -> Tree:
        none = empty_tree(self.kind, self.background)
        tiles, larger = collapse(Tiles(*joined(self.tile_parts, [none.tiles[0].codes, none.tiles[0].values, none.tiles[0].active])), 0)
        larger, largest = collapse(larger, 1)
        codes, counts = joined(self.leaf_parts, [none.leaves.codes, none.leaves.codes])
        index, values, active = joined(self.voxel_parts, [none.leaves.index, none.leaves.values, none.leaves.active])
        starts = np.concatenate([[0], np.cumsum(counts, dtype=np.int64)])
        keys = np.array(roots, np.int64).reshape(-1, 3)
        return Tree(self.kind, self.background, keys, Leaves(codes, starts, index, active, values), (tiles, larger, largest))


def joined(parts: list, none: "list[np.ndarray]") -> "list[np.ndarray]":
    """Returns the columns of parts, each one array, or `none` if there are no parts."""
    return [np.concatenate(column) for column in zip(*parts)] if parts else none


def rows_of(brick: np.ndarray) -> np.ndarray:
    """Returns a view of whole leaf extents by rows of 8 voxels: axes are x's block, x in it, y's block, y in it, z's block."""
    x, y, z = (side // 8 for side in brick.shape)
    return brick.view(f"V{8 * brick.itemsize}").reshape(x, 8, y, 8, z)


def blocks_of(brick: np.ndarray, found: np.ndarray) -> np.ndarray:
    """Returns the leaf extents that are marked in `found`, each as a row of 512 voxels."""
    rows = rows_of(brick).transpose(0, 2, 4, 1, 3)[found]
    return rows.view(brick.dtype).reshape(len(rows), 512)


def fill_arrays(tree: Tree, low: Coordinate, values: "np.ndarray | None", active: "np.ndarray | None", fill: "Value | None") -> None:
    """Writes a box of voxels to dense arrays of one shape, either of which may be left out. With `fill`, inactive voxels have that value.

    Raises RangeError if the dtype of `values` doesn't hold one of them.
    """
    some = values if values is not None else active
    assert some is not None
    target = Target(tree, low, whole(values, some.shape, tree.kind.dtype), whole(active, some.shape, np.dtype(np.bool_)), fill)
    for level in (2, 1, 0):
        target.put_tiles(level)
    target.put_leaves()
    if values is not None and target.values is not values:
        narrow(target.values, values, tree.kind.dtype)
    if active is not None and target.active is not active:
        active[...] = target.active


def whole(given: "np.ndarray | None", shape: "tuple[int, ...]", dtype: np.dtype) -> np.ndarray:
    """Returns the array itself if it has this dtype and no gaps, else a new one of this shape."""
    return given if given is not None and given.dtype == dtype and given.flags.c_contiguous else np.empty(shape, dtype)


class Target:
    """Dense arrays without gaps that are filled from a tree."""

    def __init__(self, tree: Tree, low: Coordinate, values: np.ndarray, active: np.ndarray, fill: "Value | None") -> None:
        self.tree, self.low = tree, np.array(low)
        self.only_active = fill is not None
        self.values, self.active = values, active
        values[...] = tree.background if fill is None else fill
        active[...] = False

    def put_tiles(self, level: int) -> None:
        """Writes the tiles of a level, a slice for those that follow one another along z with one value and state."""
        tiles, along_z = self.tree.tiles[level], (16, 32, 1)[level]
        codes, values, active = tiles.codes, tiles.values, tiles.active
        begins = np.ones(len(codes) + 1, np.bool_)
        begins[1:-1] = (codes[1:] != codes[:-1] + 1) | (codes[1:] % along_z == 0) | (values[1:] != values[:-1]) | (active[1:] != active[:-1])
        ends = np.flatnonzero(begins)
        first, last = ends[:-1], ends[1:] - 1
        lows = self.tree.origins(codes[first], level) - self.low
        pasts = np.minimum(self.tree.origins(codes[last], level) - self.low + SIDES[level], self.values.shape)
        meets = (lows < self.values.shape).all(axis=1) & (pasts > 0).all(axis=1)
        if self.only_active:
            meets &= active[first]
        lows, pasts, first = np.maximum(lows[meets], 0), pasts[meets], first[meets]
        rows = zip(lows.tolist(), pasts.tolist(), values[first].tolist(), active[first].tolist())
        for (x0, y0, z0), (x1, y1, z1), value, state in rows:
            self.values[x0:x1, y0:y1, z0:z1] = value
            if state:
                self.active[x0:x1, y0:y1, z0:z1] = True

    def put_leaves(self) -> None:
        """Writes the voxels of leaves."""
        leaves = self.tree.leaves
        offset = np.arange(512)
        within = offset >> 6, offset >> 3 & 7, offset & 7
        _, rows, columns = self.values.shape
        flat = within[0] * (rows * columns) + within[1] * columns + within[2]
        values, active = self.values.ravel(), self.active.ravel()
        for first, last in leaves.chunks():
            lows = self.tree.origins(leaves.codes[first:last]) - self.low
            past = lows + 8
            if (past <= 0).any(axis=1).all() or (lows >= self.values.shape).any(axis=1).all():
                continue
            starts = leaves.starts[first : last + 1] - leaves.starts[first]
            part = slice(leaves.starts[first], leaves.starts[last])
            index, state, value = leaves.index[part], leaves.active[part], leaves.values[part]
            places = spread((lows[:, 0] * rows + lows[:, 1]) * columns + lows[:, 2], starts)
            places += flat.take(index)
            every = state.all()
            keep = None if every or not self.only_active else state
            if (lows < 0).any() or (past > self.values.shape).any():
                inside = self.inside(lows, starts, index, within)
                keep = inside if keep is None else keep & inside
            if keep is not None:
                places, state, value = places[keep], state[keep], value[keep]
            values[places] = value
            active[places if every else places[state]] = True

    def inside(self, lows: np.ndarray, starts: np.ndarray, index: np.ndarray, within) -> np.ndarray:
        """Returns which voxels of leaves lie in the box."""
        found = np.ones(len(index), np.bool_)
        for axis in range(3):
            at = spread(lows[:, axis], starts) + within[axis][index]
            found &= (at >= 0) & (at < self.values.shape[axis])
        return found


def spread(numbers: np.ndarray, starts: np.ndarray) -> np.ndarray:
    """Returns each number as often as its leaf lists voxels, at least once. It is np.repeat, which takes longer."""
    made = np.zeros(starts[-1], np.int64)
    made[starts[:-1]] = np.diff(numbers, prepend=0)
    return np.cumsum(made, out=made)
