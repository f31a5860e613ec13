# SPDX-License-Identifier: Apache-2.0
"""The voxels of a grid in memory: leaves and tiles as arrays, in block order.

A leaf keeps only the voxels that a file lists: those that aren't the inactive background. So a grid takes about as much
memory as its file has bytes. A block has a code, an integer that rises in block order: the place of its root block in the
table of root blocks, then the entry of the upper node (15 bits), then the entry of the lower node (12 bits).
"""
from __future__ import annotations

from dataclasses import dataclass
from typing import Callable, Iterator

import numpy as np

from ..forms import ENTRIES, KEY_SPAN, KINDS, SIDES, Bounds, Kind

#: How many bits a code has below its root block's place, for leaf extents, lower extents and upper extents.
CODE_BITS = (27, 15, 0)
#: How many listed voxels are handled at once: their arrays stay in the processor's cache and are soon allocated.
CHUNK = 1 << 15
#: How many leaves are expanded at once.
LEAVES = 256


@dataclass(frozen=True)
class Tiles:
    """The tiles of one level, in block order: their codes (int64), values and states (bool)."""

    codes: np.ndarray
    values: np.ndarray
    active: np.ndarray

    def __len__(self) -> int:
        return len(self.codes)


@dataclass(frozen=True)
class Leaves:
    """The leaves, in block order, and the voxels that they list.

    Leaf i has the code `codes[i]` and lists the voxels from `starts[i]` to `starts[i + 1]` of `index` (uint16, rising in a
    leaf: x * 64 + y * 8 + z in the leaf), `active` (bool) and `values`.
    """

    codes: np.ndarray
    starts: np.ndarray
    index: np.ndarray
    active: np.ndarray
    values: np.ndarray

    def __len__(self) -> int:
        return len(self.codes)

    def counts(self) -> np.ndarray:
        """Returns how many voxels each leaf lists."""
        return np.diff(self.starts)

    def chunks(self):
        """Yields (first, last), slices of leaves that list about CHUNK voxels together."""
        return chunks(self.starts)

    def expanded(self, listed: np.ndarray, leaf: np.ndarray) -> np.ndarray:
        """Returns a number for each voxel of some leaves (n x 512), by one for each listed voxel of all leaves; 0 for other voxels."""
        counts = self.starts[leaf + 1] - self.starts[leaf]
        row = np.repeat(np.arange(len(leaf)), counts)
        place = np.arange(len(row)) + np.repeat(self.starts[leaf] - np.cumsum(counts) + counts, counts)
        made = np.zeros((len(leaf), 512), listed.dtype)
        made[row, self.index[place]] = listed[place]
        return made


@dataclass(frozen=True)
class Tree:
    """All voxels of a grid, in the one smallest form: what is constant is a tile, and the inactive background is left out.

    `roots` are the keys of the root blocks (R x 3, int64), rising by x, y, z; `tiles` those of leaf, lower and upper extents.
    """

    kind: Kind
    background: "bool | int"
    roots: np.ndarray
    leaves: Leaves
    tiles: tuple[Tiles, Tiles, Tiles]

    def origins(self, codes: np.ndarray, level: int = 0) -> np.ndarray:
        """Returns the least coordinates (N x 3, int64) of the blocks with these codes."""
        codes = codes << (CODE_BITS[0] - CODE_BITS[level])
        found = self.roots[codes >> 27] * SIDES[2]
        upper, lower = codes >> 12 & 0x7FFF, codes & 0xFFF
        for axis in range(3):
            found[:, axis] += (upper >> 10 - 5 * axis & 31) * SIDES[1] + (lower >> 8 - 4 * axis & 15) * SIDES[0]
        return found

    def rows(self) -> "Iterator[tuple[np.ndarray, np.ndarray, np.ndarray]]":
        """Yields leaves, chunk by chunk: their codes (n), and the values and states (n x 512) of all their voxels."""
        leaves = self.leaves
        for first in range(0, len(leaves), LEAVES):
            last = min(first + LEAVES, len(leaves))
            part = slice(leaves.starts[first], leaves.starts[last])
            leaf = np.repeat(np.arange(last - first), np.diff(leaves.starts[first : last + 1]))
            values, active = np.full((last - first, 512), self.background, self.kind.dtype), np.zeros((last - first, 512), np.bool_)
            values[leaf, leaves.index[part]] = leaves.values[part]
            active[leaf, leaves.index[part]] = leaves.active[part]
            yield leaves.codes[first:last], values, active

    def equals(self, other: "Tree") -> bool:
        """Returns whether another tree has the same type, background and voxels."""
        if (self.kind, self.background) != (other.kind, other.background):
            return False
        pairs = [(self.roots, other.roots), *zip(columns(self.leaves), columns(other.leaves))]
        pairs += [pair for mine, theirs in zip(self.tiles, other.tiles) for pair in zip(columns(mine), columns(theirs))]
        return all(np.array_equal(mine, theirs) for mine, theirs in pairs)

    def find(self, x: int, y: int, z: int) -> "tuple[bool | int, bool]":
        """Returns the value and the state of a voxel."""
        place = place_of(pack_keys(self.roots), pack_keys(np.array([[x >> 12, y >> 12, z >> 12]]))[0])
        if place is None:
            return self.background, False
        code = place << 27 | (x >> 7 & 31) << 22 | (y >> 7 & 31) << 17 | (z >> 7 & 31) << 12
        code |= (x >> 3 & 15) << 8 | (y >> 3 & 15) << 4 | z >> 3 & 15
        for level, tiles in enumerate(self.tiles):
            at = place_of(tiles.codes, code >> CODE_BITS[0] - CODE_BITS[level])
            if at is not None:
                return tiles.values[at].item(), bool(tiles.active[at])
        leaves, leaf = self.leaves, place_of(self.leaves.codes, code)
        if leaf is not None:
            first, last = leaves.starts[leaf], leaves.starts[leaf + 1]
            at = place_of(leaves.index[first:last], (x & 7) << 6 | (y & 7) << 3 | z & 7)
            if at is not None:
                return leaves.values[first + at].item(), bool(leaves.active[first + at])
        return self.background, False

    def count(self) -> int:
        """Returns how many voxels are active, those of tiles too."""
        found = int(np.count_nonzero(self.leaves.active))
        return found + sum(int(np.count_nonzero(tiles.active)) * side**3 for tiles, side in zip(self.tiles, SIDES))

    def bounds(self) -> "Bounds | None":
        """Returns the bounding box of the active voxels, or None if there are none."""
        boxes = []
        for level, tiles in enumerate(self.tiles):
            lows = self.origins(tiles.codes[tiles.active], level)
            if len(lows):
                boxes.append((lows.min(axis=0), lows.max(axis=0) + SIDES[level] - 1))
        if self.leaves.active.any():
            boxes.append(self._leaf_bounds())
        if not boxes:
            return None
        low = np.min([low for low, _ in boxes], axis=0).tolist()
        high = np.max([high for _, high in boxes], axis=0).tolist()
        return (low[0], low[1], low[2]), (high[0], high[1], high[2])

    def _leaf_bounds(self) -> "tuple[np.ndarray, np.ndarray]":
        """Returns the bounding box of the active voxels of leaves, of which there is one at least.

        Along each axis only the first and the last leaves with an active voxel have to be looked into.
        """
        leaves = self.leaves
        some = np.flatnonzero(np.logical_or.reduceat(leaves.active, leaves.starts[:-1]))
        origins = self.origins(leaves.codes[some])
        low, high = origins.min(axis=0), origins.max(axis=0)
        for axis in range(3):
            first = self._within(some[origins[:, axis] == low[axis]], axis)
            last = self._within(some[origins[:, axis] == high[axis]], axis)
            low[axis] += first.min()
            high[axis] += last.max()
        return low, high

    def _within(self, chosen: np.ndarray, axis: int) -> np.ndarray:
        """Returns the parts along an axis, 0 to 7, of the active voxels of the chosen leaves."""
        leaves = self.leaves
        firsts, counts = leaves.starts[chosen], leaves.starts[chosen + 1] - leaves.starts[chosen]
        places = np.arange(counts.sum()) + np.repeat(firsts - np.cumsum(counts) + counts, counts)
        return leaves.index[places[leaves.active[places]]] >> 6 - 3 * axis & 7

    def mask(self, is_chosen: "Callable[[np.ndarray], np.ndarray]") -> "Tree":
        """Returns the tree of a mask: its active voxels, and no others, are True. They are those whose values, of any shape, are chosen."""
        none = np.zeros(0, np.int64)
        whole, codes, counts, numbers = [none], [none], [none], [np.zeros(0, np.uint16)]
        for some, values, active in self.rows():
            chosen = active & is_chosen(values)
            every = chosen.all(axis=1)
            listed = chosen.any(axis=1) & ~every
            whole.append(some[every])
            codes.append(some[listed])
            counts.append(np.count_nonzero(chosen[listed], axis=1))
            numbers.append((np.flatnonzero(chosen[listed]) & 511).astype(np.uint16))
        found: "list[np.ndarray]" = []
        carried = np.concatenate(whole)
        for level, tiles in enumerate(self.tiles):
            made = trues(np.sort(np.concatenate([carried, tiles.codes[tiles.active & is_chosen(tiles.values)]])))
            made, larger = collapse(made, level) if level < 2 else (made, made)
            found.append(made.codes)
            carried = larger.codes
        places = [np.concatenate(codes), *found]
        bits = [CODE_BITS[0], *CODE_BITS]
        used = np.unique(np.concatenate([part >> bit for part, bit in zip(places, bits)]))
        leaf_codes, *tile_codes = (np.searchsorted(used, part >> bit) << bit | part & (1 << bit) - 1 for part, bit in zip(places, bits))
        index = np.concatenate(numbers)
        starts = np.concatenate([[0], np.cumsum(np.concatenate(counts), dtype=np.int64)])
        states = np.ones(len(index), np.bool_)
        small, middle, large = map(trues, tile_codes)
        return Tree(KINDS["bool"], False, self.roots[used], Leaves(leaf_codes, starts, index, states, states), (small, middle, large))


def columns(part: "Tiles | Leaves") -> "list[np.ndarray]":
    """Returns the arrays of tiles or leaves."""
    return list(vars(part).values())


def chunks(starts: np.ndarray):
    """Yields (first, last) of runs of leaves of about CHUNK voxels, where leaf i begins at voxel `starts[i]`."""
    inner = np.searchsorted(starts, np.arange(0, starts[-1], CHUNK))
    cuts = np.unique(np.append(inner, len(starts) - 1)).tolist()
    yield from zip(cuts[:-1], cuts[1:])


def place_of(sorted_codes: np.ndarray, code: int) -> "int | None":
    """Returns the place of a code among rising ones, or None if it isn't there."""
    at = int(np.searchsorted(sorted_codes, code))
    return at if at < len(sorted_codes) and sorted_codes[at] == code else None


def pack_keys(keys: np.ndarray) -> np.ndarray:
    """Returns the keys of root blocks (N x 3) as integers (N, int64) of the same order."""
    x, y, z = (keys + KEY_SPAN).T
    return x << 40 | y << 20 | z


def empty_tree(kind: Kind, background: "bool | int") -> Tree:
    """Returns the voxels of a grid that holds its background everywhere, inactive."""
    none = np.zeros(0, np.int64)
    tiles = Tiles(none, np.zeros(0, kind.dtype), np.zeros(0, np.bool_))
    leaves = Leaves(none, np.zeros(1, np.int64), np.zeros(0, np.uint16), tiles.active, tiles.values)
    return Tree(kind, background, np.zeros((0, 3), np.int64), leaves, (tiles, tiles, tiles))


def collapse(tiles: Tiles, level: int) -> "tuple[Tiles, Tiles]":
    """Splits the tiles of a level: those that stay, and the tiles of the next level that constant nodes become."""
    bits, most = (12, ENTRIES[1]) if level == 0 else (15, ENTRIES[0])
    parents, firsts, counts = np.unique(tiles.codes >> bits, return_index=True, return_counts=True)
    stays, made = np.ones(len(tiles), np.bool_), []
    for parent, first in zip(parents[counts == most].tolist(), firsts[counts == most].tolist()):
        part = slice(first, first + most)
        if (tiles.values[part] == tiles.values[first]).all() and (tiles.active[part] == tiles.active[first]).all():
            stays[part] = False
            made.append((parent, first))
    codes = np.array([parent for parent, _ in made], np.int64)
    firsts = np.array([first for _, first in made], np.int64)
    larger = Tiles(codes, tiles.values[firsts], tiles.active[firsts])
    return Tiles(tiles.codes[stays], tiles.values[stays], tiles.active[stays]), larger


def trues(codes: np.ndarray) -> Tiles:
    """Returns active tiles of True."""
    states = np.ones(len(codes), np.bool_)
    return Tiles(codes, states, states)
