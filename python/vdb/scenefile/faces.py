# SPDX-License-Identifier: Apache-2.0
"""The faces of labels: the squares between a voxel of a label and a neighbour of another label or none.

They are found leaf by leaf, and along the sides of tiles. The inside of a tile costs nothing, and nothing is as large as the bounding box.
"""
from __future__ import annotations

from typing import Callable, Iterator, NamedTuple, Optional

import numpy as np

from ..blocks import OFFSETS
from ..errors import RangeError
from ..forms import KEY_SPAN, SIDES
from .tree import CODE_BITS, Tree, pack_keys

#: How many leaves, or sides of tiles, are handled at once.
CHUNK = 2048
#: How many bits a code has below that of a leaf extent, a lower extent and an upper extent.
SHIFTS = tuple(CODE_BITS[0] - bits for bits in CODE_BITS)
#: A call with how many voxels of leaves are done, and of how many.
Show = Callable[[int, int], object]


class Faces(NamedTuple):
    """Rectangles between voxels, in voxels: least corners (n x 3, int64), sides (n x 2, int32), directions (n, uint8), labels (n, int32).

    A corner has the coordinates of the voxel of which it is the least one. Direction 2 a goes to lesser coordinates along axis a, and
    2 a + 1 to greater ones, out of the label. The sides lie along the axes a + 1 and a + 2, counted in a circle. A label is its place among
    the values that were asked for.
    """

    low: np.ndarray
    sides: np.ndarray
    direction: np.ndarray
    label: np.ndarray


def faces(tree: Tree, values: np.ndarray, most: int, unit: bool = True, outer: bool = False, show: "Optional[Show]" = None) -> Faces:
    """Returns the faces of labels, those of each one closed by themselves.

    `values` are the labels (n, rising); a voxel of another value is empty, as an inactive one. Without `unit`, a side of a tile may be one
    large square. With `outer`, only faces between a label and an empty voxel are returned. Raises RangeError for more than `most` faces.
    """
    parts, count = [], 0
    for part in Solid(tree, values, outer).squares(show):
        count += int((part.sides[:, 0].astype(np.int64) ** 2).sum()) if unit else len(part.low)
        if count > most:
            raise RangeError(f"the labels have more than max_faces = {most:,} faces")
        parts.append(split(part) if unit else part)
    none = Faces(np.zeros((0, 3), np.int64), np.zeros((0, 2), np.int32), np.zeros(0, np.uint8), np.zeros(0, np.int32))
    return Faces(*(np.concatenate(column) for column in zip(none, *parts)))


def split(part: Faces) -> Faces:
    """Returns squares as squares of one voxel."""
    side = part.sides[:, 0].astype(np.int64)
    if (side == 1).all():
        return part
    counts = side**2
    whole = np.repeat(np.arange(len(side)), counts)
    place = np.arange(len(whole)) - np.repeat(np.cumsum(counts) - counts, counts)
    low, axis = part.low[whole], part.direction[whole] // 2
    rows = np.arange(len(whole))
    low[rows, (axis + 1) % 3] += place // side[whole]
    low[rows, (axis + 2) % 3] += place % side[whole]
    return Faces(low, np.ones((len(whole), 2), np.int32), part.direction[whole], part.label[whole])


class Solid:
    """A tree whose cells are numbers: 0 for an empty voxel, and 1 more than the label's place for any other."""

    def __init__(self, tree: Tree, values: np.ndarray, outer: bool) -> None:
        self.tree, self.outer = tree, outer
        self.dtype = np.min_scalar_type(len(values))
        self.cells = numbers_of(tree.leaves.values, tree.leaves.active, values, self.dtype)
        self.tiles = [numbers_of(tiles.values, tiles.active, values, self.dtype) for tiles in tree.tiles]
        self.roots = pack_keys(tree.roots)

    def squares(self, show: "Optional[Show]" = None) -> Iterator[Faces]:
        """Yields all faces, those of tiles first, as squares."""
        for level in (2, 1, 0):
            for part in chunked(np.flatnonzero(self.tiles[level]), CHUNK):
                lows = self.tree.origins(self.tree.tiles[level].codes[part], level)
                for direction in range(6):
                    yield from self.tile_sides(lows, level, direction, self.tiles[level][part])
        count = len(self.tree.leaves)
        for first in range(0, count, CHUNK):
            last = min(first + CHUNK, count)
            yield from self.leaf_faces(first, last)
            if show:
                show(512 * last, 512 * count)

    def differs(self, own: np.ndarray, other: np.ndarray) -> np.ndarray:
        """Returns where a voxel has a face to another one."""
        return (own != 0) & ((other == 0) if self.outer else (own != other))

    def tile_sides(self, lows: np.ndarray, level: int, direction: int, own: np.ndarray) -> Iterator[Faces]:
        """Yields the faces in a direction of cubes of one number each, whose least corners are `lows` (n x 3)."""
        axis, side = direction >> 1, SIDES[level]
        past = lows.copy()
        past[:, axis] += side if direction & 1 else -side
        numbers, leaf, divided = self.look(past, level)
        found = ~divided & self.differs(own, numbers)
        corners = lows[found]
        corners[:, axis] += side * (direction & 1)
        yield made(corners, side, direction, own[found])
        if level == 0:
            for rows in chunked(np.flatnonzero(divided), CHUNK):
                cells = self.tree.leaves.expanded(self.cells, leaf[rows]).reshape(-1, 8, 8, 8)
                other = cells.take(0 if direction & 1 else 7, axis=axis + 1)
                where, u, v = np.nonzero(self.differs(own[rows, None, None], other))
                corners = lows[rows[where]]
                corners[:, axis] += 8 * (direction & 1)
                corners[:, [it for it in range(3) if it != axis]] += np.stack([u, v], axis=1)
                yield made(corners, 1, direction, own[rows[where]])
            return
        smaller, count = SIDES[level - 1], side // SIDES[level - 1]
        steps = np.indices((count, count)).reshape(2, -1).T * smaller
        for rows in chunked(np.flatnonzero(divided), max(1, 16 * CHUNK // len(steps))):
            corners = np.repeat(lows[rows], len(steps), axis=0)
            corners[:, [it for it in range(3) if it != axis]] += np.tile(steps, (len(rows), 1))
            corners[:, axis] += (side - smaller) * (direction & 1)
            yield from self.tile_sides(corners, level - 1, direction, np.repeat(own[rows], len(steps)))

    def leaf_faces(self, first: int, last: int) -> Iterator[Faces]:
        """Yields the faces of the voxels of leaves, from `first` to before `last`."""
        own = np.arange(first, last)
        origins = self.tree.origins(self.tree.leaves.codes[first:last])
        beside = [self.look(origins + step, 0) for step in STEPS]
        needed = np.unique(np.concatenate([own, *(leaf[divided] for _, leaf, divided in beside)]))
        cells = self.tree.leaves.expanded(self.cells, needed).reshape(-1, 8, 8, 8)
        mine = cells[np.searchsorted(needed, own)]
        for direction, (numbers, leaf, divided) in enumerate(beside):
            axis, upper = direction >> 1, direction & 1
            border = np.empty((len(own), 8, 8), self.dtype)
            border[...] = numbers[:, None, None]
            border[divided] = cells[np.searchsorted(needed, leaf[divided])].take(0 if upper else 7, axis=axis + 1)
            other = np.roll(mine, -1 if upper else 1, axis=axis + 1)
            np.moveaxis(other, axis + 1, 0)[7 if upper else 0] = border
            place = np.flatnonzero(self.differs(mine, other))
            corners = origins[place >> 9] + OFFSETS[place & 511]
            corners[:, axis] += upper
            yield made(corners, 1, direction, mine.ravel()[place])

    def look(self, lows: np.ndarray, level: int) -> "tuple[np.ndarray, np.ndarray, np.ndarray]":
        """Looks at cubes of a level by their least corners (n x 3). Returns the number of each that is constant, the leaf of each that is
        one, and which are divided."""
        code = self.codes(lows)
        numbers = np.zeros(len(code), self.dtype)
        for larger in range(level, 3):
            place, found = search(self.tree.tiles[larger].codes, code >> SHIFTS[larger])
            numbers[found] = self.tiles[larger][place[found]]
        leaf, divided = search(self.tree.leaves.codes, code)
        if level:
            bits = SHIFTS[level]
            ends = code >> bits << bits, (code >> bits) + 1 << bits
            divided = holds(self.tree.leaves.codes, *ends)
            for smaller in range(level):
                divided |= holds(self.tree.tiles[smaller].codes, *(end >> SHIFTS[smaller] for end in ends))
        return numbers, leaf, divided

    def codes(self, lows: np.ndarray) -> np.ndarray:
        """Returns the codes of the leaf extents with these least corners (n x 3), -1 outside root blocks."""
        keys = lows >> 12
        inside = ((keys >= -KEY_SPAN) & (keys < KEY_SPAN)).all(axis=1)
        place, found = search(self.roots, pack_keys(keys))
        code = place << 27
        for axis, (upper, lower) in enumerate(((22, 8), (17, 4), (12, 0))):
            code |= (lows[:, axis] >> 7 & 31) << upper | (lows[:, axis] >> 3 & 15) << lower
        return np.where(found & inside, code, -1)


def numbers_of(values: np.ndarray, chosen: np.ndarray, labels: np.ndarray, dtype: np.dtype) -> np.ndarray:
    """Returns 1 more than the place of each value among labels (rising), and 0 for any other value and where it isn't chosen."""
    made = np.zeros(len(values), dtype)
    for first in range(0, len(values) if len(labels) else 0, 1 << 20):
        part = slice(first, first + (1 << 20))
        place = np.minimum(np.searchsorted(labels, values[part]), len(labels) - 1)
        found = chosen[part] & (labels[place] == values[part])
        made[part][found] = place[found] + 1
    return made


#: From the least corner of a leaf to that of the next one in each direction.
STEPS = [np.array([8 * (2 * (direction & 1) - 1) * (axis == direction >> 1) for axis in range(3)]) for direction in range(6)]


def made(low: np.ndarray, side: int, direction: int, numbers: np.ndarray) -> Faces:
    """Returns squares of one side and direction, by the numbers of their voxels."""
    label = numbers.astype(np.int32) - np.int32(1)
    return Faces(low, np.full((len(low), 2), side, np.int32), np.full(len(low), direction, np.uint8), label)


def chunked(rows: np.ndarray, most: int) -> Iterator[np.ndarray]:
    """Yields an array in parts of at most `most` rows."""
    for first in range(0, len(rows), most):
        yield rows[first : first + most]


def search(rising: np.ndarray, wanted: np.ndarray) -> "tuple[np.ndarray, np.ndarray]":
    """Returns the place of each number among rising ones, and whether it is there."""
    place = np.searchsorted(rising, wanted)
    found = place < len(rising)
    found[found] = rising[place[found]] == wanted[found]
    return place, found


def holds(rising: np.ndarray, first: np.ndarray, past: np.ndarray) -> np.ndarray:
    """Returns which ranges have one of the rising numbers."""
    return np.searchsorted(rising, first) < np.searchsorted(rising, past)
