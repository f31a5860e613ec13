# SPDX-License-Identifier: Apache-2.0
"""What the grids and the views of the engine share: cells, reports, walks, and masks of their voxels."""
from __future__ import annotations

from ctypes import byref, c_int32, c_int64, c_uint32, c_uint64
from typing import TYPE_CHECKING, Callable, Iterator, NamedTuple, Sequence

import numpy as np

from . import images
from .arrays import box_of, new_grid, read_box, read_voxels
from .blocks import Cubes, Part
from .edits import fill_active, is_one_of, write_cubes, write_leaves
from .encoded import EVERYWHERE
from .forms import KINDS, Array, Bounds, Coordinate, Leaf, Value, check_bounds
from .library import Box, CensusCounts, Coord, Count, Held
from .reading import Walkable
from .walk import leaf_rows, parts_of

if TYPE_CHECKING:
    from .mask import Mask

NO_ACCESSOR = -1


class Census(NamedTuple):
    """The size of the smallest tree of a grid's cells: root blocks with a cell other than the background, inactive, and how many cubes
    of 4,096, 128 and 8 voxels along each axis have cells that differ.

    Examples
    --------
    >>> vdb.Grid.from_array(np.arange(1, 65).reshape(4, 4, 4)).census()
    Census(roots=1, upper=1, lower=1, leaf=1)
    """

    roots: int
    upper: int
    lower: int
    leaf: int


class Stored(Walkable):
    """Reads the cells of a handle of the library."""

    _held: Held

    @property
    def background(self) -> Value:
        """The value of every voxel that nothing was written to."""
        value = c_int64()
        self._held.call("background", byref(value))
        return self._value(value.value)

    @property
    def limit(self) -> int:
        """The root limit: how many root blocks may hold anything but the inactive background."""
        limit = c_uint32()
        self._held.call("limit", byref(limit))
        return limit.value

    def _cell(self, at: Coordinate) -> "tuple[Value, bool]":
        value, on = c_int64(), c_int32()
        self._held.call("get", *at, byref(value), byref(on))
        return self._value(value.value), bool(on.value)

    def _read(
        self,
        low: Coordinate,
        values: "np.ndarray | None",
        active: "np.ndarray | None",
        fill: "Value | None" = None,
        threads: "int | None" = None,
    ) -> None:
        read_box(self._held, self._kind, low, values, active, fill, threads)

    def get_many(self, at: Array) -> "tuple[np.ndarray, np.ndarray]":
        """Returns the values and the states (bool) of voxels, arrays of length n. `at` has their coordinates, integers of shape (n, 3)."""
        return read_voxels(self._held, self._kind, at)

    @property
    def count(self) -> int:
        """How many voxels are active, those of tiles too."""
        count = Count()
        self._held.call("count", byref(count))
        return count.high << 64 | count.low

    def count_in(self, bounds: Sequence[Sequence[int]]) -> int:
        """Returns how many voxels of a box are active."""
        count = Count()
        self._held.call("count_in", box(bounds), byref(count))
        return count.high << 64 | count.low

    @property
    def bounds(self) -> "Bounds | None":
        """The bounding box of the active voxels, its least and greatest coordinates, or None if no voxel is active."""
        made, found = Box(), c_int32()
        self._held.call("bounds", byref(made), byref(found))
        return (coordinate(made.min), coordinate(made.max)) if found.value else None

    def census(self) -> Census:
        """Returns the size of the smallest tree of the grid's cells."""
        census = CensusCounts()
        self._held.call("census", byref(census))
        return Census(census.roots, census.upper, census.lower, census.leaf)

    @property
    def leaf_count(self) -> int:
        """How many leaf extents, cubes of 8 voxels along each axis, have voxels that differ."""
        return self.census().leaf

    @property
    def tree_leaf_count(self) -> int:
        """How many leaves the tree has. It depends on how the voxels were written; after `prune` it is `leaf_count`."""
        count = c_uint64()
        self._held.call("leaf_count", byref(count))
        return count.value

    def leaves(self) -> "Iterator[Leaf]":
        """Yields the leaf extents whose voxels differ, in block order."""
        for origins, numbers, states in leaf_rows(self._held):
            differ = (numbers != numbers[:, :1]).any(axis=1) | (states != states[:, :1]).any(axis=1)
            values = numbers.astype(self.dtype).reshape(-1, 8, 8, 8)
            for leaf in np.flatnonzero(differ).tolist():
                x, y, z = origins[leaf].tolist()
                yield Leaf((x, y, z), values[leaf], states[leaf].reshape(8, 8, 8))

    def _parts(self) -> Iterator[Part]:
        return parts_of(self._held)

    def voxels(self, bounds: Sequence[Sequence[int]] = EVERYWHERE) -> "Iterator[tuple[Coordinate, Value]]":
        """Yields the active voxels of a box in block order, each with its value."""
        within, at, value, found = box(bounds), Coord(), c_int64(), c_int32()
        self._held.call("first_active", within, byref(at), byref(value), byref(found))
        while found.value:
            yield coordinate(at), self._value(value.value)
            self._held.call("next_active", within, byref(at), byref(value), byref(found))

    def _value(self, value: int) -> Value:
        """Returns a value of the library as one of the grid's type."""
        return bool(value) if self._kind.number == 0 else value

    def _handle(self) -> Held:
        """Returns the handle of a grid with these cells, which nobody changes."""
        raise NotImplementedError

    def select(self, values: Array) -> "Mask":
        """Returns the mask of the active voxels that have the value, or one of some values, with the image of this grid. Raises DtypeError
        or RangeError for a value that the grid can't have."""
        wanted = np.unique(self._kind.array(values))
        return self._mask(lambda found: is_one_of(found, wanted))

    def _mask(self, is_chosen: "Callable[[np.ndarray], np.ndarray]") -> "Mask":
        """Returns the mask of the active voxels whose values (int64, of any shape) are chosen."""
        from .mask import Mask

        made, whole = new_grid(KINDS["bool"], False, self.limit), [np.zeros((0, 3), np.int32)]
        for part in self._parts():
            chosen = is_chosen(part.values)
            if isinstance(part, Cubes):
                write_cubes(made, Cubes(part.low[chosen], part.side, np.ones(np.count_nonzero(chosen), np.int64)))
                continue
            chosen &= part.active
            some, every = chosen.any(axis=1), (chosen == part.active).all(axis=1)
            written = chosen[some & ~every]
            write_leaves(made, part.origins[some & ~every], written, written)
            whole.append(part.origins[some & every])
        lows = np.concatenate(whole)
        fill_active(made, new_grid(KINDS["bool"], False, self.limit), self._handle(), Cubes(lows, 8, np.ones(len(lows), np.int64)))
        made.call("prune")
        return Mask._of(made, images.kept(self._metadata, KINDS["bool"].dtype))


def box(bounds: Sequence[Sequence[int]]) -> Box:
    """Returns bounds as a box of the library. Raises DtypeError or RangeError if they are none."""
    return box_of(*check_bounds(bounds))


def coordinate(at: Coord) -> Coordinate:
    """Returns a coordinate of the library as three integers."""
    return at.x, at.y, at.z
