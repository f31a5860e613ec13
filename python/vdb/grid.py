# SPDX-License-Identifier: Apache-2.0
"""A grid of the engine."""
from __future__ import annotations

from ctypes import byref, c_int32
from typing import Any, Mapping, Sequence, Type, TypeVar

import numpy as np

from . import images
from .arrays import box_of, coordinates_of, from_dense, new_grid, write_box, write_voxels
from .blocks import Cubes
from .edits import fill_active, mapped, write_cubes, write_leaves
from .encoded import apart, copied, packed, unpacked
from .engine import NO_ACCESSOR, Census, Stored, box
from .errors import DtypeError, RangeError
from .forms import (
    DEFAULT_LIMIT, KIND_NUMBERS, Array, Coordinate, Metadata, Progress, Value, check_bools, check_box, check_coordinate, check_state,
    check_states, kind_of, kind_of_array,
)  # fmt: skip
from .library import Held
from .reading import Active, Key, part_of

__all__ = ["Grid", "Census"]

G = TypeVar("G", bound="Grid")


class Grid(Stored):
    """A sparse grid of booleans or integers over all coordinates of 32 bits.

    An index is three integers or slices. They are coordinates in voxels, also negative ones; a slice includes its start and not its stop.
    An open end of a slice goes to the bounding box of the active voxels, and `...` is that box. `grid[...]` are values, and
    `grid.active[...]` states. Bounds are two corners, both included.

    A call that fails has changed no voxel, other than `write_many` and a write of arrays to a box. It raises OutOfMemoryError if an allocation
    fails, RootLimitError if the grid would need more root blocks than its limit, and DtypeError or RangeError for wrong arguments.
    Threads may call a grid at the same time; one of them goes on, and the others wait.

    What a file says of its image stays with the grid and with every grid that is made of it (vdb.images). Two grids of different images
    don't combine, which is a GeometryError, unless `ignore_geometry` is True. If only one has an image, the result has it.

    Examples
    --------
    >>> labels = np.zeros((9, 9, 9), np.uint8)
    >>> labels[2:5, 2:5, 2:5] = 3
    >>> grid = vdb.Grid.from_array(labels)
    >>> grid
    <Grid i32, background 0, 27 active voxels in (2, 2, 2) to (4, 4, 4)>
    >>> grid[4, 2:6, 2].tolist(), grid.active[5, 2, 2]
    ([3, 3, 3, 0], False)
    >>> grid[100, 0, -5] = 7
    >>> grid.labels().values.tolist(), grid.labels().counts.tolist()
    ([3, 7], [27, 1])
    >>> margin = grid.select(3)
    >>> margin.dilate(1)
    >>> (margin - grid).count
    54
    """

    def __init__(
        self,
        kind: Any,
        background: "Value | None" = None,
        limit: int = DEFAULT_LIMIT,
        metadata: "Mapping[str, str] | None" = None,
    ) -> None:
        """Makes a grid that holds its background everywhere, inactive.

        `kind` is "bool", "i32" or "i64", or a NumPy dtype such as np.int32: the grid has the narrowest type that holds it. `background` is
        False or 0 unless given; `limit` says how many root blocks may hold anything else, 1 to 65,536. `metadata` are pairs that a scene
        file keeps.
        """
        self._kind = kind_of(kind)
        self._metadata = Metadata(metadata)
        self._held = new_grid(self._kind, background, limit)

    @classmethod
    def _of(cls: "Type[G]", held: Held, metadata: "Mapping[str, str] | None" = None) -> "G":
        """Returns the grid of a handle, which nothing else may use from then on."""
        made, number = cls.__new__(cls), c_int32()
        held.call("kind", byref(number))
        made._held, made._kind, made._metadata = held, KIND_NUMBERS[number.value], Metadata(metadata)
        return made

    def copy(self: G) -> G:
        """Returns a second grid with the same cells, limit and metadata."""
        return self._of(copied(self._held), self._metadata)

    __copy__ = copy

    def __deepcopy__(self: G, _memo: object) -> G:
        return self.copy()

    def _handle(self) -> Held:
        return self._held

    def _swap(self, held: Held) -> None:
        """Takes the cells of a handle, and leaves the former ones there."""
        with self._held.lock:
            self._held.handle, held.handle = held.handle, self._held.handle

    def __reduce__(self) -> tuple:
        """Pickles the grid as compressed scene files: one, or those of its parts if it is too long for one. Raises SumRangeError if then a
        value less the background is outside the type."""
        return _unpickled, (apart(lambda: packed(self._held, self._metadata)), type(self))

    def __eq__(self, other: object) -> Any:
        """Returns whether the other grid has the same type, background and cells. Limits and metadata may differ. `grid == 3` is the mask
        of the active voxels that are 3, and so are `!=`, `<`, `<=`, `>` and `>=` with a number."""
        if not isinstance(other, Grid):
            return super().__eq__(other)
        return self is other or self._held.equals(other._held)

    @classmethod
    def from_array(
        cls: "Type[G]",
        values: Array,
        active: "Array | None" = None,
        origin: Sequence[int] = (0, 0, 0),
        background: "Value | None" = None,
        limit: int = DEFAULT_LIMIT,
        metadata: "Mapping[str, str] | None" = None,
        progress: "Progress | None" = None,
    ) -> "G":
        """Makes a grid from a dense array with the axes x, y, z.

        `values` has the dtype bool (a bool grid), an integer of at most 32 bits signed or 16 bits unsigned (i32), or int64 or uint32
        (i64). `active` is a bool array of the same shape; without it, each voxel whose value differs from the background is active.
        `origin` is the coordinate of `values[0, 0, 0]`. Outside the array voxels are the background, inactive. `progress` is called with the
        number of voxels that are done, and of all.

        Raises DtypeError for another dtype, and RootLimitError if the grid needs more root blocks than `limit`. Raises RangeError for
        another shape, for coordinates outside 32 bits, or for a wrong background or limit.
        """
        values = np.asarray(values)
        made = cls._of(new_grid(kind_of_array(values), background, limit), metadata)
        low = check_box(origin, values.shape)
        states = None if active is None else check_states(active, values.shape)
        from_dense(made._held, low, values, states, made.background, limit, progress)
        return made

    @property
    def metadata(self) -> Metadata:
        """The metadata pairs, a mapping of keys to texts that checks what is set."""
        return self._metadata

    @metadata.setter
    def metadata(self, pairs: Mapping[str, str]) -> None:
        self._metadata = Metadata(pairs)

    @property
    def active(self) -> "GridActive":
        """The states, True for an active voxel, by the same indices as the values. They can be set."""
        return GridActive(self)

    def __setitem__(self, key: Key, values: Array) -> None:
        """Sets the voxel at x, y, z, or the voxels of a box, and activates them.

        `values` is one for all, or an array that NumPy would broadcast to the box. Its dtype converts by NumPy's rule `safe`, or all its
        integers are in range: else DtypeError or RangeError names a value, and nothing has changed. After OutOfMemoryError or
        RootLimitError the first voxels of an array are set, by x, then y, then z.
        """
        part = part_of(key, lambda: self.bounds)
        if np.ndim(values) == 0:
            value = self._kind.check(values.item() if isinstance(values, np.ndarray) else values)
            if part.size:
                self._held.call("fill", box_of(*part.bounds), *self._pair(value, True))
        else:
            made = spread(self._kind.array(values), part.shown).reshape(part.shape)
            write_box(self._held, part.low, *self._pair(made, np.broadcast_to(np.True_, part.shape)))

    def _pair(self, values: Any, active: Any) -> "tuple[Any, Any]":
        """Returns what is written for values and states, each one or an array."""
        return values, active

    def set_value(self, at: Coordinate, value: Value) -> None:
        """Sets the value of a voxel and keeps its state."""
        self._held.call("set_value", NO_ACCESSOR, *check_coordinate(at), self._kind.check(value))

    def set_active(self, at: Coordinate, active: bool) -> None:
        """Sets the state of a voxel and keeps its value."""
        self._held.call("set_active", NO_ACCESSOR, *check_coordinate(at), check_state(active))

    def write_many(self, at: Array, values: Array, active: Array = True) -> None:
        """Sets the values and the states of voxels, one after another. `at` has their coordinates, integers of shape (n, 3); `values` and
        `active` are one for all voxels, or arrays of length n.

        Raises DtypeError or RangeError as an assignment does, before anything changes. After OutOfMemoryError or RootLimitError the voxels
        before the failed one are set.
        """
        at = coordinates_of(at)
        write_voxels(self._held, at, *self._pair(spread(self._kind.array(values), (len(at),)), check_states(active, (len(at),))))

    def write_box(self, origin: Coordinate, values: Array, active: Array = True) -> None:
        """Sets the values and the states of a box of voxels: that at `origin` to `values[0, 0, 0]`, and so on along x, y and z. `active`
        is one state for all voxels, or a bool array of the same shape.

        Raises DtypeError or RangeError, before anything changes, if a value is outside the type, the box reaches past the coordinates or
        the shapes differ. After OutOfMemoryError or RootLimitError the voxels before the failed one are set, by x, then y, then z.
        """
        values = self._kind.array(values)
        write_box(self._held, check_box(origin, values.shape), *self._pair(values, check_states(active, values.shape)))

    def fill(self, bounds: Sequence[Sequence[int]], value: Value, active: bool = True) -> None:
        """Sets the value and the state of each voxel of a box."""
        self._held.call("fill", box(bounds), *self._pair(self._kind.check(value), check_state(active)))

    def clip(self, bounds: Sequence[Sequence[int]]) -> None:
        """Sets each voxel outside a box to the background, inactive."""
        self._held.call("clip", box(bounds))

    def prune(self) -> None:
        """Makes the tree as small as its cells allow. No voxel changes."""
        self._held.call("prune")

    def voxelise(self, bounds: Sequence[Sequence[int]]) -> None:
        """Puts each active voxel of a box into a leaf. No voxel changes. It passes an inactive tile at once, so the box may be large. An
        active tile takes memory: a leaf for each cube of 8 voxels."""
        self._held.call("voxelise", box(bounds))

    def dilate(self, iterations: int = 1, progress: "Progress | None" = None, value: "Value | None" = None) -> None:
        """Activates, in each of 1 to 16 iterations, every voxel that has an active face neighbour. Values change only if `value` is given:
        a voxel that it activates gets it then.

        After each iteration it calls `progress(done, iterations)`, if that is given. The iterations are made on a copy of the grid: if one is
        interrupted by Ctrl-C or an exception of `progress`, nothing changes.
        """
        self._iterate("dilate", iterations, progress, value)

    def erode(self, iterations: int = 1, progress: "Progress | None" = None) -> None:
        """Deactivates, in each of 1 to 16 iterations, every voxel that has an inactive face neighbour. No value changes. `progress` and an
        interruption are as for `dilate`."""
        self._iterate("erode", iterations, progress)

    def _iterate(self, name: str, iterations: int, progress: "Progress | None", value: "Value | None" = None) -> None:
        """Makes a call for each iteration on a copy, which then becomes the grid. What it activates gets the value, if one is given."""
        count, made = _iterations(iterations), Held()
        number = None if value is None else self._kind.check(value)
        with self._held.lock:
            self._held.call_with("copy", made)
            for done in range(1, count + 1):
                made.call(name, 1)
                if progress:
                    progress(done, count)
            if number is not None:
                grown, valued = copied(made), new_grid(self._kind, number, self.limit)
                grown.call_with("subtract", self._held)
                valued.call_with("unite", grown)
                made.call_with("replace", valued)
            self._swap(self._kept(made))

    def _kept(self, held: Held) -> Held:
        """Returns a handle whose states a call changed, with values as this class keeps them."""
        return held

    def relabel(self, pairs: "Mapping[Any, Any]") -> "Grid":
        """Returns a copy in which each active voxel whose value is a key of `pairs` has the value of that key. All change at once, so
        {1: 2, 2: 1} exchanges two. Raises DtypeError or RangeError for a value that the grid can't have."""
        old, new = self._kind.array(list(pairs), "key").ravel(), self._kind.array(list(pairs.values())).ravel()
        order = np.argsort(old)
        old, new = old[order], new[order]
        made = Grid._of(copied(self._held), self._metadata)
        whole = [Cubes(np.zeros((0, 3), np.int32), 8, np.zeros(0, np.int64))]
        for part in self._parts():
            after = mapped(part.values, old, new)
            if isinstance(part, Cubes):
                changed = after != part.values
                write_cubes(made._held, Cubes(part.low[changed], part.side, after[changed]))
                continue
            some = ((after != part.values) & part.active).any(axis=1)
            origins, active, after, values = part.origins[some], part.active[some], after[some], part.values[some]
            first = after[np.arange(len(after)), active.argmax(axis=1)]
            is_one = ((after == first[:, None]) | ~active).all(axis=1)
            whole.append(Cubes(origins[is_one], 8, first[is_one]))
            write_leaves(made._held, origins[~is_one], np.where(active, after, values)[~is_one], None)
        lows, _, values = zip(*whole)
        cubes = Cubes(np.concatenate(lows), 8, np.concatenate(values))
        fill_active(made._held, new_grid(self._kind, self.background, self.limit), self._held, cubes)
        made.prune()
        return made

    def where(self: G, mask: "Grid", *, ignore_geometry: bool = False) -> G:
        """Returns a grid with the active voxels of this grid that are active in the mask too, which may be of another type. All others are
        the background, inactive. Limit and metadata are those of this grid."""
        made, chosen = self._of(new_grid(self._kind, self.background, self.limit), self._metadata), self.copy()
        chosen.intersect(mask, ignore_geometry=ignore_geometry)
        made.replace(chosen)
        return made

    def dilate_label(self, value: Value, iterations: int = 1) -> None:
        """Grows one label into the inactive voxels, in 1 to 16 iterations: in each, every inactive voxel with a face neighbour of the label
        that is active becomes active and gets the label. Active voxels of other values stay, and block it."""
        count, label = _iterations(iterations), self._kind.check(value)
        with self._held.lock:
            region, grown = self.select(label)._held, new_grid(self._kind, label, self.limit)
            others = copied(self._held)
            others.call_with("subtract", region)
            for _ in range(count):
                region.call("dilate", 1)
                region.call_with("subtract", others)
            grown.call_with("unite", region)
            self._held.call_with("replace", grown)

    def erode_label(self, value: Value, iterations: int = 1) -> None:
        """Shrinks one label, in 1 to 16 iterations: in each, every active voxel of the label with a face neighbour outside it becomes the
        background, inactive. Voxels of other values stay."""
        count, label = _iterations(iterations), self._kind.check(value)
        with self._held.lock:
            lost, emptied = self.select(label), new_grid(self._kind, self.background, self.limit)
            core = lost.copy()
            core.erode(count)
            lost -= core
            emptied.call_with("unite", lost._held)
            self._held.call_with("replace", emptied)
            self._held.call_with("subtract", lost._held)

    def unite(self, other: "Grid", *, ignore_geometry: bool = False) -> None:
        """Activates each voxel that is active in the other grid. No value changes, and the types may differ."""
        self._combine("unite", other, ignore_geometry)

    def subtract(self, other: "Grid", *, ignore_geometry: bool = False) -> None:
        """Deactivates each voxel that is active in the other grid. No value changes, and the types may differ."""
        self._combine("subtract", other, ignore_geometry)

    def intersect(self, other: "Grid", *, ignore_geometry: bool = False) -> None:
        """Deactivates each voxel that is inactive in the other grid. No value changes, and the types may differ."""
        self._combine("intersect", other, ignore_geometry)

    def maximum(self, other: "Grid", *, ignore_geometry: bool = False) -> None:
        """Sets each voxel and the background to the greater of its two values. A voxel that is active in either grid is active then.
        Raises KindsError if the types differ."""
        self._combine("maximum", other, ignore_geometry)

    def minimum(self, other: "Grid", *, ignore_geometry: bool = False) -> None:
        """Sets each voxel and the background to the lesser of its two values. A voxel that is active in either grid is active then.
        Raises KindsError if the types differ."""
        self._combine("minimum", other, ignore_geometry)

    def sum(self, other: "Grid", *, ignore_geometry: bool = False) -> None:
        """Sets each voxel and the background to the sum of its two values. A voxel that is active in either grid is active then. Raises
        SumRangeError if a sum is outside the type, and KindsError for booleans or if the types differ."""
        self._combine("sum", other, ignore_geometry)

    def replace(self, other: "Grid", *, ignore_geometry: bool = False) -> None:
        """Copies the value and the state of each voxel that is active in the other grid. Raises KindsError if the types differ."""
        self._combine("replace", other, ignore_geometry)

    def __ior__(self: G, other: "Grid") -> G:
        self.unite(other)
        return self

    def __iand__(self: G, other: "Grid") -> G:
        self.intersect(other)
        return self

    def __isub__(self: G, other: "Grid") -> G:
        self.subtract(other)
        return self

    def __ixor__(self: G, other: "Grid") -> G:
        self._swap((self ^ other)._held)
        return self

    def __or__(self: G, other: "Grid") -> G:
        """Returns a copy that is also active where the other grid is."""
        return self.copy().__ior__(other)

    def __and__(self: G, other: "Grid") -> G:
        """Returns a copy that is active only where the other grid is too."""
        return self.copy().__iand__(other)

    def __sub__(self: G, other: "Grid") -> G:
        """Returns a copy that is inactive where the other grid is active."""
        return self.copy().__isub__(other)

    def __xor__(self: G, other: "Grid") -> G:
        """Returns a copy that is active where exactly one of the two grids is."""
        return (self | other).__isub__(self & other)

    def __invert__(self) -> "Grid":
        """Raises DtypeError: the voxels outside a set are those of a mask in an image."""
        raise DtypeError("~ is of masks: ~vdb.Mask(grid) in an image, or vdb.Mask(grid).complement(bounds)")

    def _combine(self, name: str, other: "Grid", ignore_geometry: bool) -> None:
        """Makes a call with two handles, which must differ. Raises GeometryError if both grids have images, which differ."""
        if not isinstance(other, Grid):
            raise DtypeError(f"the other grid is a Grid, not {type(other).__name__}")
        made = self._metadata if ignore_geometry else images.agreed(self._metadata, other._metadata, self.dtype)
        second = other.copy() if other is self else other
        self._held.call_with(name, second._held)
        self._metadata = made


class GridActive(Active):
    """The states of a grid of the engine, which can be set."""

    _grid: Grid

    def __setitem__(self, key: Key, active: Array) -> None:
        """Sets the state of the voxel at x, y, z, or of the voxels of a box, and keeps their values. `active` is one state for all, or an
        array of bools that NumPy would broadcast to the box. Errors are those of an assignment of values."""
        grid = self._grid
        part = part_of(key, lambda: grid.bounds)
        states = check_bools(active)
        if states.ndim:
            made = spread(states, part.shown).reshape(part.shape)
            write_box(grid._held, part.low, None, made)
        elif part.size:
            mask = Grid("bool", limit=grid.limit)
            mask.fill(part.bounds, True)
            (grid.unite if states else grid.subtract)(mask)


def _unpickled(parts: "Sequence[bytes]", form: "Type[Grid]") -> Grid:
    """Returns the grid that `Grid.__reduce__` encoded."""
    return form._of(*unpacked(parts))


def spread(values: np.ndarray, shape: "tuple[int, ...]") -> np.ndarray:
    """Returns an array broadcast to a shape. Raises RangeError if NumPy can't."""
    try:
        return np.broadcast_to(values, shape)
    except ValueError:
        raise RangeError(f"an array of the shape {values.shape} doesn't fit the shape {shape}") from None


def _iterations(iterations: int) -> int:
    """Returns a number of iterations. Raises DtypeError or RangeError outside 1 to 16."""
    if isinstance(iterations, bool) or not isinstance(iterations, (int, np.integer)):
        raise DtypeError(f"iterations is an integer, not {iterations!r}")
    if not 1 <= iterations <= 16:
        raise RangeError(f"the number of iterations is 1 to 16, not {iterations}")
    return int(iterations)
