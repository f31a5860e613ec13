# SPDX-License-Identifier: Apache-2.0
"""A set of voxels, as OpenVDB's MaskGrid is: a bool grid whose values are its states."""
from __future__ import annotations

from ctypes import byref, c_uint32
from typing import Any, Mapping, Sequence

import numpy as np

from . import images
from .arrays import new_grid
from .encoded import copied
from .engine import Stored
from .errors import RangeError
from .forms import DEFAULT_LIMIT, KINDS, Array, Coordinate, Metadata, Progress, Value, check_coordinate, check_states, kind_of_array
from .grid import Grid
from .library import Held
from .manners import no_truth
from .reading import check_grid

__all__ = ["Mask"]

BOOL = KINDS["bool"]
#: What the calls that combine values do with sets.
OF_SETS = {"maximum": "unite", "replace": "unite", "minimum": "intersect"}


class Mask(Grid):
    """A set of voxels: a bool grid in which the active voxels, and no others, are True.

    `select` and comparisons of a grid with a number return masks. A mask has all calls of a grid, and its values equal its states after each
    of them, so its array and its files show the set. Assigning True puts voxels in, and False takes them out. In a call on two grids another
    grid stands for the set of its active voxels. A scene file keeps a mask as a bool grid, so read it by `Mask(grid)`.

    Examples
    --------
    >>> mask = vdb.Mask.from_array(np.ones((4, 4, 4), bool))
    >>> mask.dilate(2)
    >>> mask.count, int(mask[...].sum())
    (304, 304)
    >>> mask[0:4, 0:4, 0:2] = False
    >>> mask.count, (mask | vdb.Grid.from_array(np.ones((1, 1, 1), int))).count
    (272, 273)
    >>> grid = vdb.Grid.from_array(np.array([[[1, 3, 3, 5]]]))
    >>> grid == 3
    <Mask bool, background False, 2 active voxels in (0, 0, 1) to (0, 0, 2)>
    """

    def __init__(self, grid: "Stored | None" = None, limit: "int | None" = None, metadata: "Mapping[str, str] | None" = None) -> None:
        """Makes the mask of the active voxels of a grid or a view, or an empty one. Limit and metadata are those of the grid unless given."""
        if grid is not None:
            check_grid(grid)
        pairs = grid.metadata if grid is not None and metadata is None else metadata or {}
        self._kind, self._metadata = BOOL, Metadata(images.masked(pairs, grid.kind if grid is not None else "bool"))
        self._held = new_grid(BOOL, False, DEFAULT_LIMIT if limit is None else limit) if grid is None else mask_of(grid._handle(), limit)

    @classmethod
    def from_array(
        cls,
        values: Array,
        active: "Array | None" = None,
        origin: Sequence[int] = (0, 0, 0),
        background: "Value | None" = None,
        limit: int = DEFAULT_LIMIT,
        metadata: "Mapping[str, str] | None" = None,
        progress: "Progress | None" = None,
    ) -> "Mask":
        """Makes a mask from a dense array with the axes x, y, z: of its True voxels, or of those whose integer differs from the background,
        or of the active ones if states are given. Arguments and errors are those of `Grid.from_array`."""
        values = np.asarray(values)
        kind = kind_of_array(values)
        states = values != kind.check(background or kind.dtype.type(0), "background") if active is None else check_states(active, values.shape)
        return super().from_array(states, None, origin, None, limit, metadata, progress)  # type: ignore[return-value]

    @property
    def active(self) -> "Mask":  # type: ignore[override]
        """The states, which are the values: the mask itself."""
        return self

    def set_value(self, at: Coordinate, value: Value) -> None:
        """Puts a voxel into the mask, or takes it out."""
        at = check_coordinate(at)
        self.fill((at, at), value)

    def set_active(self, at: Coordinate, active: bool) -> None:
        """Puts a voxel into the mask, or takes it out."""
        self.set_value(at, active)

    def _pair(self, values: Any, active: Any) -> "tuple[Any, Any]":
        made = values & active
        return made, made

    def _kept(self, held: Held) -> Held:
        return mask_of(held)

    def _combine(self, name: str, other: Grid, ignore_geometry: bool) -> None:
        with self._held.lock:
            made = Grid._of(copied(self._held), self._metadata)
            made._combine(OF_SETS.get(name, name), other, ignore_geometry)
            self._swap(mask_of(made._held))
            self._metadata = made._metadata

    __bool__ = no_truth

    def complement(self, bounds: "Sequence[Sequence[int]]") -> "Mask":
        """Returns the mask of the voxels of a box that aren't in this one."""
        made = Mask(None, self.limit, self._metadata)
        made.fill(bounds, True)
        return made - self

    def __invert__(self) -> "Mask":
        """Returns the mask of the voxels of the image that aren't in this one. Raises RangeError without an image."""
        image = images.Image.of(self._metadata)
        if image is None:
            raise RangeError("all voxels outside a mask without an image are too many: use mask.complement(bounds)")
        return self.complement(image.bounds) if image.bounds else self.copy()


def mask_of(held: Held, limit: "int | None" = None) -> Held:
    """Returns a bool grid that is True where a grid is active, and False elsewhere. Its limit is that of the grid unless given."""
    if limit is None:
        found = c_uint32()
        held.call("limit", byref(found))
        limit = found.value
    whole, made = new_grid(BOOL, True, limit), new_grid(BOOL, False, limit)
    whole.call_with("unite", held)
    made.call_with("replace", whole)
    return made
