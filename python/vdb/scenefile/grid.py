# SPDX-License-Identifier: Apache-2.0
"""A grid: a value and a state for each voxel, with a root limit and metadata."""
from __future__ import annotations

from typing import Any, Callable, Iterator, Mapping, NamedTuple, Sequence, Type, TypeVar

import numpy as np

from .. import images
from ..blocks import Cubes, Part, Rows
from ..errors import RootLimitError
from ..forms import (
    DEFAULT_LIMIT, KINDS, SIDES, Array, Bounds, Coordinate, Kind, Leaf, Metadata, Progress, Value, check_box, check_limit, check_states, kind_of,
    kind_of_array,
)  # fmt: skip
from ..manners import no_truth
from ..reading import Walkable, check_grid
from .dense import fill_arrays, tree_of
from .tree import Tree, empty_tree

__all__ = ["Grid", "Mask", "Tile"]

G = TypeVar("G", bound="Grid")


class Tile(NamedTuple):
    """A tile: the least coordinates, how many voxels it has along each axis (8, 128 or 4,096), its value and its state.

    Examples
    --------
    >>> list(scenefile.Grid.from_array(np.full((8, 8, 8), 5)).tiles())
    [Tile(origin=(0, 0, 0), side=8, value=5, active=True)]
    """

    origin: Coordinate
    side: int
    value: Value
    active: bool


class Grid(Walkable):
    """A sparse grid of booleans or integers over all coordinates of 32 bits, as a scene file has it.

    An index is three integers or slices. They are coordinates in voxels, also negative ones; a slice includes its start and not its stop.
    An open end of a slice goes to the bounding box of the active voxels, and `...` is that box. `grid[...]` are values, and
    `grid.active[...]` states. The voxels of a grid don't change. Its root limit and metadata do.

    Examples
    --------
    >>> grid = scenefile.Grid.from_array(np.array([[[5, 6]]]), origin=(1, 2, 3))
    >>> grid[1, 2, 4], grid.count, grid.bounds
    (6, 2, ((1, 2, 3), (1, 2, 4)))
    """

    def __init__(
        self,
        kind: Any,
        background: "Value | None" = None,
        limit: int = DEFAULT_LIMIT,
        metadata: "Mapping[str, str] | None" = None,
    ) -> None:
        """Makes a grid that holds its background everywhere, inactive.

        `kind` is "bool", "i32" or "i64", or a NumPy dtype such as np.int32: the grid has the narrowest type that holds it. `background` is
        False or 0 unless given; `limit` says how many root blocks may hold anything else, 1 to 65,536. `metadata` are pairs that a scene
        file keeps. Raises DtypeError, RangeError, TextError or LimitError for a wrong argument.
        """
        form = kind_of(kind)
        value = form.dtype.type(0).item() if background is None else form.check(background, "background")
        self._tree = empty_tree(form, value)
        self._limit = check_limit(limit)
        self._metadata = Metadata(metadata)

    @classmethod
    def _of(cls: "Type[G]", tree: Tree, limit: int, metadata: "Mapping[str, str] | None" = None) -> "G":
        made = cls.__new__(cls)
        made._tree, made._metadata = tree, Metadata(metadata)
        made.limit = limit
        return made

    @classmethod
    def from_array(
        cls,
        values: Array,
        active: "Array | None" = None,
        origin: Sequence[int] = (0, 0, 0),
        background: "Value | None" = None,
        limit: int = DEFAULT_LIMIT,
        metadata: "Mapping[str, str] | None" = None,
        progress: "Progress | None" = None,
    ) -> "Grid":
        """Makes a grid from a dense array with the axes x, y, z.

        `values` has the dtype bool (a bool grid), an integer of at most 32 bits signed or 16 bits unsigned (i32), or int64
        or uint32 (i64). `active` is a bool array of the same shape; without it, each voxel whose value differs from the
        background is active. `origin` is the coordinate of `values[0, 0, 0]`. Outside the array voxels are the background,
        inactive. `progress` is called with the number of voxels that are done, and of all.

        Raises DtypeError for another dtype, and RootLimitError if the grid needs more root blocks than `limit`. Raises
        RangeError for another shape, for coordinates outside 32 bits, or for a wrong background or limit.
        """
        values = np.asarray(values)
        form = kind_of_array(values)
        background = cls(form.word, background, limit).background
        low = check_box(origin, values.shape)
        states = None if active is None else check_states(active, values.shape)
        return cls._of(tree_of(form, values, states, low, background, progress), limit, metadata)

    @property
    def _kind(self) -> Kind:  # type: ignore[override]
        return self._tree.kind

    @property
    def background(self) -> Value:
        """The value of every voxel that nothing was written to."""
        return self._tree.background

    @property
    def limit(self) -> int:
        """The root limit, 1 to 65,536: how many root blocks may hold anything but the inactive background.

        Setting it raises RootLimitError if the grid needs more, and DtypeError or RangeError for another number.
        """
        return self._limit

    @limit.setter
    def limit(self, limit: int) -> None:
        limit = check_limit(limit)
        if self.root_blocks > limit:
            reason = f"the grid needs {self.root_blocks:,} root blocks, and its limit is {limit:,}"
            raise RootLimitError(reason, self.root_blocks, limit)
        self._limit = limit

    @property
    def metadata(self) -> Metadata:
        """The metadata pairs, a mapping of keys to texts that checks what is set."""
        return self._metadata

    @metadata.setter
    def metadata(self, pairs: Mapping[str, str]) -> None:
        self._metadata = Metadata(pairs)

    @property
    def root_blocks(self) -> int:
        """How many root blocks hold anything but the inactive background."""
        return len(self._tree.roots)

    @property
    def leaf_count(self) -> int:
        """How many leaf extents have voxels that differ."""
        return len(self._tree.leaves)

    @property
    def tile_counts(self) -> "dict[int, int]":
        """How many tiles there are of 8, 128 and 4,096 voxels along each axis, active or not, but for the background."""
        return {side: len(tiles) for side, tiles in zip(SIDES, self._tree.tiles)}

    @property
    def count(self) -> int:
        """How many voxels are active, those of active tiles too."""
        return self._tree.count()

    @property
    def bounds(self) -> "Bounds | None":
        """The bounding box of the active voxels, its least and greatest coordinates, or None if no voxel is active."""
        return self._tree.bounds()

    def _cell(self, at: Coordinate) -> "tuple[Value, bool]":
        return self._tree.find(*at)

    def _read(
        self,
        low: Coordinate,
        values: "np.ndarray | None",
        active: "np.ndarray | None",
        fill: "Value | None" = None,
        threads: "int | None" = None,
    ) -> None:
        fill_arrays(self._tree, low, values, active, fill)

    def _parts(self) -> Iterator[Part]:
        for codes, values, active in self._tree.rows():
            yield Rows(self._tree.origins(codes).astype(np.int32), values, active)
        for level, tiles in enumerate(self._tree.tiles):
            if tiles.active.any():
                lows = self._tree.origins(tiles.codes[tiles.active], level).astype(np.int32)
                yield Cubes(lows, SIDES[level], tiles.values[tiles.active])

    def leaves(self) -> Iterator[Leaf]:
        """Yields the leaf extents whose voxels differ, in block order."""
        for codes, values, active in self._tree.rows():
            for (x, y, z), row, states in zip(self._tree.origins(codes).tolist(), values, active):
                yield Leaf((x, y, z), row.reshape(8, 8, 8), states.reshape(8, 8, 8))

    def tiles(self) -> Iterator[Tile]:
        """Yields the tiles: those of 4,096 voxels along each axis, then 128, then 8, each in block order."""
        for level in (2, 1, 0):
            tiles, side = self._tree.tiles[level], SIDES[level]
            origins = self._tree.origins(tiles.codes, level).tolist()
            for (x, y, z), value, active in zip(origins, tiles.values.tolist(), tiles.active.tolist()):
                yield Tile((x, y, z), side, value, active)

    def copy(self: G) -> G:
        """Returns a second grid with the same cells, limit and metadata."""
        return self._of(self._tree, self._limit, self._metadata)

    __copy__ = copy

    def __deepcopy__(self: G, _memo: object) -> G:
        return self.copy()

    def __eq__(self, other: object) -> Any:
        """Returns whether the other grid has the same type, background and cells. Limits and metadata may differ. `grid == 3` is the mask
        of the active voxels that are 3, and so are `!=`, `<`, `<=`, `>` and `>=` with a number."""
        if not isinstance(other, Grid):
            return super().__eq__(other)
        return self._tree.equals(other._tree)

    def _mask(self, is_chosen: "Callable[[np.ndarray], np.ndarray]") -> "Mask":
        return Mask._of(self._tree.mask(is_chosen), self._limit, images.kept(self._metadata, KINDS["bool"].dtype))


class Mask(Grid):
    """A set of voxels: a bool grid in which the active voxels, and no others, are True. A comparison of a grid with a number makes one.

    Examples
    --------
    >>> grid = scenefile.Grid.from_array(np.array([[[5, 6, 7]]]))
    >>> (grid > 5)[...].tolist()
    [[[True, True]]]
    """

    def __init__(self, grid: "Grid | None" = None, limit: "int | None" = None, metadata: "Mapping[str, str] | None" = None) -> None:
        """Makes the mask of the active voxels of a grid, or an empty one. Limit and metadata are those of the grid unless given."""
        if grid is None:
            grid = Grid("bool", limit=DEFAULT_LIMIT if limit is None else limit, metadata=metadata)
        check_grid(grid)
        pairs = grid.metadata if metadata is None else metadata
        super().__init__("bool", metadata=images.masked(pairs, grid.kind))
        self._tree = grid._tree.mask(lambda values: np.ones(values.shape, np.bool_))
        self.limit = grid.limit if limit is None else limit

    @classmethod
    def from_array(
        cls,
        values: Array,
        active: "Array | None" = None,
        origin: Sequence[int] = (0, 0, 0),
        background: "Value | None" = None,
        limit: int = DEFAULT_LIMIT,
        metadata: "Mapping[str, str] | None" = None,
        progress: "Progress | None" = None,
    ) -> "Mask":
        """Makes a mask from a dense array with the axes x, y, z: of its True voxels, or of those whose integer differs from the background,
        or of the active ones if states are given. Arguments and errors are those of `Grid.from_array`."""
        return cls(Grid.from_array(values, active, origin, background, limit, metadata, progress), metadata=metadata)

    __bool__ = no_truth
