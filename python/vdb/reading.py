# SPDX-License-Identifier: Apache-2.0
"""What the grids of the engine, its views and the grids of scene files share: reading by slices and as dense arrays."""
from __future__ import annotations

import html
import math
from typing import TYPE_CHECKING, Any, Callable, Iterator, NamedTuple, Optional, Sequence, Union

import numpy as np

from . import blocks
from .blocks import Boxes, Labels
from .errors import ArrayTooLargeError, DtypeError, RangeError
from .forms import COORDINATE_SPAN, Bounds, Coordinate, Kind, Metadata, Progress, Value, check_bounds
from .image_view import ImageView
from .manners import Voxels

if TYPE_CHECKING:
    from .label_names import Names

#: The most bytes of the dense arrays that a grid makes unless the caller allows more.
MAX_BYTES = 2**31

#: How many voxels are read between two reports of progress, about.
SLAB = 2**24

#: An index of a grid: three integers or slices, or `...`.
Key = Any
#: Arrays for values, or for values and states, that a call fills.
Out = Union[np.ndarray, "tuple[Optional[np.ndarray], Optional[np.ndarray]]"]


class Part(NamedTuple):
    """The box of an index: its least corner, its shape in voxels, and the axes that stay, those that have a slice."""

    low: Coordinate
    shape: "tuple[int, int, int]"
    kept: "tuple[int, ...]"

    @property
    def size(self) -> int:
        """How many voxels the box has."""
        return math.prod(self.shape)

    @property
    def bounds(self) -> Bounds:
        """The corners of the box, both included, if it has a voxel."""
        (x, y, z), (width, height, depth) = self.low, self.shape
        return self.low, (x + width - 1, y + height - 1, z + depth - 1)

    @property
    def shown(self) -> "tuple[int, ...]":
        """The shape of an array of the box: the sides along the axes that stay."""
        return tuple(self.shape[axis] for axis in self.kept)


def part_of(key: Key, bounds: "Callable[[], Optional[Bounds]]") -> Part:
    """Returns the box of an index. `bounds` returns the box that open ends of slices go to, or None for an empty one."""
    parts = key if isinstance(key, tuple) else (key,)
    dots = [at for at, part in enumerate(parts) if part is Ellipsis]
    if len(dots) == 1 and len(parts) <= 4:
        parts = (*parts[: dots[0]], *[slice(None)] * (4 - len(parts)), *parts[dots[0] + 1 :])
    if len(parts) != 3:
        is_mask = isinstance(key, (Voxels, np.ndarray))
        instead = "where(mask) reads the voxels of a mask, and replace(vdb.Grid(grid.kind, background=6) | mask) makes them 6"
        given = f"{type(key).__name__}: {instead}" if is_mask else repr(key)
        raise DtypeError(f"an index is three integers or slices x, y, z, not {given}")
    is_open = any(isinstance(part, slice) and None in (part.start, part.stop) for part in parts)
    low, high = is_open and bounds() or ((0, 0, 0), (-1, -1, -1))
    (x, width), (y, height), (z, depth) = (span_of(*ends) for ends in zip(parts, low, high))
    return Part((x, y, z), (width, height, depth), tuple(axis for axis, part in enumerate(parts) if isinstance(part, slice)))


def span_of(part: "int | slice", first: int, last: int) -> "tuple[int, int]":
    """Returns the first coordinate of an index along an axis, and how many there are. Open ends go from `first` to `last`."""
    if not isinstance(part, slice):
        return check_end(part, COORDINATE_SPAN - 1), 1
    if part.step not in (None, 1):
        raise RangeError(f"a slice of a grid has the step 1, not {part.step!r}")
    start = first if part.start is None else check_end(part.start, COORDINATE_SPAN)
    stop = last + 1 if part.stop is None else check_end(part.stop, COORDINATE_SPAN)
    return start, max(0, stop - start)


def check_end(at: object, most: int) -> int:
    """Returns a coordinate of an index, or an end of a slice. Raises DtypeError or RangeError for another."""
    if isinstance(at, (bool, np.bool_)) or not isinstance(at, (int, np.integer)):
        raise DtypeError(f"an index is three integers or slices x, y, z, not {at!r}")
    if not -COORDINATE_SPAN <= at <= most:
        raise RangeError(f"the index {at} is outside 32 bits")
    return int(at)


class Readable(Voxels):
    """Reads the values and the states of a grid as NumPy does.

    An index is three integers or slices. They are coordinates in voxels, also negative ones; a slice includes its start and not its stop.
    An open end of a slice goes to the bounding box of the active voxels, and `...` is that box.
    """

    _kind: Kind
    _metadata: Metadata
    __iter__ = None  # `for` would take an index of one integer

    @property
    def bounds(self) -> "Bounds | None":
        """The bounding box of the active voxels, its least and greatest coordinates, or None if no voxel is active."""
        raise NotImplementedError

    @property
    def background(self) -> Value:
        """The value of every voxel that nothing was written to."""
        raise NotImplementedError

    @property
    def count(self) -> int:
        """How many voxels are active, those of tiles too."""
        raise NotImplementedError

    def _cell(self, at: Coordinate) -> "tuple[Value, bool]":
        """Returns the value and the state of a voxel."""
        raise NotImplementedError

    def _read(
        self,
        low: Coordinate,
        values: "np.ndarray | None",
        active: "np.ndarray | None",
        fill: "Value | None" = None,
        threads: "int | None" = None,
    ) -> None:
        """Writes a box of at least one voxel to arrays, as `to_array` says."""
        raise NotImplementedError

    @property
    def kind(self) -> str:
        """The type of values: "bool", "i32" or "i64"."""
        return self._kind.word

    @property
    def dtype(self) -> np.dtype:
        """The NumPy dtype of values: bool, int32 or int64."""
        return self._kind.dtype

    @property
    def metadata(self) -> Metadata:
        """The metadata pairs, a mapping of keys to texts that checks what is set."""
        return self._metadata

    @property
    def names(self) -> "Names":
        """The names of labels by their values, which metadata pairs keep (a copy). Setting them raises LimitError if the pairs, at most six of
        64 characters, have no room: then a table beside the file keeps them (vdb.label_names)."""
        from .label_names import of_pairs

        return of_pairs(self._metadata)

    @names.setter
    def names(self, names: "Names") -> None:
        from .label_names import put

        put(self._metadata, names)

    @property
    def image(self) -> ImageView:
        """The grid's image as an array of the file's shape and dtype, which is read part by part. Raises RangeError if the grid has none:
        `vdb.ImageView(grid, bounds)` shows a box."""
        return ImageView(self)

    @property
    def active(self) -> "Active":
        """The states, True for an active voxel, by the same indices as the values."""
        return Active(self)

    def __getitem__(self, key: Key) -> "Any":
        """Returns the value of the voxel at x, y, z, or an array of the values of a box. It has an axis for each slice.

        Raises DtypeError or RangeError for a wrong index, and ArrayTooLargeError for more than 2 GiB.
        """
        part = part_of(key, lambda: self.bounds)
        if not part.kept:
            return self._cell(part.low)[0]
        check_bytes(part.shape, part.size * self.dtype.itemsize, MAX_BYTES)
        made = np.empty(part.shape, self.dtype)
        if made.size:
            self._read(part.low, made, None)
        return made.reshape(part.shown)

    def to_array(
        self,
        bounds: "Optional[Sequence[Sequence[int]]]" = None,
        fill: "Value | None" = None,
        max_bytes: int = MAX_BYTES,
        out: "Out | None" = None,
        dtype: "Any" = None,
        progress: "Progress | None" = None,
        threads: "int | None" = None,
    ) -> "tuple[np.ndarray, np.ndarray]":
        """Returns dense arrays of values and states (bool) of a box, with the axes x, y, z.

        `bounds` are the least and greatest coordinates in voxels, both in the box: ((x0, y0, z0), (x1, y1, z1)). Without them it is the
        bounding box of the active voxels; if no voxel is active, both arrays have the shape (0, 0, 0). With `fill`, inactive voxels have
        that value in place of their own. `out` is an array for the values, or a pair for values and states, each of which may be None;
        what is given is filled and returned. `dtype` is that of the values, if it isn't that of the grid or of `out`. `progress` is called
        with the number of voxels that are read, and of all. `threads` is how many threads read a large box, one for each processor if it
        is left out; the arrays are the same for every number. A grid of `vdb.scenefile` is read by one.

        Raises ArrayTooLargeError, before anything is allocated, if the new arrays have more than `max_bytes` bytes. Raises RangeError if
        the dtype doesn't hold a value, which is named, and DtypeError or RangeError for other wrong arguments. After an error `out` may
        be filled in part.
        """
        fill = None if fill is None else self._kind.check(fill, "fill")
        box = self.bounds if bounds is None else check_bounds(bounds)
        low, shape = (0, 0, 0), (0, 0, 0)
        if box:
            low, high = box
            shape = (high[0] - low[0] + 1, high[1] - low[1] + 1, high[2] - low[2] + 1)
        values, active = out if isinstance(out, tuple) else (out, None)
        form = self._form(getattr(values, "dtype", None) if dtype is None else dtype)
        voxels = math.prod(shape)
        check_bytes(shape, voxels * ((values is None) * form.itemsize + (active is None)), max_bytes)
        values, active = room(values, shape, form, "values"), room(active, shape, np.dtype(np.bool_), "states")
        step = max(1, SLAB // max(1, shape[1] * shape[2]) // 8) * 8 if progress else max(1, shape[0])
        for first in range(0, shape[0] if voxels else 0, step):
            part = slice(first, first + step)
            self._read((low[0] + first, low[1], low[2]), values[part], active[part], fill, threads)
            if progress:
                progress(min(first + step, shape[0]) * shape[1] * shape[2], voxels)
        return values, active

    def _form(self, dtype: Any) -> np.dtype:
        """Returns the dtype for values: an integer one, or one to which the grid's converts safely. None is the grid's."""
        try:
            form = self.dtype if dtype is None else np.dtype(dtype)
        except TypeError:
            raise DtypeError(f"{dtype!r} is no dtype") from None
        if form.kind in "iu" or np.can_cast(self.dtype, form, "safe") and form.kind in "bfc":
            return form
        raise DtypeError(f"the values of an {self.kind} grid don't convert safely to {form}")

    def __array__(self, dtype: Any = None, copy: "bool | None" = None) -> np.ndarray:
        """Returns the values of the bounding box of the active voxels, a new array with the axes x, y, z."""
        if copy is False:
            raise RangeError("the values of a grid can't be an array without a copy")
        return self.to_array(dtype=dtype)[0]

    def __repr__(self) -> str:
        place = " in {} to {}".format(*self.bounds) if self.bounds else ""
        return f"<{type(self).__name__} {self.kind}, background {self.background}, {self.count:,} active voxels{place}>"

    def _repr_html_(self) -> str:
        """Returns the text of `repr`, and up to 16 x 16 voxels in the middle of the bounding box, for notebooks."""
        made = f"<p>{html.escape(repr(self)[1:-1])}</p>"
        if not self.bounds:
            return made
        middle = [(low + high) // 2 for low, high in zip(*self.bounds)]
        x, y = (max(low, at - 7) for low, at in zip(self.bounds[0][:2], middle))
        past = [min(high, at + 8) + 1 for high, at in zip(self.bounds[1], middle)]
        text = np.array2string(self[x : past[0], y : past[1], middle[2]], max_line_width=400)
        return f"{made}<p>x from {x} down, y from {y} to the right, z {middle[2]}:</p><pre>{text}</pre>"


class Walkable(Readable):
    """Reports on a grid part by part: its labels, its boxes, and the coordinates of its active voxels."""

    def _parts(self) -> "Iterator[blocks.Part]":
        """Yields the leaves in block order, then the active cubes that no leaf holds."""
        raise NotImplementedError

    def labels(self) -> Labels:
        """Returns the values of active voxels, each once and rising. The arrays are the values (n), how many voxels have each (n, int64),
        and the least and the greatest corners of their bounding boxes, both included (n x 3, int32)."""
        return blocks.labels(self._parts(), self.dtype)

    def boxes(self) -> Iterator[Boxes]:
        """Yields the active voxels as boxes of one value each, chunk by chunk: arrays of least and greatest corners, both included
        (n x 3, int32), and of values (n). A tile is one box or several, a leaf a box for each run along z. Boxes don't overlap."""
        for part in blocks.boxes(self._parts()):
            yield part._replace(values=part.values.astype(self.dtype, copy=False))

    def active_coordinates(self, rows: int = 2**16) -> Iterator[np.ndarray]:
        """Yields the coordinates of the active voxels, arrays of shape (n, 3) and dtype int32 with at most `rows` rows.

        First come the voxels of leaves, leaf by leaf in block order, then those of tiles, tile by tile. Raises RangeError for fewer rows
        than 1.
        """
        if rows < 1:
            raise RangeError(f"an array has at least 1 row, not {rows}")
        for part in blocks.coordinates(self._parts()):
            for first in range(0, len(part), rows):
                yield part[first : first + rows]


class Active:
    """The states of a grid: `grid.active[x, y, z]`, and `grid.active[x0:x1, y0:y1, z0:z1]` as an array of bools."""

    def __init__(self, grid: Readable) -> None:
        self._grid = grid

    __iter__ = None

    def __getitem__(self, key: Key) -> "Any":
        """Returns the state of a voxel, or an array of the states of a box, as an index of the grid does for values."""
        grid = self._grid
        part = part_of(key, lambda: grid.bounds)
        if not part.kept:
            return grid._cell(part.low)[1]
        check_bytes(part.shape, part.size, MAX_BYTES)
        made = np.empty(part.shape, np.bool_)
        if made.size:
            grid._read(part.low, None, made)
        return made.reshape(part.shown)

    def __array__(self, dtype: Any = None, copy: "bool | None" = None) -> np.ndarray:
        """Returns the states of the bounding box of the active voxels."""
        return np.asarray(self[...], dtype)


def check_grid(grid: object) -> None:
    """Raises DtypeError if an argument is no grid."""
    if not isinstance(grid, Readable):
        raise DtypeError(f"a grid is wanted, not {type(grid).__name__}: make one by Grid.from_array first")


def check_bytes(shape: "tuple[int, ...]", needed: int, most: int) -> None:
    """Raises ArrayTooLargeError if arrays need more bytes than the most."""
    if needed > most:
        raise ArrayTooLargeError(shape, needed, most)


def room(given: "np.ndarray | None", shape: "tuple[int, ...]", dtype: np.dtype, what: str) -> np.ndarray:
    """Returns the array that is given, or a new one. Raises DtypeError or RangeError if it has another dtype or shape."""
    if given is None:
        return np.empty(shape, dtype)
    if not isinstance(given, np.ndarray) or given.dtype != dtype:
        raise DtypeError(f"out for {what} is an array of the dtype {dtype}, not {getattr(given, 'dtype', given)!r}")
    if given.shape != shape:
        raise RangeError(f"out for {what} has the shape {given.shape}, and the box {shape}")
    return given
