# SPDX-License-Identifier: Apache-2.0
"""Arrays that cross to and from a handle of a grid or a view: voxels by coordinates, and boxes slab by slab."""
from __future__ import annotations

import math
from ctypes import byref, c_int64, c_size_t, c_uint8
from itertools import product
from typing import Any, Iterable, Iterator, Sequence, Tuple

import numpy as np

from .errors import RangeError
from .forms import KINDS, Array, Kind, Progress, Value, check_limit, kind_of_array, narrow
from .library import BUFFER, COORD, I16, I32, I64, LIBRARY, U16, Box, Coord, GridHandle, Held, Strides
from .sharing import in_threads, processors

#: How many voxels of a dense array are written at a time, about, and how many are read: their numbers fit the processor's cache.
SLAB, BRICK = 2**21, 2**18
#: The accessor of calls on many voxels.
ACCESSOR = 0

#: By its dtype, the pointer to the elements of an array, and how the calls that make a grid of them end.
ELEMENTS: "dict[str, tuple[Any, str]]" = {
    "b1": (BUFFER, "bool"),
    "u1": (BUFFER, "u8"),
    "i2": (I16, "i16"),
    "u2": (U16, "u16"),
    "i4": (I32, "i32"),
    "i8": (I64, "i64"),
}
#: The calls that read a box, by the types of the grid and of the elements.
READS = {("bool", "b1"): "read_box_bool", ("i32", "i4"): "read_box_i32", **{(word, "i8"): "read_box" for word in KINDS}}

#: Eight listed voxels of a row, a byte each.
WHOLE_ROW = np.uint64(0x0101010101010101)

Brick = Tuple[slice, slice, slice]
#: Parts of an array: their first indices (n x 3) and those past the last.
Runs = Tuple[np.ndarray, np.ndarray]


def box_of(low: Sequence[int], high: Sequence[int]) -> Box:
    """Returns a box by its corners, both included."""
    return Box(Coord(*low), Coord(*high))


def bricks(low: Sequence[int], shape: Sequence[int], is_whole: bool = False) -> "Iterator[Brick]":
    """Yields the indices of parts of an array that begins at a coordinate, by x, then y, then z. They end between leaves, and have about
    BRICK voxels; if they are to be whole, only x is cut, and they have about SLAB voxels."""
    most, size = [0, 0, 0], 1
    for axis in (2, 1, 0):
        wanted = SLAB if is_whole else BRICK
        most[axis] = shape[axis] + 8 if is_whole and axis else max(1, wanted // max(1, size * 8**axis) // 8) * 8
        size *= min(shape[axis], most[axis])
    yield from product(*map(spans, low, shape, most))


def spans(low: int, length: int, most: int) -> "Iterator[slice]":
    """Yields the parts of an axis that begins at a coordinate: at most this many indices, a multiple of 8. They end between leaves."""
    first = 0
    while first < length:
        end = min(length, first + most - (low + first) % 8)
        yield slice(first, end)
        first = end


def plain(array: np.ndarray, dtype: "type | np.dtype | None" = None) -> np.ndarray:
    """Returns numbers as the library takes them, of a dtype if one is given: without gaps, and aligned."""
    return np.require(array, dtype, ["C", "A"])


def coordinates_of(at: Array) -> np.ndarray:
    """Returns coordinates, integers of shape (n, 3), as the library takes them. Raises DtypeError or RangeError for others."""
    given = KINDS["i32"].array(at, "coordinate")
    if given.ndim != 2 or given.shape[1] != 3:
        raise RangeError(f"coordinates have the shape {given.shape}, not (n, 3)")
    return plain(given)


def pointers(numbers: np.ndarray, states: np.ndarray) -> tuple:
    """Returns the arguments for an array of values (int64) and one of states (bool), both contiguous. An empty one is left out."""
    return numbers.ctypes.data_as(I64), numbers.size, states.view(np.uint8).ctypes.data_as(BUFFER), states.size


def read_voxels(held: Held, kind: Kind, at: Array) -> "tuple[np.ndarray, np.ndarray]":
    """Returns the values and the states of voxels."""
    at = coordinates_of(at)
    numbers, states = np.empty(len(at), np.int64), np.empty(len(at), np.bool_)
    accessor = (ACCESSOR,) if isinstance(held.handle, GridHandle) else ()
    held.call("get_many", *accessor, at.ctypes.data_as(COORD), len(at), *pointers(numbers, states))
    return numbers.astype(kind.dtype, copy=False), states


def write_voxels(held: Held, at: np.ndarray, numbers: np.ndarray, states: np.ndarray) -> None:
    """Sets the values and the states of voxels, one after another."""
    parts = plain(numbers, np.int64), np.ascontiguousarray(states)
    held.call("write_many", ACCESSOR, at.ctypes.data_as(COORD), len(at), *pointers(*parts), byref(c_size_t()))


def shape_of(part: Brick) -> "tuple[int, int, int]":
    """Returns the shape of a part of an array."""
    x, y, z = part
    return x.stop - x.start, y.stop - y.start, z.stop - z.start


class Room:
    """Arrays of a dtype, one after another in the same memory, since new memory takes longer than to fill it."""

    def __init__(self, dtype: "type | np.dtype") -> None:
        self.memory: np.ndarray = np.empty(0, dtype)

    def array(self, shape: "tuple[int, ...]") -> np.ndarray:
        """Returns an array without gaps. The one before isn't used any more."""
        size = math.prod(shape)
        if size > self.memory.size:
            self.memory = np.empty(size, self.memory.dtype)
        return self.memory[:size].reshape(shape)


def corner_of(low: Sequence[int], part: Sequence[slice]) -> "list[int]":
    """Returns the coordinate at which a part of an array begins that begins at a coordinate."""
    return [at + it.start for at, it in zip(low, part)]


def elements_of(array: np.ndarray) -> "tuple[Strides, Any, int] | None":
    """Returns the strides of an array in elements, a pointer to the first one, and how many there are from it to the last. Returns None if
    the library can't take the array as it is: its dtype is another, an axis goes backwards, or voxels share an element."""
    form = array.dtype.str[1:]
    if form not in ELEMENTS or not (array.size and array.dtype.isnative and array.flags.aligned):
        return None
    last = 0
    for step, length in sorted(zip(array.strides, array.shape)):
        if length > 1:
            if step % array.itemsize or step <= last:
                return None
            last += step * (length - 1)
    steps = (max(0, step) // array.itemsize for step in array.strides)
    return Strides(*steps), array.ctypes.data_as(ELEMENTS[form][0]), last // array.itemsize + 1


def whole_box(low: Sequence[int], shape: Sequence[int]) -> Any:
    """Returns the argument for the box of an array that begins at a coordinate."""
    return byref(box_of(low, [at + length - 1 for at, length in zip(low, shape)]))


def read_box(
    held: Held,
    kind: Kind,
    low: Sequence[int],
    values: "np.ndarray | None",
    active: "np.ndarray | None",
    fill: "Value | None" = None,
    threads: "int | None" = None,
) -> None:
    """Writes a box of voxels to dense arrays of one shape. With `fill`, inactive voxels have that value. Either array may be left out. A box
    of more than SLAB voxels is cut along x between leaves, and read by threads: so many, or one for each processor.

    Raises RangeError, after the bricks before it, if the dtype of `values` holds a value of a brick neither safely nor in fact.
    """
    some = values if values is not None else active
    assert some is not None
    count = processors(threads)
    count = count if some.size > SLAB else 1
    slabs = [*spans(low[0], some.shape[0], max(8, some.shape[0] // (4 * count) // 8 * 8))] if count > 1 else [slice(0, some.shape[0])]

    def read(view: Held, slab: slice) -> None:
        corner = (low[0] + slab.start, *low[1:])
        read_part(view, kind, corner, None if values is None else values[slab], None if active is None else active[slab], fill)

    in_threads(held, read, slabs, count)


def read_part(
    held: Held, kind: Kind, low: Sequence[int], values: "np.ndarray | None", active: "np.ndarray | None", fill: "Value | None"
) -> None:
    """Writes a box of voxels to dense arrays as `read_box` does, by one thread."""
    if active is not None:
        read_array(held, None, low, active)
    if values is None:
        return
    if fill is None:
        read_array(held, kind, low, values)
        return
    room, marks = Room(kind.dtype), Room(np.bool_)
    for part in bricks(low, values.shape):
        made, states = room.array(shape_of(part)), marks.array(shape_of(part))
        read_part(held, kind, corner_of(low, part), made, states, None)
        np.copyto(made, fill, where=~states)
        narrow(made, values[part], kind.dtype)


def read_array(held: Held, kind: "Kind | None", low: Sequence[int], array: np.ndarray) -> None:
    """Writes the values of a box of voxels to a dense array or, without the type of the grid, their states: in place if the library can."""
    taken, nothing = elements_of(array) if array.flags.writeable else None, (None, 0)
    call = READS.get((kind.word, array.dtype.str[1:])) if kind else "read_box"
    if taken and kind and call:
        held.call(call, whole_box(low, array.shape), byref(taken[0]), *taken[1:], *nothing)
    elif taken and array.dtype == np.bool_ and not kind:
        held.call("read_box", whole_box(low, array.shape), byref(taken[0]), *nothing, *taken[1:])
    else:
        room = Room(kind.dtype if kind else np.dtype(np.bool_))
        for part in bricks(low, array.shape):
            made = room.array(shape_of(part))
            read_array(held, kind, corner_of(low, part), made)
            narrow(made, array[part], made.dtype)


def write_box(held: Held, low: Sequence[int], values: "np.ndarray | None", active: "np.ndarray | None") -> None:
    """Sets the values, the states or both of a box of voxels, by x, then y, then z. An array that is left out is kept."""
    some = values if values is not None else active
    assert some is not None
    for part in bricks(low, some.shape, is_whole=True):
        numbers = np.empty(0, np.int64) if values is None else plain(values[part], np.int64)
        states = np.empty(0, np.bool_) if active is None else np.ascontiguousarray(active[part])
        _, y, z = shape = shape_of(part)
        place = whole_box(corner_of(low, part), shape), byref(Strides(y * z, z, 1))
        held.call("write_box", ACCESSOR, *place, *pointers(numbers, states), byref(c_size_t()))


def new_grid(kind: Kind, background: "Value | None", limit: int) -> Held:
    """Returns a grid that was never written. Raises DtypeError or RangeError for a wrong background or limit."""
    held = Held()
    held.call("new", kind.number, 0 if background is None else kind.check(background, "background"), check_limit(limit))
    return held


def from_elements(held: Held, low: Sequence[int], values: np.ndarray, background: Value, limit: int) -> bool:
    """Makes the grid of an array in one pass, if the library takes it as it is, or it is short. Returns whether it did."""
    taken = elements_of(values)
    if not taken and 0 < values.size <= SLAB:
        values = plain(values, kind_of_array(values).dtype)
        taken = elements_of(values)
    if not taken:
        return False
    call = f"from_box_{ELEMENTS[values.dtype.str[1:]][1]}"
    held.call(call, background, int(limit), whole_box(low, values.shape), byref(taken[0]), *taken[1:])
    return True


def from_dense(
    held: Held,
    low: Sequence[int],
    values: np.ndarray,
    active: "np.ndarray | None",
    background: Value,
    limit: int,
    progress: "Progress | None" = None,
) -> None:
    """Writes dense arrays to an empty grid: in one pass if it can, else by the leaf extents that have a voxel which is active or differs from
    the background. It then fills the leaf extents of a mask (bool values without states) that have no background. After each slab it calls
    `progress` with the number of voxels that are done, and of all."""
    if active is None and progress is None and from_elements(held, low, values, background, limit):
        return
    is_mask, done = values.dtype == np.bool_ and active is None, 0
    turn = -1 if values.flags.f_contiguous else 1  # an array in column order is cut along z, so that each slab lies in one piece
    for brick in bricks(low[::turn], values.shape[::turn], is_whole=True):
        part = brick[::turn]
        some = np.ascontiguousarray(values[part])
        listed = np.not_equal(some, background, out=np.empty(some.shape, np.bool_))
        states = listed if active is None else np.ascontiguousarray(active[part])
        corner = np.array(corner_of(low, part), np.int64)
        (begins, ends), whole = leaf_runs(corner, listed if active is None else listed | states, is_mask)
        if is_mask:
            fill_boxes(held, *boxes_of(corner, *whole), int(not background))
        if len(begins):
            steps = some.shape[1] * some.shape[2], some.shape[2], 1
            write_boxes(held, *boxes_of(corner, begins, ends), plain(some, np.int64), states, begins @ steps, Strides(*steps))
        done += some.size
        if progress:
            progress(done, values.size)
    held.call("prune")


def leaf_runs(corner: np.ndarray, listed: np.ndarray, is_mask: bool) -> "tuple[Runs, Runs]":
    """Returns two lists of runs along z of leaf extents: those with a listed voxel, and of a mask apart those with no other voxel. `corner`
    is the coordinate of `listed[0, 0, 0]`."""
    before, shape = corner % 8, np.array(listed.shape)
    x, y, z = ((before + shape + 7) // 8).tolist()
    if (before | shape % 8).any():
        padded = np.zeros((8 * x, 8 * y, 8 * z), np.bool_)
        padded[tuple(slice(first, past) for first, past in zip(before, before + shape))] = listed
        listed = padded
    rows = listed.view(np.uint64).reshape(x, 8, y, 8, z)
    some = np.bitwise_or.reduce(np.bitwise_or.reduce(rows, axis=3), axis=1) != 0
    whole = np.zeros_like(some)
    if is_mask:
        whole = np.bitwise_and.reduce(np.bitwise_and.reduce(rows, axis=3), axis=1) == WHOLE_ROW
    return runs(some & ~whole, before, shape), runs(whole, before, shape)


def runs(found: np.ndarray, before: np.ndarray, shape: np.ndarray) -> Runs:
    """Returns the runs along z of the leaf extents found, in an array of this shape that begins so many voxels past a leaf's corner."""
    x, y, z = found.shape
    padded = np.zeros((x, y, z + 2), np.bool_)
    padded[:, :, 1:-1] = found
    turns = np.argwhere(padded[:, :, 1:] != padded[:, :, :-1])  # a run begins at each even one and ends at the next
    begins, ends = turns[::2] * 8 - before, (turns[1::2] + (1, 1, 0)) * 8 - before
    return np.maximum(begins, 0), np.minimum(ends, shape)


def boxes_of(corner: np.ndarray, begins: np.ndarray, ends: np.ndarray) -> "tuple[np.ndarray, np.ndarray]":
    """Returns the corners of the boxes of runs, both included (n x 3, int32). The array of the runs begins at `corner`."""
    return (corner + begins).astype(np.int32), (corner + ends - 1).astype(np.int32)


def each_box(low: np.ndarray, high: np.ndarray) -> "Iterable[Box]":
    """Returns boxes by their corners, both included (n x 3, int32)."""
    corners = np.array(np.concatenate([low, high], axis=1), order="C")
    return (Box * len(corners)).from_buffer(corners.data)


def fill_boxes(held: Held, low: np.ndarray, high: np.ndarray, number: int) -> None:
    """Makes the voxels of boxes, which have these corners, both included (n x 3, int32), active with a value."""
    call, handle = LIBRARY.vdb_grid_fill, byref(held.handle)
    with held.lock:
        for box in each_box(low, high):
            call(handle, byref(box), number, 1)


def write_boxes(
    held: Held,
    low: np.ndarray,
    high: np.ndarray,
    numbers: np.ndarray,
    states: "np.ndarray | None",
    offsets: np.ndarray,
    strides: Strides,
) -> None:
    """Sets the voxels of boxes, which have these corners, both included (n x 3, int32), to values, and to states unless these are left out.

    Values (int64) and states (bool) are arrays without gaps of one size, in which the least voxel of each box has this offset.
    """
    marks = np.zeros(1, np.bool_) if states is None else states
    first, mark = c_int64.from_address(numbers.ctypes.data), c_uint8.from_address(marks.ctypes.data)
    call, handle, steps, written = LIBRARY.vdb_grid_write_box, byref(held.handle), byref(strides), byref(c_size_t())
    with held.lock:
        for box, at in zip(each_box(low, high), offsets.tolist()):
            left = numbers.size - at
            chosen = (mark, 0) if states is None else (byref(mark, at), left)
            call(handle, ACCESSOR, byref(box), steps, byref(first, 8 * at), left, *chosen, written)
