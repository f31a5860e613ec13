# SPDX-License-Identifier: Apache-2.0
"""Scenes of the library: their bytes, and grids lent to them and moved out of them."""
from __future__ import annotations

import zlib
from concurrent.futures import ThreadPoolExecutor
from contextlib import ExitStack, contextmanager
from ctypes import byref, c_int32, c_int64, c_uint64, create_string_buffer
from typing import Callable, Iterator, Mapping, Sequence, Tuple, TypeVar

import numpy as np

from .arrays import box_of, new_grid
from .errors import RangeError, SceneTooLongError, TooLongFault
from .forms import COORDINATE_SPAN, KIND_NUMBERS, KINDS, MAX_FILE, MAX_NAME, MAX_TEXT, Kind
from .library import BUFFER, Box, Held, SceneHandle

NAME = b"a"
Lender = Tuple[Held, Mapping[str, str]]  # a grid and its metadata
Result = TypeVar("Result")
EVERYWHERE = ((-COORDINATE_SPAN,) * 3, (COORDINATE_SPAN - 1,) * 3)


class Encoded:
    """A scene of the library."""

    def __init__(self, data: "bytes | bytearray | None" = None) -> None:
        """Makes a scene without grids, or that of the bytes of a scene file."""
        self.scene = Held(SceneHandle)
        if data is None:
            self.scene.call("new")
        else:
            self.scene.call("load", np.frombuffer(data or b"\0", np.uint8).ctypes.data_as(BUFFER), len(data))

    def length(self) -> int:
        """Returns how many bytes the scene file would have."""
        length = c_uint64()
        self.scene.call("length", byref(length))
        return length.value

    def encoding(self) -> np.ndarray:
        """Returns the bytes of the scene file (uint8). Raises SceneTooLongError if a file can't have as many."""
        made, written = np.empty(MAX_FILE, np.uint8), c_uint64()  # memory that isn't written is only reserved
        try:
            self.scene.call("save", made.ctypes.data_as(BUFFER), MAX_FILE, byref(written))
        except (TooLongFault, RangeError):  # it is longer than a file, or than the buffer
            raise SceneTooLongError(self.length(), MAX_FILE) from None
        return made[: written.value]

    def names(self) -> "list[bytes]":
        count, used, buffer = c_uint64(), c_uint64(), create_string_buffer(MAX_NAME)
        self.scene.call("count", byref(count))
        names = []
        for index in range(count.value):
            self.scene.call("name", index, buffer, len(buffer), byref(used))
            names.append(buffer.raw[: used.value])
        return names

    def take(self, name: bytes) -> Held:
        """Moves a grid out of the scene."""
        grid = Held()
        self.scene.call_with("take", grid, name, len(name))
        return grid

    def metadata(self, name: bytes) -> "dict[str, str]":
        count, used = c_uint64(), c_uint64()
        key, text = create_string_buffer(MAX_NAME), create_string_buffer(MAX_TEXT)
        self.scene.call("meta_count", name, len(name), byref(count))
        pairs = {}
        for index in range(count.value):
            self.scene.call("meta_key", name, len(name), index, key, len(key), byref(used))
            found = key.raw[: used.value].decode()
            self.scene.call("meta_text", name, len(name), index, text, len(text), byref(used))
            pairs[found] = text.raw[: used.value].decode()
        return pairs


def apart(call: "Callable[[], Result]") -> "Result":
    """Makes a call in a thread of its own. So Ctrl-C comes through at once, and stops the call nowhere: it goes on, and its result is lost."""
    pool = ThreadPoolExecutor(1)
    try:
        return pool.submit(call).result()
    finally:
        pool.shutdown(wait=False)


@contextmanager
def lent(grids: "Mapping[bytes, Lender]") -> "Iterator[Encoded]":
    """Yields a scene of grids, by their names. No cell is copied, unless a grid has two names. Meanwhile the handles have other grids, so
    nobody else may use them, and Ctrl-C must not come between: `apart` sees to that."""
    made = Encoded()
    handles: "dict[bytes, Held]" = {}
    for name, (grid, pairs) in grids.items():
        handles[name] = copied(grid) if grid in handles.values() else grid
        made.scene.call_with("put", new_grid(KINDS["bool"], False, 1), name, len(name))
        for key, text in pairs.items():
            made.scene.call("meta_set", name, len(name), key.encode(), len(key), text.encode(), len(text))
    with ExitStack() as back:
        for grid in sorted(handles.values(), key=id):
            back.enter_context(grid.lock)
        for name, grid in handles.items():
            made.scene.call_with("swap", grid, name, len(name))
            back.callback(made.scene.call_with, "swap", grid, name, len(name))
        yield made


def encoding_of(grids: "Mapping[bytes, Lender]") -> np.ndarray:
    """Returns the bytes of the scene file of grids by their names (uint8). Raises SceneTooLongError if a file can't have as many."""
    def made() -> np.ndarray:
        with lent(grids) as scene:
            return scene.encoding()

    return apart(made)


def copied(grid: Held) -> Held:
    """Returns a copy of a grid."""
    copy = Held()
    grid.call_with("copy", copy)
    return copy


def halves(box: "Sequence[Sequence[int]]", inner: "Sequence[Sequence[int]] | None" = None) -> "list[Sequence[Sequence[int]]]":
    """Returns the parts of a box on both sides of its middle, or of the middle of a box in it, across the longest axis of that."""
    low, high = inner or box
    axis = max(range(3), key=lambda axis: high[axis] - low[axis])
    middle = (low[axis] + high[axis]) // 2
    low, high = box
    return [(low, (*high[:axis], middle, *high[axis + 1 :])), ((*low[:axis], middle + 1, *low[axis + 1 :]), high)]


def clipped(grid: Held, box: "Sequence[Sequence[int]]") -> Held:
    """Returns a copy of the part of a grid in a box."""
    copy = copied(grid)
    copy.call("clip", box_of(*box))
    return copy


def packed(grid: Held, pairs: "Mapping[str, str]", box: "Sequence[Sequence[int]]" = EVERYWHERE) -> "list[bytes]":
    """Returns a grid as scene files compressed by zlib: one, or if it is too long for a file those of its parts, which `unpacked` joins. It
    has nothing outside the box.

    The first has the metadata and the background, and those of integers after it have the background 0. Raises SumRangeError if a value
    less the background is outside the type.
    """
    with grid.lock:
        with lent({NAME: (grid, pairs)}) as scene:
            if scene.length() <= MAX_FILE:
                return [zlib.compress(scene.encoding().data, 1)]
        bounds, found = Box(), c_int32()
        grid.call("bounds", byref(bounds), byref(found))
        low, high = ((at.x, at.y, at.z) for at in (bounds.min, bounds.max))
        first, second = halves(box, (low, high) if found.value and low != high else box)
        one, other = clipped(grid, first), clipped(grid, second)
    kind, background = form_of(grid)
    if kind.number and background:
        other.call_with("sum", new_grid(kind, -background, 1))
    return [*packed(one, pairs, first), *packed(other, {}, second)]


def unpacked(parts: "Sequence[bytes]") -> "tuple[Held, dict[str, str]]":
    """Returns the grid of parts and its metadata."""
    scenes = (Encoded(zlib.decompress(data)) for data in parts)
    first = next(scenes)
    pairs, grid = first.metadata(NAME), first.take(NAME)
    kind, background = form_of(grid)
    for scene in scenes:
        grid.call_with("sum" if kind.number else "minimum" if background else "maximum", scene.take(NAME))
    return grid, pairs


def form_of(grid: Held) -> "tuple[Kind, int]":
    """Returns the type of values of a grid, and its background."""
    number, background = c_int32(), c_int64()
    grid.call("kind", byref(number))
    grid.call("background", byref(background))
    return KIND_NUMBERS[number.value], background.value
