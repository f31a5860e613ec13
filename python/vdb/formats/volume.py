# SPDX-License-Identifier: Apache-2.0
"""A dense array with its place in the world, and what the modules of the formats share."""
from __future__ import annotations

import contextlib
import importlib
import logging
import math
from typing import Any, Iterator, Mapping, NamedTuple, NoReturn, Optional, Sequence, Tuple

import numpy as np

from ..errors import RangeError, VolumeError
from ..forms import Coordinate, Kind, Value
from ..reading import check_bytes

#: How many voxels are converted at a time, about.
CHUNK = 1 << 20
#: How many bytes a deflated byte can become at most.
DEFLATION = 1032


class Volume(NamedTuple):
    """A dense array with the axes x, y, z, of booleans or integers.

    `affine` (3 x 4, float64) maps the INDEX of a voxel to its place in the world. `origin` is the coordinate of the first voxel. Either is
    None if the file doesn't say. `notes` are texts by the keys of vdb.images.NOTES, of an image in which the first voxel has the index
    `offset`. `dtype` is that of the values in the file, if it isn't the array's. `states` (bool), `background` and the
    further `metadata` are of a grid, in a format that keeps them, or None.

    Examples
    --------
    >>> volume = formats.Volume(np.zeros((2, 3, 4), bool), origin=(5, 0, 0))
    >>> volume.values.shape, volume.affine is None
    ((2, 3, 4), True)
    """

    values: np.ndarray
    affine: "np.ndarray | None" = None
    origin: Optional[Coordinate] = None
    notes: Mapping[str, str] = {}
    dtype: "np.dtype | None" = None
    offset: Coordinate = (0, 0, 0)
    states: "np.ndarray | None" = None
    background: "Value | None" = None
    metadata: Mapping[str, str] = {}

    def __repr__(self) -> str:
        return f"<Volume {self.values.dtype}, shape {self.values.shape}, origin {self.origin}>"


def stored(values: np.ndarray) -> np.ndarray:
    """Returns values for a file, whose formats have bytes 0 and 1 in place of booleans, and no floats of 16 bits."""
    return values.view(np.uint8) if values.dtype == np.bool_ else values.astype(np.float32) if values.dtype == np.float16 else values


def axes_note(shape: Sequence[int]) -> Mapping[str, str]:
    """Returns the note of the number of axes of an array in a file, none for three."""
    return {} if len(shape) == 3 else {"image_axes": str(len(shape))}


def with_axes(values: np.ndarray, notes: Mapping[str, str]) -> np.ndarray:
    """Returns values with the number of axes that the file of their image had: without z, or with further axes of one voxel."""
    told = notes.get("image_axes")
    if told == "2" and values.shape[2] == 1:
        return values[:, :, 0]
    return values.reshape(*values.shape, *[1] * (int(told) - 3)) if told in ("4", "5", "6", "7") else values


def planes(values: np.ndarray) -> "Iterator[np.ndarray]":
    """Yields an array by parts along z, each with the axes z, y, x and without gaps: x changes first."""
    step = max(1, CHUNK // max(1, values.shape[0] * values.shape[1]))
    for first in range(0, values.shape[2] if values.size else 0, step):
        yield np.ascontiguousarray(values[:, :, first : first + step].T)


def check_room(size: int, needed: int, deflated: bool = False) -> None:
    """Raises VolumeError if `size` bytes of a file, perhaps deflated, can't hold the bytes that its header needs."""
    if needed > size * (DEFLATION if deflated else 1):
        raise VolumeError(f"the header says {needed:,} bytes of values, more than the {size:,} bytes that follow can hold")


@contextlib.contextmanager
def quiet(*names: str) -> "Iterator[None]":
    """Drops what a library logs by these loggers in its block: its errors are raised all the same."""
    loggers = [logging.getLogger(name) for name in names]
    before = [logger.disabled for logger in loggers]
    for logger in loggers:
        logger.disabled = True
    try:
        yield
    finally:
        for logger, disabled in zip(loggers, before):
            logger.disabled = disabled


def package(name: str, debian: str) -> Any:
    """Returns an optional package. Raises ImportError, which says where it is found."""
    try:
        return importlib.import_module(name)
    except ImportError as error:
        raise ImportError(f"the package {name} is missing: Debian has it as {debian}") from error


def flat(shape: Sequence[int], what: str) -> Tuple[int, int, int]:
    """Returns the shape of a volume: three axes, of which the last may be missing. Raises VolumeError for colours, times and other axes."""
    sides = [int(side) for side in shape]
    while len(sides) > 3 and sides[-1] == 1:
        del sides[-1]
    if not 2 <= len(sides) <= 3 or min(sides) < 0:
        raise VolumeError(f"{what} of the shape {tuple(shape)}, where a grid takes one number a voxel and the axes x, y, z")
    x, y, z = [*sides, 1][:3]
    return x, y, z


def allow(shape: Sequence[int], dtype: np.dtype, max_bytes: int) -> None:
    """Raises ArrayTooLargeError if an array of this shape, and of its integers if they have another dtype, has more bytes than the most."""
    check_bytes(tuple(shape), math.prod(shape) * (dtype.itemsize + 8 * (not holds(dtype))), max_bytes)


def holds(dtype: np.dtype) -> bool:
    """Returns whether a grid holds every value of a dtype."""
    return np.can_cast(dtype, np.int64, "safe")


def integers(values: np.ndarray, slope: float = 1, shift: float = 0, floats: bool = False) -> np.ndarray:
    """Returns numbers, each times a slope and plus a shift, as an array that a grid holds, or with `floats` as any array.

    Raises VolumeError with the first number that isn't an integer of 64 bits, or 53 bits after the change, and its index. Raises it also
    for a dtype that isn't of such numbers.
    """
    changes = (slope, shift) != (1, 0)
    if holds(values.dtype) and not changes:
        return values
    if values.dtype.kind not in "buif":
        raise VolumeError(f"values of the dtype {values.dtype}, which aren't single numbers")
    if floats:
        return values * np.float32(slope) + np.float32(shift) if changes else values
    made, low, high = np.empty(values.shape, np.int64), 0, 0
    most = 2.0**53 if changes else 2.0**63
    step = max(1, CHUNK // max(1, math.prod(values.shape[1:])))
    for first in range(0, len(values), step):
        part = values[first : first + step]
        if changes:
            part = part.astype(np.float64) * slope + shift
        elif part.dtype.kind == "f":
            part = part.astype(np.promote_types(part.dtype.newbyteorder("="), np.float32))
        good = (part == np.floor(part)) & (part >= -most) & (part < most) if part.dtype.kind == "f" else part < 2**63
        if not good.all():
            refuse(part, good, first)
        made[first : first + step] = part
        if part.size:
            low, high = min(low, int(part.min())), max(high, int(part.max()))
    return made.astype(np.int32) if -(2**31) <= low and high < 2**31 else made


def refuse(part: np.ndarray, good: np.ndarray, first: int) -> NoReturn:
    """Raises VolumeError with the first number of a part that isn't good. The part begins at index `first` along x."""
    x, y, z = np.argwhere(~good)[0].tolist()
    such = ": threshold or round the image first" if part.dtype.kind == "f" else ""
    raise VolumeError(f"the value {part[x, y, z]} at the index {(first + x, y, z)} isn't an integer of 64 bits, so no grid holds it{such}")


def as_kind(values: np.ndarray, kind: Kind) -> np.ndarray:
    """Returns integers as values of a type of grid. Raises RangeError with the first that the type doesn't hold."""
    if kind.word == "bool" and values.dtype != np.bool_:
        outside = values[(values < 0) | (values > 1)]
        if outside.size:
            raise RangeError(f"the value {outside.flat[0]} is neither 0 nor 1, so a bool grid doesn't hold it")
        return values.astype(np.bool_)
    return kind.array(values)
