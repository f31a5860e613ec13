# SPDX-License-Identifier: Apache-2.0
"""Arrays of NumPy: `.npy`. They keep no affine."""
from __future__ import annotations

import math
import os
from types import SimpleNamespace
from typing import Any, BinaryIO, Tuple

import numpy as np

from ..errors import VolumeError
from ..images import ARRAY
from .volume import Volume, allow, axes_note, check_room, flat, integers, with_axes

FORMAT = np.lib.format
#: The metadata pairs that files keep.
KEEPS = {ARRAY, "image_axes"}


def read(path: str, max_bytes: int, floats: bool = False) -> Volume:
    """Returns the array of a file, which stays in the file where it can. Raises VolumeError for a fault, before any array is made."""
    with open(path, "rb") as file:
        shape, in_columns, dtype = header(file)
        begins, size = file.tell(), os.fstat(file.fileno()).st_size
    if dtype.hasobject or dtype.kind not in "buif":
        raise VolumeError(f"values of the dtype {dtype}, which aren't single numbers")
    sides = flat(shape, "an array")
    needed = math.prod(sides) * dtype.itemsize
    check_room(size - begins, needed)
    allow(sides, dtype, max_bytes)
    if not needed:
        return Volume(np.zeros(sides, dtype), notes=axes_note(shape))
    values = np.memmap(path, dtype, "r", begins, sides, "F" if in_columns else "C")
    return Volume(integers(values, floats=floats), notes=axes_note(shape), dtype=dtype)


def header(file: BinaryIO) -> Tuple[Tuple[int, ...], bool, np.dtype]:
    """Returns the shape of a file's array, whether x changes first, and the dtype."""
    reader = {(1, 0): FORMAT.read_array_header_1_0, (2, 0): FORMAT.read_array_header_2_0}
    try:
        version = FORMAT.read_magic(file)
        if version not in reader:
            raise VolumeError(f"a .npy file of version {version[0]}.{version[1]}, whose dtype isn't of numbers")
        return reader[version](file)
    except (ValueError, EOFError) as error:
        raise VolumeError(f"no .npy file of numbers: {error}") from error


def write(file: BinaryIO, _path: str, volume: Volume) -> None:
    """Writes an array."""
    # NumPy asks a file for its position, which a pipe has not; of another object it only writes
    target: Any = file if file.seekable() else SimpleNamespace(write=file.write)
    np.save(target, with_axes(volume.values, volume.notes))
