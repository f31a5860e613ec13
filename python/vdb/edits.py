# SPDX-License-Identifier: Apache-2.0
"""Writes of leaves and cubes to a grid of the engine, and what becomes of their values."""
from __future__ import annotations

from ctypes import byref

import numpy as np

from .arrays import box_of, write_boxes
from .blocks import FEW, Boxes, Cubes, ranks
from .library import Held, Strides


def write_leaves(held: Held, origins: np.ndarray, values: np.ndarray, active: "np.ndarray | None") -> None:
    """Sets the voxels of leaf extents, which have these least corners (n x 3), to values (n x 512, integers or bool), and to states
    (n x 512, bool) unless these are left out. Those that follow one another along z are one box."""
    count = len(origins)
    if count:
        begins = np.ones(count, np.bool_)
        begins[1:] = (origins[1:] - origins[:-1] != (0, 0, 8)).any(axis=1)
        firsts = np.flatnonzero(begins)
        lasts = np.append(firsts[1:], count) - 1
        states = None if active is None else strip_of(active, active.dtype)
        numbers = states.astype(np.int64) if states is not None and values is active else strip_of(values, np.dtype(np.int64))
        write_boxes(held, origins[firsts], origins[lasts] + np.int32(7), numbers, states, firsts * 8, Strides(64 * count, 8 * count, 1))


def strip_of(rows: np.ndarray, dtype: np.dtype) -> np.ndarray:
    """Returns leaves (n x 512) as an array of this dtype in which they lie along z one after another (8 x 8 x 8 n)."""
    strip = np.empty((8, 8, len(rows), 8), dtype)
    strip[...] = rows.reshape(-1, 8, 8, 8).transpose(1, 2, 0, 3)
    return strip


def write_cubes(held: Held, cubes: Cubes) -> None:
    """Sets the voxels of cubes to their values and activates them."""
    for low, past, value in zip(*(column.tolist() for column in strips(cubes))):
        held.call("fill", byref(box_of(low, past)), value, 1)


def fill_active(held: Held, painted: Held, area: Held, cubes: Cubes) -> None:
    """Sets the voxels of cubes that are active in another grid to the values of the cubes, and activates them. `painted` is a grid of this
    type that was never written. A fill takes less than a write of 512 voxels."""
    if len(cubes.low):
        write_cubes(painted, cubes)
        painted.call_with("intersect", area)
        held.call_with("replace", painted)


def strips(cubes: Cubes) -> Boxes:
    """Returns cubes as boxes: those that follow one another along z, and then along y, and have one value are one box."""
    low, high, values = cubes.low, cubes.low + np.int32(cubes.side - 1), cubes.values
    for axis, others in ((2, [0, 1]), (1, [0, 2])):
        order = np.lexsort([low[:, axis], *high.T[others], *low.T[others]])
        low, high, values = low[order], high[order], values[order]
        begins = np.ones(len(low) + 1, np.bool_)
        begins[1:-1] = (low[1:, axis] != high[:-1, axis] + 1) | (values[1:] != values[:-1])
        begins[1:-1] |= ((low[1:] != low[:-1]) | (high[1:] != high[:-1]))[:, others].any(axis=1)
        low, high, values = low[begins[:-1]], high[begins[1:]], values[begins[:-1]]
    return Boxes(low, high, values)


def is_one_of(values: np.ndarray, wanted: np.ndarray) -> np.ndarray:
    """Returns which values are among the wanted ones, which rise."""
    if len(wanted) > FEW:
        return wanted[ranks(values, wanted)] == values
    found = values == wanted[0] if len(wanted) else np.zeros(values.shape, np.bool_)
    for one in wanted[1:]:
        found |= values == one
    return found


def mapped(values: np.ndarray, old: np.ndarray, new: np.ndarray) -> np.ndarray:
    """Returns values with each of the old ones, which rise, replaced by the new one at its index."""
    if len(old) > FEW:
        at = ranks(values, old)
        return np.where(old[at] == values, new[at], values)
    made = values.copy()
    for one, other in zip(old, new):
        made[values == one] = other
    return made
