# SPDX-License-Identifier: Apache-2.0
"""A gray image beneath the labels of a grid, which lies in the same voxels."""
from __future__ import annotations

import argparse
from typing import Iterator, Optional, Tuple

import numpy as np

from .. import formats
from ..errors import VolumeError
from ..formats import Volume
from ..forms import Bounds, Coordinate, check_coordinate
from ..images import Image, identity
from ..scenefile import Grid
from .common import about, world_of

#: How far corners of two images may lie apart in the same voxels, in voxels.
NEAR = 0.05
#: The part of the numbers that is darker than black, and that is lighter than white, unless a window is given.
TAIL = 0.002
#: Numbers of about how many voxels are looked at for that.
SAMPLE = 1 << 20


def gray_of(arguments: argparse.Namespace, grid: Grid) -> "Optional[Gray]":
    """Returns the image of the option --beneath, if it is given."""
    if not arguments.beneath:
        return None
    with about(arguments.beneath):
        return Gray(arguments.beneath, grid, arguments.window, arguments.max_bytes)


class Gray:
    """The numbers of an image (x, y, z), the coordinate of the first one, and the numbers that are black and white."""

    def __init__(self, path: str, grid: Grid, window: "Optional[Tuple[float, float]]", max_bytes: int) -> None:
        """Reads a file. Raises the errors of `formats.read`, and VolumeError if the image lies in other voxels than the grid."""
        volume, image = formats.read(path, max_bytes, floats=True), Image.of(grid.metadata)
        if volume.affine is None and image and image.shape != volume.values.shape:
            raise VolumeError(f"its shape is {volume.values.shape}, and of the grid's image {image.shape}")
        self.path, self.values = path, volume.values
        self.low = place_of(volume, world_of(grid))
        self.window = window or window_of(self.values)

    def around(self, box: "Optional[Bounds]") -> Bounds:
        """Returns the least box that holds the image and another box."""
        high = [low + side - 1 for low, side in zip(self.low, self.values.shape)]
        least, greatest = box or (self.low, high)
        return check_coordinate(np.minimum(self.low, least).tolist(), "corner"), check_coordinate(np.maximum(high, greatest).tolist(), "corner")

    def shades(self, part: np.ndarray) -> np.ndarray:
        """Returns numbers of the image as gray from 0 to 255 (uint8)."""
        black, white = self.window
        shown = (part.astype(np.float32) - black) * np.float32(255 / (white - black or 1))
        return np.nan_to_num(shown, nan=0).clip(0, 255).round().astype(np.uint8)

    def within(self, box: Bounds) -> np.ndarray:
        """Returns the gray of a box of coordinates, 0 outside the image."""
        made = np.zeros([last - first + 1 for first, last in zip(*box)], np.uint8)
        offset = np.subtract(self.low, box[0])
        first, past = np.maximum(offset, 0), np.minimum(offset + self.values.shape, made.shape)
        if (first < past).all():
            inside = [tuple(map(slice, low, high)) for low, high in ((first, past), (first - offset, past - offset))]
            made[inside[0]] = self.shades(self.values[inside[1]])
        return made

    def coarse(self, most: int) -> "Tuple[int, Tuple[int, ...], Iterator[np.ndarray]]":
        """Returns a step, a shape of at most about `most` voxels, and the gray of each voxel that is the step from the last, in parts."""
        step = int(np.ceil((self.values.size / most) ** (1 / 3))) or 1
        some = self.values[::step, ::step, ::step]
        return step, some.shape, (self.shades(some[first : first + 1]) for first in range(len(some)))


def window_of(values: np.ndarray) -> "Tuple[float, float]":
    """Returns the numbers that are black and white, between which nearly all numbers lie, or all if nearly all are one."""
    some = values.ravel("K")[:: values.size // SAMPLE + 1]
    some = some[np.isfinite(some)].astype(np.float64)
    if not some.size:
        return 0.0, 1.0
    low, high = np.quantile(some, [TAIL, 1 - TAIL])
    return (float(low), float(high)) if low < high else (float(some.min()), float(some.max()))


def place_of(volume: Volume, affine: np.ndarray) -> Coordinate:
    """Returns the coordinate of the first voxel of an image in a grid with this affine (3 x 4).

    Raises VolumeError if the voxels of the image aren't those of the grid.
    """
    theirs = identity() if volume.affine is None else volume.affine
    corners = np.array(list(np.ndindex(2, 2, 2))) * (np.array(volume.values.shape) - 1)
    places = np.linalg.solve(affine[:, :3], theirs[:, :3] @ corners.T + (theirs - affine)[:, 3:])
    low = places[:, 0].round()
    if np.abs(places - low[:, None] - corners.T).max() > NEAR:
        raise VolumeError(difference(theirs, affine))
    return check_coordinate(low.astype(np.int64).tolist(), "first voxel of the image")


def difference(theirs: np.ndarray, ours: np.ndarray) -> str:
    """Returns what differs between the affine of an image and that of a grid."""
    lengths = [np.linalg.norm(affine[:, :3], axis=0) for affine in (theirs, ours)]
    axes = [affine[:, :3] / length for affine, length in zip((theirs, ours), lengths)]
    what, image, grid = "first voxel lies at", theirs[:, 3], ours[:, 3]
    if not np.allclose(lengths[0], lengths[1], rtol=1e-3):
        what, (image, grid) = "voxels have the lengths", lengths
    elif not np.allclose(axes[0], axes[1], atol=1e-3):
        what, (image, grid) = "axes have the directions", (each.T.ravel() for each in axes)
    image_text, grid_text = (", ".join(f"{part:.5g}" for part in each.tolist()) for each in (image, grid))
    return f"its {what} {image_text}, and of the grid {grid_text}"
