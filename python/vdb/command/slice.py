# SPDX-License-Identifier: Apache-2.0
"""Draws planes of a grid as a PNG, in a colour for each value.

With --montage, or more than one --at, the planes stand in one picture with their coordinates and a legend of the labels.
A plane outside --bounds, or else outside the image and the bounding box of the active voxels, is an error.
Inactive voxels are pale, and light grey if they have the background's value. Voxels keep their proportions.
Across an axis of the voxels, x goes to the right and y down, or z down. Across axial, coronal or sagittal, which is the nearest
axis by the affine, pictures are as in radiology: the left of the body is at the right, its front at the left or up, its head up."""
from __future__ import annotations

import argparse
from typing import Any

from ..errors import RangeError
from ..forms import Bounds, check_coordinate
from ..images import Image
from ..label_names import Names
from ..scenefile import Grid, picture
from ..scenefile.picture import Plane, montage
from .beneath import Gray, gray_of
from .common import Problem, about, add_bounds, add_image_and_out, anatomy_of, box_of, count_word, opened, output, world_of
from .panes import PLANES, VOXELS, Pane, panes_of, proportions

EXAMPLE = "slice labels.nii.gz --axis axial --montage 9 labels.png\n         vdb-scene slice scene.vdbs organs --axis z --at 12 organs.png"


def add_arguments(parser: argparse.ArgumentParser) -> None:
    add_image_and_out(parser, "OUT.png")
    parser.add_argument("--axis", required=True, choices=[*"xyz", *PLANES], help="the axis across the planes, of the voxels or of anatomy")
    planes = parser.add_mutually_exclusive_group(required=True)
    planes.add_argument("--at", action="append", type=int, metavar="N", help="the coordinate of the plane on that axis, in voxels; more than "
                        "one, as in --at 3 --at 9, are a montage")  # fmt: skip
    planes.add_argument("--montage", type=count_word, metavar="N", help="draw N planes at even steps, or all if there are fewer")
    parser.add_argument("--scale", type=count_word, metavar="N", help="pixels along a voxel's shorter side (default: 1 to 14, by the size)")
    add_bounds(parser, "the box of which the planes are drawn")


def run(arguments: argparse.Namespace) -> None:
    path = arguments.file
    name, grid, names = opened(arguments)
    gray = gray_of(arguments, grid)
    box = box_of(arguments.bounds) or (gray.around(grid.bounds) if gray else grid.bounds)
    if box is None:
        raise Problem(f"{path}: no voxel of {name} is active, so the picture needs --bounds")
    with about(path):
        pane = pane_of(grid, arguments.axis)
        image = None if arguments.bounds else Image.of(grid.metadata)
        ends = [at for each in (box, image.bounds if image else None) if each for at in (each[0][pane.axis], each[1][pane.axis])]
        outside = [at for at in arguments.at or [] if not min(ends) <= at <= max(ends)]
        if outside:
            what = "the bounds, " if arguments.bounds else ""
            raise Problem(f"{path}: the plane {'xyz'[pane.axis]} = {outside[0]} lies outside {what}{min(ends)} to {max(ends)}")
        data = picture.png(drawn(grid, gray, box, pane, names, arguments))
    with output(arguments.out) as file:
        file.write(data)


def pane_of(grid: Grid, axis: str) -> Pane:
    """Returns how planes across an axis of the voxels or of anatomy are turned."""
    affine = anatomy_of(grid)
    if axis in PLANES and affine is None:
        raise RangeError("its affine says nothing of anatomy, so --axis is x, y or z")
    return next(pane for pane in (panes_of(affine) if axis in PLANES else VOXELS) if pane.name == axis)


def drawn(grid: Grid, gray: "Gray | None", box: Bounds, pane: Pane, names: Names, arguments: argparse.Namespace) -> Any:
    """Returns the picture of planes of a box."""
    spacing = proportions(world_of(grid))[[*pane.sides]]
    width, height = ((box[1][side] - box[0][side] + 1) * each / spacing.min() for side, each in zip(pane.sides, spacing.tolist()))
    first, length = box[0][pane.axis], box[1][pane.axis] - box[0][pane.axis] + 1
    count = len(arguments.at) if arguments.at else min(arguments.montage, length)
    is_montage = not arguments.at or count > 1
    scale = arguments.scale or max(1, min(picture.SIDE, (256 if is_montage else 512) // max(width, height)))
    size = max(1, round(width * scale)), max(1, round(height * scale))
    picture.check_size(size[0], size[1] * count)
    planes = []
    for at in arguments.at or [first + (2 * place + 1) * length // (2 * count) for place in range(count)]:
        low, high = (check_coordinate([*corner[: pane.axis], at, *corner[pane.axis + 1 :]], "corner") for corner in box)
        arrays = [*grid.to_array((low, high), max_bytes=arguments.max_bytes), *([gray.within((low, high))] if gray else [])]
        planes.append(Plane(f"{arguments.axis + ', ' if pane.edges else ''}{'xyz'[pane.axis]} = {at}", *map(pane.plane, arrays)))
    if is_montage:
        return montage(planes, grid.background, size, names)
    return picture.labels_of(planes[0], grid.background, size, names)
