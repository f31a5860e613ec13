# SPDX-License-Identifier: Apache-2.0
"""Stacks of TIFF images, a page for each z: `.tif` and `.tiff`. The package tifffile reads and writes them.

The affine, its units and the coordinate of the first voxel are kept in the description, as JSON; other programs ignore it. Of stacks of
ImageJ and OME-TIFF the voxel sizes and their units are read.
"""
from __future__ import annotations

import math
import os
import re
import warnings
from types import SimpleNamespace
from typing import Any, BinaryIO, Dict, List, Mapping
from urllib.parse import quote

import numpy as np

from ..errors import VdbWarning, VolumeError
from ..forms import check_coordinate
from ..images import ARRAY, LOW, ROWS, identity
from .volume import Volume, allow, check_room, flat, integers, package, quiet, stored

UNCOMPRESSED = 1
#: The metadata pairs that files keep.
KEEPS = {*ROWS, ARRAY, LOW, "image_units"}
LOGGERS = ("tifffile", "tifffile.tifffile")
#: How ImageJ and OME write the unit of lengths that NIfTI calls um.
MICRONS = ("micron", "\u00b5m", "\\u00B5m")


def tifffile() -> Any:
    """Returns the package."""
    return package("tifffile", "python3-tifffile")


def read(path: str, max_bytes: int, floats: bool = False) -> Volume:
    """Returns the stack of a file."""
    with quiet(*LOGGERS), tifffile().TiffFile(path) as file:
        if len(file.series) != 1:
            raise VolumeError(f"{len(file.series)} series of images, where a grid takes one")
        series = file.series[0]
        axes = [(axis, side) for axis, side in zip(series.axes, series.shape) if side != 1 or axis in "YX"]
        names = "".join(axis for axis, _ in axes)
        if not names.endswith("YX") or set(names) & set("SCT"):
            raise VolumeError(f"the axes {series.axes} of the shape {series.shape}, where a grid takes one number a voxel and pages along z")
        sides = flat([side for _, side in reversed(axes)], "a stack")
        allow(sides, series.dtype, max_bytes)
        size = os.path.getsize(path)
        for begins, count in ((begins, count) for page in series.pages if page for begins, count in zip(page.dataoffsets, page.databytecounts)):
            check_room(size - begins, count)
        if series.keyframe.compression == UNCOMPRESSED:
            check_room(size, math.prod(sides) * series.dtype.itemsize // (8 if series.dtype == np.bool_ else 1))
        values = integers(series.asarray().reshape(sides[::-1]).T, floats=floats)
        made = placed(values, (file.shaped_metadata or [sizes_of(file)])[0])._replace(dtype=series.dtype)
        unit, *sizes = (file.pages[0].tags.valueof(name, 1) for name in ("ResolutionUnit", "XResolution", "YResolution"))
        if made.affine is None and unit > 1:  # 1 is no unit
            warnings.warn(f"{path}: a resolution without the size of voxels along z isn't read, so it is lost: {sizes}", VdbWarning, stacklevel=5)
        return made


def sizes_of(file: Any) -> "Dict[str, Any]":
    """Returns the affine and the units of the voxel sizes that ImageJ or OME wrote, if they did, as a description has them."""
    if file.is_ome:
        pixels = re.search(r"<(?:\w+:)?Pixels\b[^>]*>", file.ome_metadata)
        found = dict(re.findall(r'\bPhysicalSize(\w+)="([^"]*)"', pixels[0] if pixels else ""))
        sizes: List[Any] = [found.get(axis) for axis in "XYZ"]
        units = [found.get(f"{axis}Unit", MICRONS[1]) for axis in "XYZ" if axis in found]
    elif file.is_imagej:
        about, tags = file.imagej_metadata or {}, file.pages[0].tags
        ratios = [tags[name].value if name in tags else (1, 1) for name in ("XResolution", "YResolution")]
        sizes, units = [*((below or 1) / (above or below or 1) for above, below in ratios), about.get("spacing")], [about.get("unit", "")]
    else:
        return {}
    lengths = [abs(float(size or 1)) for size in sizes]
    units = ["um" if unit in MICRONS else "" if unit == "pixel" else quote(unit) for unit in units]
    told = units[0] if len({*units}) == 1 else ",".join(units) if len(units) == 3 and all(units) else ""
    return {"affine": np.diag(lengths) @ identity(), "units": told} if told or lengths != [1, 1, 1] else {}


def placed(values: np.ndarray, about: "Mapping[str, Any]") -> Volume:
    """Returns an array with the place that a description has, if any."""
    affine = np.array(about["affine"], np.float64) if "affine" in about else None
    if affine is not None and affine.shape != (3, 4):
        raise VolumeError(f"the affine of the description has the shape {affine.shape}, not (3, 4)")
    notes = {"image_units": about["units"]} if about.get("units") else {}
    return Volume(values, affine, check_coordinate(about["origin"], "origin") if "origin" in about else None, notes)


def write(file: BinaryIO, _path: str, volume: Volume) -> None:
    """Writes a stack, deflated."""
    values = stored(volume.values)
    if not values.size:
        raise VolumeError("a stack of TIFF images has at least one voxel")
    about: "Dict[str, Any]" = {}
    if volume.affine is not None:
        about = {"affine": volume.affine.tolist(), "origin": volume.origin or (0, 0, 0), "units": volume.notes.get("image_units", "")}
    pages = (np.ascontiguousarray(values[:, :, z].T) for z in range(values.shape[2]))
    # tifffile takes the name of a file for a path, and this one's is a number
    target = SimpleNamespace(write=file.write, seek=file.seek, tell=file.tell, flush=file.flush)
    tifffile().imwrite(
        target, pages, shape=values.shape[::-1], dtype=values.dtype, photometric="minisblack", compression="zlib", metadata={"axes": "ZYX", **about},
        software="",
    )  # fmt: skip
