# SPDX-License-Identifier: Apache-2.0
"""Stores of zarr: folders `.zarr` with an array, or an image of OME-Zarr, perhaps inside another one. They are written as vdb.chunks writes
volumes, and keep states and background too."""
from __future__ import annotations

import os
import warnings
from itertools import product
from typing import Any, Dict, Iterator, List, Mapping, NamedTuple
from urllib.parse import quote

import numpy as np

from .. import zarr_stores
from ..errors import VdbWarning, VolumeError
from ..files import naming
from ..forms import KINDS, Metadata, check_box, kind_of_array
from ..images import KEYS, Image, affine_of, identity, moved
from .volume import Volume, allow, integers, package

#: How many voxels a chunk has along each axis, and a block that is written at a time.
SIDE, BLOCK = 128, 256
#: The axes of images of OME-Zarr up to version 0.2, which don't name them.
AXES = "tczyx"


def read(path: str, max_bytes: int, floats: bool = False) -> Volume:
    """Returns the array of a store with its place: of a volume its image, or if voxels outside are active, all of it."""
    if "vdb" not in zarr_stores.attributes_of(path):
        found = opened(path)
        allow(found.array.shape, found.array.dtype, max_bytes)
        values = integers(found.turned(found.array[...]), floats=floats)
        return Volume(values, found.affine, None, found.notes, found.array.dtype)
    volume, attributes = zarr_stores.read_volume(path)
    form, about = volume.form, attributes["vdb"]
    image, box = Image.of(about["metadata"]), form.box
    if image and image.bounds:
        own = np.array(image.bounds)
        if np.array_equal(zarr_stores.around([own, about["bounds"]]), own):  # type: ignore[arg-type]
            box = own
        else:
            warnings.warn(f"{path}: active voxels lie outside the image, which becomes larger", VdbWarning, stacklevel=5)
    allow(zarr_stores.sides(box), np.dtype(form.dtype), max_bytes)
    values, states = volume.read(box)
    low = check_box(box[0], values.shape)
    notes, dtype = (image.notes, image.dtype) if image else ({}, values.dtype)
    affine, pairs = moved(affine_of(about["metadata"]), low), {key: text for key, text in about["metadata"].items() if key not in KEYS}
    return Volume(values, affine, low, notes, dtype, states=states, background=form.background, metadata=pairs)


def write_store(path: str, volume: Volume) -> None:
    """Writes a volume in place of the one that is at a path."""
    values, low = volume.values, volume.origin or (0, 0, 0)
    if values.dtype.kind == "f" or values.dtype == np.uint64:
        values = integers(values)
    kind = kind_of_array(values).word
    background = KINDS[kind].check(volume.background or KINDS[kind].dtype.type(0))
    affine = moved(identity() if volume.affine is None else volume.affine, [-at for at in low])
    image = Image(low, values.shape, volume.dtype or volume.values.dtype, affine, volume.notes)  # type: ignore[arg-type]
    dtype = zarr_stores.dtype_of(kind, values.dtype, [background])
    form = zarr_stores.Form(kind, background, False, dtype, low, values.shape, SIDE).check()  # type: ignore[arg-type]

    def written(target: zarr_stores.Volume) -> "Iterator[zarr_stores.Entry]":
        for first in product(*(range(0, side, BLOCK) for side in values.shape)):
            part = tuple(slice(at, at + BLOCK) for at in first)
            box = np.array([first, np.add(first, values[part].shape) - 1]) + low
            yield target.write(box, values[part], None if volume.states is None else volume.states[part])

    zarr_stores.write_volume(zarr_stores.path_of(path), form, Metadata({**volume.metadata, **image.pairs()}), {}, written)


class Opened(NamedTuple):
    """An array of a store: the order of its axes x, y and z, its others having one index, the affine (3 x 4) of its indices, notes of
    vdb.images, what image-label says, and whether it is a volume with states."""

    array: Any
    order: "List[int]"
    affine: np.ndarray
    notes: "Dict[str, str]"
    label: "Mapping[str, Any]"
    has_states: bool

    def turned(self, array: Any) -> Any:
        """Returns the array, or one of its form, with the axes x, y, z."""
        rest = [at for at in range(len(self.array.shape)) if at not in self.order]
        return array.transpose([*rest, *self.order]).reshape([self.array.shape[at] for at in self.order])


def opened(path: str) -> Opened:
    """Returns the array of a store with its place: the store itself, or level 0 of an image of OME-Zarr.

    Raises ImportError without zarr, FileError if there is no such folder, and VolumeError if it has no such array.
    """
    library = package("zarr", "python3-zarr")
    if zarr_stores.is_local(path):
        with naming(path):
            os.stat(path)
    try:
        found = library.open(path, mode="r")
        made = Opened(found, axes_of(found), identity(), {}, {}, False) if isinstance(found, library.Array) else level_0(found)
        return made._replace(array=zarr_stores.whole(made.array, path))
    except Exception as error:
        raise VolumeError(f"no image of zarr: {type(error).__name__}: {error}", path) from error


def axes_of(array: Any) -> "List[int]":
    """Returns the places of the axes x, y and z of an array, which xarray may have named, else the first three."""
    names = array.attrs.get("_ARRAY_DIMENSIONS", [])
    return [names.index(axis) for axis in "xyz"] if sorted(names) == ["x", "y", "z"] else [0, 1, 2]


def level_0(group: Any) -> Opened:
    """Returns the array of the most voxels of an image of OME-Zarr with its place. Raises ValueError or KeyError if the group is none."""
    attributes = group.attrs.asdict()
    images = attributes.get("multiscales")
    if not images:
        raise ValueError(f"the group isn't an image of OME-Zarr: name one of its arrays, which are {', '.join(group.array_keys()) or 'none'}")
    level, axes = images[0]["datasets"][0], [axis if isinstance(axis, dict) else {"name": axis} for axis in images[0].get("axes") or AXES]
    array, names = group[level["path"]], "".join(axis["name"] for axis in axes)
    if len(names) != array.ndim or {*"xyz"} - {*names} or any(side > 1 for name, side in zip(names, array.shape) if name not in "xyz"):
        raise ValueError(f"an array with the axes {names} of the shape {array.shape}, where a volume has x, y and z")
    order = [names.index(name) for name in "xyz"]
    affine = identity()
    for change in (*level.get("coordinateTransformations", ()), *images[0].get("coordinateTransformations", ())):
        affine = changed(affine, change, order)
    units = [zarr_stores.UNITS.get(axes[at].get("unit", ""), quote(axes[at].get("unit", ""))) for at in order]
    notes = {"image_units": ",".join(units[:1] if len({*units}) == 1 else units)} if any(units) else {}
    own, has_states = attributes.get("vdb"), False
    if own:  # OME-Zarr keeps no more than the sizes of voxels of most affines
        affine, image = moved(affine_of(own["metadata"]), own["low"]), Image.of(own["metadata"])
        notes = dict(image.notes) if image else notes
        sums = group[level["path"][: -len(zarr_stores.ARRAYS[0])] + zarr_stores.SUMS]
        if sums.size != 2 * array.nchunks:
            raise ValueError(f"checksums of {sums.size // 2:,} chunks, where the array has {array.nchunks:,}")
        has_states = own["background"] != 0 or any(sums[1].flat)
    return Opened(array, order, affine, notes, attributes.get("image-label", {}), has_states)


def changed(affine: np.ndarray, change: "Mapping[str, Any]", order: "List[int]") -> np.ndarray:
    """Returns an affine followed by a scale or a translation of OME-Zarr, whose numbers for x, y, z have these places. Raises ValueError for
    another change."""
    made = affine.copy()
    if change["type"] == "scale":
        made *= np.array([change["scale"][at] for at in order], np.float64)[:, None]
    elif change["type"] == "translation":
        made[:, 3] += [change["translation"][at] for at in order]
    elif change["type"] != "identity":
        raise ValueError(f"a coordinate transformation of the type {change['type']}, where identity, scale and translation are read")
    return made
