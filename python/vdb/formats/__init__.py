# SPDX-License-Identifier: Apache-2.0
"""Files of other programs as grids, and grids as such files. The ending of a file names its format.

    import vdb
    from vdb import formats
    grid = formats.load("labels.nii.gz", vdb.Grid)
    formats.save("organ.nii.gz", grid.select(5))

A grid keeps what a file says of its image as metadata pairs (vdb.images): affine, shape, dtype, units and codes, as far as the formats have
them. So the image comes back as it was. Values are booleans and integers: floats are converted if all of them are integers, and are an
error otherwise.
"""
from __future__ import annotations

import contextlib
import os
import re
import warnings
from typing import Any, Dict, Iterator, Mapping, Sequence, Tuple, Type, TypeVar

import numpy as np

from .. import label_names
from ..errors import ArrayTooLargeError, DtypeError, FileError, GeometryError, RangeError, VdbError, VdbWarning, VolumeError
from ..files import naming, replacing
from ..forms import DEFAULT_LIMIT, KINDS, Array, Bounds, Coordinate, Progress, Value, check_bounds, check_coordinate, kind_of
from ..images import DTYPES, KEYS, LABELS, Image, affine_of, check_same, moved, rows_of
from ..reading import MAX_BYTES, Readable, check_grid
from ..zarr_stores import is_store
from . import nifti, npy, nrrd, ome_zarr, tiff, vti
from .volume import CHUNK, Volume, as_kind

__all__ = ["load", "save", "read", "write", "Volume", "FORMATS"]

G = TypeVar("G", bound=Readable)

#: The format of each ending. A store of zarr is written by `write_store`, any other by `write(file, path, volume)`.
FORMATS: Dict[str, Any] = {
    ".npy": npy, ".nii": nifti, ".nii.gz": nifti, ".nrrd": nrrd, ".nhdr": nrrd, ".tif": tiff, ".tiff": tiff, ".vti": vti,
    ".zarr": ome_zarr,
}  # fmt: skip
#: How files of some formats begin, and their endings, none if nothing here reads them.
SIGNATURES: "Sequence[Tuple[str, Tuple[str, ...], bytes]]" = (
    ("NumPy", (".npy",), rb"\x93NUMPY"), ("NIfTI", (".nii",), rb".{344}n\+1\0|.{4}n\+2\0"), ("gzip", (".nii.gz", ".vdbs.gz"), rb"\x1f\x8b"),
    ("NRRD", (".nrrd", ".nhdr"), rb"NRRD000"), ("TIFF", (".tif", ".tiff"), rb"II[*+]\0|MM\0[*+]"), ("VTK", (".vti",), rb".{0,99}<VTKFile"),
    ("a scene file", (".vdbs",), rb"VDBS"), ("OpenVDB", (), rb" BDV"), ("DICOM", (), rb".{128}DICM"), ("PNG", (), rb"\x89PNG"),
    ("JPEG", (), rb"\xff\xd8\xff"), ("HDF5", (), rb"\x89HDF"), ("zip, as .npz files are", (), rb"PK\x03\x04"),
)  # fmt: skip


def signature_of(path: "str | os.PathLike[str]") -> "Tuple[str, Tuple[str, ...]]":
    """Returns what the first bytes of a file say of its format, as the end of a sentence, and the endings of that format. Both are empty if
    they say nothing that the ending doesn't."""
    begins, name = b"", os.fspath(path).lower()
    with contextlib.suppress(OSError), open(path, "rb") as file:
        begins = file.read(352)
    for told, endings, form in SIGNATURES:
        if re.match(form, begins, re.DOTALL) and not name.endswith(endings):
            usual = f"whose ending is {' or '.join(endings)}" if endings else "which isn't read"
            return f", and the first bytes are those of {told}, {usual}", endings
    return "", ()


def format_of(path: "str | os.PathLike[str]", told: str = "") -> Any:
    """Returns the format of a file by its ending. Raises RangeError for another ending, with what else is told."""
    name = os.fspath(path).lower()
    if is_store(name):
        return ome_zarr
    for ending, made in FORMATS.items():
        if name.endswith(ending):
            return made
    raise RangeError(f"{os.fspath(path)}: the ending is none of {', '.join(FORMATS)}{told}")


@contextlib.contextmanager
def about(path: "str | os.PathLike[str]") -> Iterator[None]:
    """Names a file in the errors of the package in its block."""
    try:
        yield
    except (VolumeError, ArrayTooLargeError) as error:
        error.path = os.fspath(path)
        raise
    except VdbError as error:
        if isinstance(error.args[0], str):
            error.args = (f"{os.fspath(path)}: {error.args[0]}", *error.args[1:])
        raise


@contextlib.contextmanager
def reading(path: str) -> Iterator[None]:
    """Names a file in the errors of its block. What another library raises for a faulty file is a VolumeError."""
    try:
        with about(path), naming(path):
            yield
    except ImportError as error:
        raise ImportError(f"{path}: {error}") from error
    except MemoryError:
        raise
    except Exception as error:
        if isinstance(error, VdbError) and not (isinstance(error, FileError) and error.errno is None):
            raise
        cause = error.__cause__ if isinstance(error, FileError) else error
        raise VolumeError(f"{type(cause).__name__}: {cause}", path) from error


def read(path: "str | os.PathLike[str]", max_bytes: int = MAX_BYTES, floats: bool = False) -> Volume:
    """Returns the array of a file with its place. With `floats`, its values may be any numbers, and are integers otherwise.

    Raises VolumeError for a fault or for values that no grid holds, and ArrayTooLargeError, before the array is made, if it has more
    than `max_bytes` bytes. Raises FileError if the file can't be read, and ImportError if a package is missing.

    Examples
    --------
    >>> np.save("a.npy", np.eye(3, dtype=np.int16)[None])
    >>> formats.read("a.npy").values.shape
    (1, 3, 3)
    """
    name, told = os.fspath(path), signature_of(path)[0]
    made = format_of(path, told)
    with reading(name):
        if made is not ome_zarr:
            open(name, "rb").close()  # a package may have an error of its own for a file that can't be read
        if told:
            raise VolumeError(f"the ending is {os.path.splitext(name)[1]}{told}")
        return made.read(name, max_bytes, floats)


def write(path: "str | os.PathLike[str]", volume: Volume) -> None:
    """Writes an array with its place to a file. Raises FileError if the file can't be written; an existing file stays as it was then.

    Examples
    --------
    >>> formats.write("b.nrrd", formats.Volume(np.arange(6).reshape(1, 2, 3), np.eye(3, 4), (7, 8, 9)))
    >>> formats.read("b.nrrd").origin
    (7, 8, 9)
    """
    made, name = format_of(path), os.fspath(path)
    with reading(name):
        if made is ome_zarr:
            return ome_zarr.write_store(name, volume)
        with replacing(name) as file:
            made.write(file, name, volume)


def load(
    path: "str | os.PathLike[str]",
    form: Type[G],
    *,
    active: "Array | str | os.PathLike[str] | None" = None,
    origin: "Sequence[int] | None" = None,
    background: "Value | None" = None,
    limit: int = DEFAULT_LIMIT,
    metadata: "Mapping[str, str] | None" = None,
    kind: Any = None,
    max_bytes: int = MAX_BYTES,
    progress: "Progress | None" = None,
) -> G:
    """Returns a file as a grid of a class, `vdb.Grid`, `vdb.Mask` or one of `vdb.scenefile`.

    `active`, `background`, `limit` and `progress` are those of `from_array`; `active` may also be the file of the states. If both files say
    where their voxels lie, they lie in the same ones, else it is a GeometryError. `origin` is the coordinate of the first voxel; without it,
    the one that the file keeps, else (0, 0, 0). `metadata` are pairs; those of the file's image replace theirs. `kind` is the type of the grid, if it
    isn't the narrowest for the file's values. `grid.names` are those of the file's labels, in its header or the table beside it; if the grid
    has no room for them, that is a VdbWarning. Raises the errors of `read` and `from_array`, and LimitError if there are more than 16 pairs.

    Examples
    --------
    >>> formats.write("labels.nrrd", formats.Volume(np.ones((4, 5, 6), np.uint8)))
    >>> grid = formats.load("labels.nrrd", vdb.Grid)
    >>> grid.image.shape, str(grid.image.dtype), (grid == 1).count
    ((4, 5, 6), 'uint8', 120)
    """
    grid = unnamed(path, form, active, origin, background, limit, metadata, kind, max_bytes, progress)
    label_names.give(grid, path)
    return grid


def unnamed(
    path: "str | os.PathLike[str]", form: Type[G], active: "Array | str | os.PathLike[str] | None" = None, origin: "Sequence[int] | None" = None,
    background: "Value | None" = None, limit: int = DEFAULT_LIMIT, metadata: "Mapping[str, str] | None" = None, kind: Any = None,
    max_bytes: int = MAX_BYTES, progress: "Progress | None" = None,
) -> G:  # fmt: skip
    """Returns a file as a grid, as `load` does, without the names of labels."""
    volume = read(path, max_bytes)
    with about(path):
        at = volume.origin or (0, 0, 0) if origin is None else check_coordinate(origin, "origin")
        values = volume.values if kind is None else as_kind(volume.values, kind_of(kind))
        image = image_of(volume, at, affine_of(metadata or {}))
    if isinstance(active, (str, os.PathLike)):
        active = states_of(active, max_bytes, volume, image)
    active, background = (volume.states if active is None else active), (volume.background if background is None else background)
    with about(path):
        pairs = {**volume.metadata, **(metadata or {})}
        grid = form.from_array(values, active, at, background, limit, pairs, progress)  # type: ignore[attr-defined]
        image.keep(grid.metadata)
    return grid


def image_of(volume: Volume, at: Coordinate, usual: np.ndarray) -> Image:
    """Returns the image of an array whose first voxel has a coordinate. If its file has no affine, `usual` maps coordinates."""
    dtype = volume.dtype if volume.dtype is not None and volume.dtype.name in DTYPES else volume.values.dtype
    affine = usual
    if volume.affine is not None:
        affine = moved(affine_of(rows_of(volume.affine)), [-part for part in at])  # of the numbers that the pairs keep
    return Image(at, volume.values.shape, dtype, affine, volume.notes)  # type: ignore[arg-type]


def states_of(path: "str | os.PathLike[str]", max_bytes: int, volume: Volume, image: Image) -> np.ndarray:
    """Returns the states of a file for the array of another one, whose image is given. Raises RangeError for a number but 0 and 1, and
    GeometryError if both files say where their voxels lie, and that differs."""
    found, low = read(path, max_bytes), image.low
    if volume.affine is None:
        found = found._replace(affine=None)
    if volume.origin and found.origin:
        low = check_coordinate(np.subtract(found.origin, volume.origin) + low, "origin")
    with about(path):
        states = as_kind(found.values, KINDS["bool"])
        check_same(image.pairs(), image_of(found, low, image.affine).pairs(), "states of a .npy file, or an array, are taken as they lie")
    return states


def save(
    path: "str | os.PathLike[str]",
    grid: Readable,
    *,
    active: "str | os.PathLike[str] | None" = None,
    bounds: "Sequence[Sequence[int]] | None" = None,
    fill: "Value | None" = None,
    dtype: Any = None,
    strict: bool = False,
    values_only: bool = False,
    max_bytes: int = MAX_BYTES,
    progress: "Progress | None" = None,
) -> Volume:
    """Writes the values of a grid to a file, and the states to the file `active`. Returns the values with their place.

    A grid of an image is written as the whole image in its dtype, unless `bounds` or `dtype` say otherwise; any other grid as its bounding
    box. Active voxels outside the image are a VdbWarning, or with `strict` a GeometryError. `bounds`, `fill`, `dtype` and `max_bytes` are
    those of `to_array`. `progress` is called with the number of voxels that are read, and of all.

    A store of zarr keeps states and background, and any other file of values shows no states. So without `active` or `values_only` a bool
    grid whose values and states differ is a RangeError: save a `Mask` of it. In an integer grid, active voxels that have the background, as
    after `dilate`, and inactive ones that have another value, as after `subtract`, are a VdbWarning. Metadata pairs and a background that
    the format doesn't keep are one too, unless `values_only` is set.

    The names of labels go to a table beside the file, or into a store of zarr. A table with other names stays, which is a VdbWarning.

    Raises the errors of `write` and `to_array`, DtypeError for anything but a grid, RangeError with a value that the dtype doesn't hold and
    its coordinate, and VolumeError if the metadata pairs of the image have another form.

    Examples
    --------
    >>> mask = vdb.Mask.from_array(np.ones((4, 4, 4), bool))
    >>> mask.dilate(2)
    >>> formats.save("mask.npy", mask).origin, np.load("mask.npy").shape, int(np.load("mask.npy").sum())
    ((-2, -2, -2), (8, 8, 8), 304)
    """
    check_outs(path, active)
    volume, states = volume_of(grid, bounds, fill, dtype, max_bytes, strict, progress)
    names = grid.names
    if not values_only:
        check_kept(path, format_of(path), grid, volume, None if active else states, fill)
    write(path, volume)
    if active is not None:
        write(active, states)
    if names:
        label_names.keep(path, names, replaces=False)
    return volume


def check_outs(*paths: "str | os.PathLike[str] | None") -> None:
    """Raises RangeError if the ending of a file to write is that of no format, or two are the same file."""
    found = [os.path.realpath(path) for path in paths if path and format_of(path)]
    if len({*found}) < len(found):
        raise RangeError(f"{paths[0]!s}: the values and the states go to two files")


def volume_of(
    grid: Readable, bounds: "Sequence[Sequence[int]] | None", fill: "Value | None", dtype: Any, max_bytes: int, strict: bool = False,
    progress: "Progress | None" = None,
) -> "Tuple[Volume, Volume]":  # fmt: skip
    """Returns the values and the states of a grid with their place. The arguments and the errors are those of `save`."""
    check_grid(grid)
    image = Image.of(grid.metadata)
    box = check_bounds(bounds) if bounds is not None else image.bounds if image else grid.bounds
    low = box[0] if box else image.low if image else (0, 0, 0)
    form = dtype_of(dtype) if dtype is not None else image.dtype if image else grid.dtype
    if image and not box:
        values, states = np.empty(image.shape, form), np.empty(image.shape, np.bool_)
    else:
        values, states = arrays_of(grid, box, fill, form, max_bytes, progress)
    outside = grid.count - np.count_nonzero(states) if image and bounds is None else 0
    if outside:
        told = f"{outside:,} active voxels lie outside the image, which is {image and image.bounds}, and aren't in the file"
        if strict:
            raise GeometryError(told)
        warnings.warn(told, VdbWarning, stacklevel=3)
    affine = moved(affine_of(grid.metadata), low)
    made = Volume(values, affine, low)
    if image:
        made = made._replace(notes=image.notes, offset=(low[0] - image.low[0], low[1] - image.low[1], low[2] - image.low[2]))
    pairs = {key: text for key, text in grid.metadata.items() if key not in (*KEYS, *LABELS)}
    return made._replace(states=None if fill is not None else states, background=grid.background, metadata=pairs), made._replace(values=states)


def check_kept(
    path: "str | os.PathLike[str]", made: Any, grid: Readable, volume: Volume, states: "Volume | None", fill: "Value | None"
) -> None:  # fmt: skip
    """Warns of metadata pairs and of a background that a file of a format doesn't keep. If `states` are given, checks that the values show
    them. An affine needs no pair of a space that is turned to RAS."""
    if made is ome_zarr:
        return
    kept = (*made.KEEPS, *LABELS, *(["image_space"] if made is not npy and grid.metadata.get("image_space", "").lower() in nrrd.SPACES else []))
    lost = [key for key in grid.metadata if key not in kept]
    lost += [f"the background {grid.background}"] if grid.background and fill is None else []
    if lost:
        warnings.warn(f"{os.fspath(path)}: the format doesn't keep {', '.join(lost)}", VdbWarning, stacklevel=3)
    if states:
        check_shown(grid, volume.values, states.values, fill)


def check_shown(grid: Readable, values: np.ndarray, states: np.ndarray, fill: "Value | None") -> None:
    """Raises RangeError if values of a bool grid differ from the states, and warns of active voxels with the value of inactive ones, and of
    inactive ones with another value."""
    if grid.kind == "bool":
        differ = np.count_nonzero((values != 0) != states)
        if differ:
            raise RangeError(
                f"the values and the states of {differ:,} voxels differ: save vdb.Mask(grid) for the states (--states), or with "
                "values_only=True (--values-only) the values"
            )
        return
    blank = values == (grid.background if fill is None else fill)
    hidden, shown = np.count_nonzero(blank & states), np.count_nonzero(~(blank | states))
    for count, look, told in (
        (hidden, "active voxels look like inactive ones", "dilate(n, value=..) and dilate_label give them a value"),
        (shown, "inactive voxels look like active ones", f"fill={grid.background} (--fill {grid.background}) writes the background for them"),
    ):
        if count:
            as_they_are = "values_only=True (--values-only) saves them as they are"
            warnings.warn(f"{count:,} {look} in the file: {told}, and {as_they_are}", VdbWarning, stacklevel=4)


def dtype_of(dtype: Any) -> np.dtype:
    """Returns a dtype that values are written in. Raises DtypeError for another."""
    try:
        form = np.dtype(dtype)
    except TypeError:
        raise DtypeError(f"{dtype!r} is no dtype") from None
    if form.name not in DTYPES:
        raise DtypeError(f"the dtype of values in a file is one of {', '.join(DTYPES)}, not {form}")
    return form


def arrays_of(
    grid: Readable, box: "Bounds | None", fill: "Value | None", form: np.dtype, max_bytes: int, progress: "Progress | None" = None
) -> "Tuple[np.ndarray, np.ndarray]":
    """Returns the values of a box in a dtype, and the states. Raises RangeError with the first value that it doesn't hold."""
    if form.kind in "iu" or np.can_cast(grid.dtype, form, "safe"):
        try:
            return grid.to_array(box, fill, max_bytes, dtype=form, progress=progress)
        except RangeError:
            for values, low in slabs(grid, box, fill):
                refuse(values, low, form)
            raise
    values, states = grid.to_array(box, fill, max_bytes, progress=progress)
    refuse(values, box[0] if box else (0, 0, 0), form)
    return values.astype(form), states


def slabs(grid: Readable, box: "Bounds | None", fill: "Value | None") -> "Iterator[Tuple[np.ndarray, Coordinate]]":
    """Yields the values of a box by slabs along x, each with the coordinate of its first voxel."""
    (x, y, z), high = box or ((0, 0, 0), (-1, -1, -1))
    step = max(1, CHUNK // ((high[1] - y + 1) * (high[2] - z + 1) or 1))
    for first in range(x, high[0] + 1, step):
        yield grid.to_array(((first, y, z), (min(first + step - 1, high[0]), *high[1:])), fill)[0], (first, y, z)


def refuse(values: np.ndarray, low: Coordinate, form: np.dtype) -> None:
    """Raises RangeError with the first of some values that a dtype doesn't hold, and its coordinate. The first one lies at `low`."""
    for index in range(0, len(values)):
        part = values[index]
        with np.errstate(all="ignore"):
            good = part.astype(form).astype(np.int64) == part
        if form == np.uint64:
            good &= part >= 0
        if not good.all():
            y, z = np.argwhere(~good)[0].tolist()
            at = low[0] + index, low[1] + y, low[2] + z
            raise RangeError(f"the value {part[y, z]} at {at} is outside {form}: choose another dtype")
