# SPDX-License-Identifier: Apache-2.0
"""Volumes of labels in zarr stores, those that this package writes. vdb.formats.ome_zarr reads what others wrote.

A volume is a label image of OME-Zarr 0.4 with one level. Its group has

    .zattrs       multiscales, image-label with the names of labels, and vdb: what else a grid has, and the name of the group below
    NAME/0        the values with the axes z, y, x; here and below, chunks of the background or of zeros are absent
    NAME/toggled  1 where a voxel is active although it has the background, or inactive although it has another value
    NAME/sums     of each chunk of these two the CRC-32 of its bytes in the store, 0 if it is absent

A call that writes a volume makes a new group NAME, then replaces .zattrs, and then removes the former group.
"""
from __future__ import annotations

import contextlib
import errno
import json
import math
import os
import re
import secrets
import zlib
from typing import Any, Callable, Dict, Iterable, Mapping, NamedTuple, Optional, Sequence, Tuple
from urllib.parse import unquote

import numpy as np

from .errors import DtypeError, FormatError, RangeError, VolumeError
from .files import naming, replacing, synchronise
from .formats.volume import package
from .forms import COORDINATE_SPAN, KINDS, Coordinate, Metadata, Value, check_bounds
from .images import affine_of, moved

ARRAYS, SUMS, ATTRIBUTES = ("0", "toggled"), "sums", ".zattrs"
VERSION = 2
#: The most chunks that the box of a volume may have, absent ones too.
MOST_CHUNKS = 2**27
#: The form of the name of a group that one call wrote.
WRITTEN = re.compile(r"[0-9a-f]{16}\Z")
#: The short names of units.
UNITS = {"meter": "m", "millimeter": "mm", "micrometer": "um", "nanometer": "nm"}

#: The least and the greatest corner of a box, both included: an array (2 x 3, int64), or what NumPy makes one of.
Box = Any


class ChunksFault(FormatError):
    """A volume in chunks has another form, or a chunk of it has other bytes than were written."""

    fault = "chunks"


class Form(NamedTuple):
    """The type of values of a volume, its background, whether it is a mask, the dtype of the array, the coordinate of its first voxel, its
    shape, and how many voxels a chunk has along each axis."""

    kind: str
    background: Value
    is_mask: bool
    dtype: str
    low: Coordinate
    shape: Coordinate
    side: int

    def check(self) -> "Form":
        """Returns the form itself. Raises DtypeError, RangeError or KeyError if a part of it is wrong."""
        KINDS[self.kind].check(self.background, "background")
        if isinstance(self.side, bool) or not isinstance(self.side, (int, np.integer)):
            raise DtypeError(f"the side of chunks is an integer, not {self.side!r}")
        if self.side % 8 or not 8 <= self.side <= 512:
            raise RangeError(f"the side of chunks is a multiple of 8 from 8 to 512, not {self.side}")
        (x, y, z), shape = map(int, self.low), tuple(map(int, self.shape))
        if np.dtype(self.dtype).kind not in "iu" or len(shape) != 3 or min(shape) < 0:
            raise RangeError(f"the dtype {self.dtype} isn't of integers, or {self.shape} no shape")
        made = self._replace(side=int(self.side), low=(x, y, z), shape=shape)  # type: ignore[arg-type]
        made.counts
        return made

    @property
    def counts(self) -> "Tuple[int, ...]":
        """How many chunks the array has along z, y and x. Raises RangeError if there are too many for the list of their checksums."""
        found = tuple(-(-length // self.side) for length in self.shape[::-1])
        if math.prod(found) > MOST_CHUNKS:
            raise RangeError(f"the box of a volume has at most {MOST_CHUNKS:,} chunks, not {' x '.join(map(str, found))}: choose a larger side")
        return found

    @property
    def box(self) -> Box:
        """The box of the array."""
        return np.array([self.low, np.add(self.low, self.shape) - 1])

    def cubes(self, box: Box, side: int) -> "Tuple[slice, ...]":
        """Returns which cubes of a side a box meets, counted from the first voxel of the array along each axis."""
        first, last = (np.asarray(box) - self.low) // side
        most = -(-np.array(self.shape) // side)
        return tuple(map(slice, np.clip(first, 0, most).tolist(), np.clip(last + 1, 0, most).tolist()))

    def chunks(self, box: Box) -> "Tuple[slice, ...]":
        """Returns which part of the checksums a box has."""
        return (slice(None), *self.cubes(box, self.side)[::-1])

    def present(self, sums: np.ndarray) -> np.ndarray:
        """Returns the boxes (n x 2 x 3) of the chunks that have a checksum."""
        low = np.argwhere(sums.any(axis=0).T) * self.side + self.low
        return np.stack([low, low + self.side - 1], axis=1)

    def cuts(self, side: int, low: Sequence[int], shape: Sequence[int]) -> "Tuple[Tuple[int, ...], ...]":
        """Returns the lengths of the parts into which the borders of cubes of a side cut each axis of a box."""
        axes = [[it, *range(it - (it - at) % side + side, it + length, side), it + length] for at, it, length in zip(self.low, low, shape)]
        return tuple(tuple(past - first for first, past in zip(ends, ends[1:])) for ends in axes)


class Entry(NamedTuple):
    """What was written to a box: how many voxels are active, their bounding box, or None if none is, and the checksums of the chunks."""

    box: Box
    voxels: int
    bounds: "Box | None"
    sums: np.ndarray


class Volume(NamedTuple):
    """A volume: the path of its group, the name of the group of its arrays, its form, and the checksums of its chunks."""

    path: str
    written: str
    form: Form
    sums: np.ndarray

    def read(self, box: Box) -> "Tuple[np.ndarray, np.ndarray | None]":
        """Returns the values of a box and its states, or None for these if all voxels but those of the background are active. Raises
        ChunksFault, which names it, if a chunk is missing or has other bytes than were written."""
        form, (store, part) = self.form, self._checked(box)
        values = self._part(store, 0, box, np.full(sides(box)[::-1], form.background, form.dtype))
        values = values.view(np.bool_) if form.kind == "bool" else values
        if not self.sums[part][1].any():
            return values, None
        return values, (values != form.background) ^ self._part(store, 1, box, np.zeros(sides(box)[::-1], np.bool_))

    def write(self, box: Box, values: Any, active: "np.ndarray | None" = None, shown: Any = None) -> Entry:
        """Writes a box of whole chunks: values, and states, or None for these if all voxels but those of the background are active. For the
        values of a volume that `is_copied` its chunks are copied, and `shown` says which voxels haven't the background."""
        shown = values != self.form.background if shown is None else shown
        store, part = store_of(self.path), self.form.chunks(box)
        states, here = shown if active is None else active, slices(box, self.form.low)[::-1]
        with naming(self.path):
            try:
                if isinstance(values, Volume):
                    self._copy(store, values, box)
                else:
                    self._array(store, 0)[here] = turned(values)
                if active is not None and not np.array_equal(states, shown):
                    self._array(store, 1)[here] = (states ^ shown).T
            finally:
                if f"{self.written}/.zgroup" not in store:  # another block failed, and what was written is removed
                    remove(store, self.written)
        ends = [np.flatnonzero(states.any(axis=axes))[[0, -1]] for axes in ((1, 2), (0, 2), (0, 1))] if states.any() else []
        return Entry(box, int(np.count_nonzero(states)), np.transpose(ends) + box[0] if ends else None, self._sums(store, part))

    def is_copied(self, source: Any) -> bool:
        """Returns whether the chunks of a volume have the form and the places of those here, so that their bytes can be copied."""
        form = self.form._replace(low=source.form.low, shape=source.form.shape)
        return isinstance(source, Volume) and form == source.form and not (np.subtract(self.form.low, form.low) % form.side).any()

    def _copy(self, store: Any, source: "Volume", box: Box) -> None:
        """Copies the chunks of values of a box."""
        near, part = source._checked(box)
        step = np.subtract(source.form.low, self.form.low)[::-1] // self.form.side
        for at in np.argwhere(source.sums[part][:1]):
            store[self._key(part, at + [0, *step])] = near[source._key(part, at)]

    def _checked(self, box: Box) -> "Tuple[Any, Tuple[slice, ...]]":
        """Returns a store that keeps the chunks of a box, and which part of the checksums they have. Raises ChunksFault as `read` does."""
        part, store = self.form.chunks(box), package("zarr", "python3-zarr").LRUStoreCache(store_of(self.path), None)
        wrong = np.argwhere(self._sums(store, part) != self.sums[part])
        if len(wrong):
            key = self._key(part, wrong[0])
            raise ChunksFault(None, "the chunk has other bytes than were written" if key in store else "the chunk is missing", f"{self.path}/{key}")
        return store, part

    def beside(self, kind: str) -> "Volume":
        """Makes another volume of the same shape, of another type, in a group that is removed when this one is written."""
        made = self._replace(written=secrets.token_hex(8), form=self.form._replace(kind=kind, dtype=KINDS[kind].dtype.name), sums=no_sums(self.form))
        with naming(self.path):
            create(store_of(self.path), made)
        return made

    def _array(self, store: Any, which: int) -> Any:
        """Returns the array of values (0) or of toggled states (1). Raises ChunksFault if the store has none."""
        name = f"{self.written}/{ARRAYS[which]}"
        try:
            return package("zarr", "python3-zarr").Array(store, name, write_empty_chunks=False)
        except (ValueError, KeyError, TypeError) as error:
            raise ChunksFault(None, f"no array of zarr: {error}", f"{self.path}/{name}") from error

    def _part(self, store: Any, which: int, box: Box, made: np.ndarray) -> np.ndarray:
        """Reads what an array has of a box into another one with the axes z, y, x. Returns that with the axes x, y, z."""
        both = np.array([np.maximum(box[0], self.form.low), np.minimum(box[1], self.form.box[1])])
        if min(sides(both)) > 0:
            self._array(store, which).get_basic_selection(slices(both, self.form.low)[::-1], out=made[slices(both, box[0])[::-1]])
        return made.T

    def _key(self, part: "Tuple[slice, ...]", at: Sequence[int]) -> str:
        """Returns the key of a chunk by its place in a part of the checksums."""
        return "/".join([self.written, ARRAYS[at[0]], *(str(it.start + step) for it, step in zip(part[1:], at[1:]))])

    def _sums(self, store: Any, part: "Tuple[slice, ...]") -> np.ndarray:
        """Returns the checksums of the bytes that the store has now."""
        found = np.zeros_like(self.sums[part])
        with naming(self.path):
            for at in np.ndindex(found.shape):
                data = store.get(self._key(part, at))
                found[at] = 0 if data is None else sum_of(data)
        return found


#: What writes boxes of a volume, and returns their entries.
Compute = Callable[[Volume], "Iterable[Optional[Entry]]"]


def dtype_of(kind: str, dtype: Any, values: "Sequence[Value]") -> str:
    """Returns a dtype of integers if it holds some values of a type of grid, else that of the type. Booleans are bytes."""
    if kind == "bool":
        return "uint8"
    span = np.iinfo(dtype)
    return (np.dtype(dtype) if all(span.min <= value <= span.max for value in values) else KINDS[kind].dtype).name


def sum_of(data: Any) -> int:
    """Returns the CRC-32 of some bytes, or 1 if that is 0."""
    return zlib.crc32(data) or 1


def store_of(path: str) -> Any:
    """Returns the store of a path or a URL of fsspec. Raises ImportError without zarr."""
    return package("zarr.storage", "python3-zarr").normalize_store_arg(path, mode="a")


def whole(array: Any, path: str) -> Any:
    """Returns an array whose chunks of Blosc are a VolumeError if their head tells of other lengths than theirs: Blosc itself would read past
    their end, or allocate what the head says."""
    if array.compressor and array.compressor.codec_id == "blosc":
        decode, needed = array.compressor.decode, 0 if array.filters else math.prod(array.chunks) * array.dtype.itemsize

        def checked(data: Any, *out: Any) -> Any:
            made, length = (int.from_bytes(bytes(data[at : at + 4]), "little") for at in (4, 12))
            if length != len(data) or needed not in (0, made):
                raise VolumeError(f"a chunk of {len(data):,} bytes, which isn't the length that Blosc wrote", path)
            return decode(data, *out)

        array.compressor.decode = checked
    return array


def is_local(path: str) -> bool:
    """Returns whether a path isn't a URL of fsspec."""
    return "://" not in path


def is_store(path: "str | os.PathLike[str]") -> bool:
    """Returns whether a path is that of a store by its ending, or of a group in one."""
    return re.search(r"\.zarr(/|$)", os.fspath(path), re.IGNORECASE) is not None


def path_of(path: "str | os.PathLike[str]") -> str:
    """Returns the whole path of a local store, or a URL as it is."""
    return os.path.abspath(path) if is_local(os.fspath(path)) else os.fspath(path).rstrip("/")


def sides(box: Box) -> "Tuple[int, int, int]":
    """Returns the shape of a box."""
    return tuple((box[1] - np.asarray(box[0]) + 1).tolist())  # type: ignore[return-value]


def slices(box: Box, low: Sequence[int]) -> "Tuple[slice, ...]":
    """Returns the indices of a box in an array whose first voxel lies at `low`."""
    return tuple(map(slice, (box[0] - np.asarray(low)).tolist(), (box[1] + 1 - np.asarray(low)).tolist()))


def turned(values: np.ndarray) -> np.ndarray:
    """Returns an array with its axes reversed, in row order. It copies plane by plane, which meets fewer pages of memory at a time."""
    if values.flags.f_contiguous:
        return values.T
    made = np.empty(values.shape[::-1], values.dtype)
    for at in range(values.shape[1]):
        made[:, at] = values[:, at].T
    return made


def grown(box: Box, halo: int) -> Box:
    """Returns a box and the voxels up to `halo` from it along each axis."""
    return np.clip(np.add(box, [[-halo], [halo]]), -COORDINATE_SPAN, COORDINATE_SPAN - 1)


def around(boxes: "Iterable[Box | None]") -> "Box | None":
    """Returns the bounding box of boxes, or None if there is none."""
    some = np.array([box for box in boxes if box is not None])
    return np.array([some[:, 0].min(axis=0), some[:, 1].max(axis=0)]) if len(some) else None


def attributes_of(path: str) -> "Dict[str, Any]":
    """Returns the attributes of a group, or none. Raises FileError, and ChunksFault if they aren't JSON."""
    with naming(path):
        if is_local(path):
            os.stat(path)
        try:
            return dict(json.loads(store_of(path).get(ATTRIBUTES, b"{}")))
        except (ValueError, TypeError) as error:
            raise ChunksFault(None, f"no attributes of zarr: {error}") from error


def read_volume(path: str) -> "Tuple[Volume, Dict[str, Any]]":
    """Returns a volume and the attributes of its group. Raises FileError if there is none, and ChunksFault if it has another form."""
    attributes = attributes_of(path)
    with naming(path):
        if "vdb" not in attributes:
            raise FileNotFoundError(errno.ENOENT, "No volume in chunks")
        try:
            found = attributes["vdb"]
            if found["version"] != VERSION or not WRITTEN.match(found["written"]):
                raise RangeError(f"the version is {found['version']!r} and not {VERSION}, or {found['written']!r} no name of a group")
            form = Form(*(found[key] for key in Form._fields)).check()
            found["bounds"] = found["bounds"] and check_bounds(found["bounds"])
            found["count"], found["metadata"] = int(found["count"]), Metadata(found["metadata"])
            sums = whole(package("zarr", "python3-zarr").Array(store_of(path), f"{found['written']}/{SUMS}"), path)
            # the shape first: a wrong one may promise more than there is memory for
            sums = sums[...] if sums.shape == (2, *form.counts) else np.empty(0)
            if sum_of(sums.tobytes()) != found["sums"]:
                raise RangeError("the checksums of the chunks are others than were written")
        except (ValueError, TypeError, KeyError, RuntimeError) as error:
            raise ChunksFault(None, f"the volume has another form: {type(error).__name__}: {error}") from error
    return Volume(path, found["written"], form, sums), attributes


def no_sums(form: Form) -> np.ndarray:
    """Returns the checksums of a volume without chunks."""
    return np.zeros((2, *form.counts), np.uint32)


def write_volume(path: str, form: Form, metadata: "Mapping[str, str]", label: "Mapping[str, Any]", compute: Compute) -> None:
    """Writes a volume to a group, its arrays to a new one in it. `label` is what the attribute image-label says.

    At the end the attributes are replaced, and all groups that they don't name are removed, such as that of a program that died. Raises
    VolumeError, before anything is written, if something else of zarr, or a volume of scene files, is there.
    """
    with naming(path):
        if is_local(path):
            os.makedirs(path, exist_ok=True)
        store = store_of(path)
        is_group = ".zgroup" in store
        if any(key in store for key in (".zarray", ATTRIBUTES, "chunks.json")) and "vdb" not in attributes_of(path):
            raise VolumeError("another array, image or volume is there, which isn't overwritten", path)
    made = Volume(path, secrets.token_hex(8), form, no_sums(form))
    try:
        with naming(path):
            sums = create(store, made)
        entries = [entry for entry in compute(made) if entry]
        for entry in entries:
            made.sums[form.chunks(entry.box)] = entry.sums
        bounds = around(entry.bounds for entry in entries)
        found = {
            "version": VERSION, "written": made.written, **form._asdict(), "count": sum(entry.voxels for entry in entries),
            "bounds": None if bounds is None else bounds.tolist(), "sums": sum_of(made.sums.tobytes()), "metadata": dict(metadata),
        }  # fmt: skip
        with naming(path):
            sums[...] = made.sums
            settle(os.path.join(path, made.written) if is_local(path) else "")
            replace_attributes(path, {"multiscales": [multiscales(made, metadata)], "image-label": {"version": "0.4", **label}, "vdb": found})
    finally:
        kept = attributes_of(path).get("vdb", {}).get("written")
        for name in [it for it in store.listdir("") if WRITTEN.match(it) and it != kept]:
            remove(store, name)
        if not kept and not is_group:
            store.pop(".zgroup", None)


def remove(store: Any, name: str) -> None:
    """Removes a group, which others may write to or remove meanwhile."""
    store.pop(f"{name}/.zgroup", None)  # who writes to it from now on removes it once more
    for _ in range(9):
        with contextlib.suppress(OSError):
            return store.rmdir(name)


def create(store: Any, made: Volume) -> Any:
    """Makes the arrays of a volume. Returns that of the checksums."""
    form, codec, library = made.form, package("numcodecs", "python3-numcodecs").Blosc("zstd", 1), package("zarr", "python3-zarr")
    for name, chunks, dtype, fill in (
        (ARRAYS[0], (form.side,) * 3, form.dtype, int(form.background)), (ARRAYS[1], (form.side,) * 3, "u1", 0), (SUMS, (1, 64, 64, 64), "u4", 0),
    ):  # fmt: skip
        shape = made.sums.shape if name == SUMS else form.shape[::-1]
        array = library.create(
            shape, chunks, dtype, codec, fill, store=store, path=f"{made.written}/{name}", dimension_separator="/", write_empty_chunks=False
        )
    return array


def settle(folder: str) -> None:
    """Puts the files below a local folder on the disk, other than those that a worker left when it was killed, which are removed."""
    for place, _, names in os.walk(folder):
        for name in [os.path.join(place, it) for it in names]:
            if name.endswith(".partial"):
                os.unlink(name)
                continue
            with open(name, "rb") as file:
                os.fsync(file.fileno())
        synchronise(place)


def replace_attributes(path: str, attributes: "Mapping[str, Any]") -> None:
    """Replaces the attributes of a group at once."""
    data = json.dumps(attributes).encode()
    if not is_local(path):
        store_of(path)[ATTRIBUTES] = data
        return
    with replacing(os.path.join(path, ATTRIBUTES)) as file:
        file.write(data)


def keep_label(path: str, label: "Mapping[str, Any]") -> None:
    """Sets what the attribute image-label of a volume says."""
    replace_attributes(path, {**attributes_of(path), "image-label": {"version": "0.4", **label}})


def multiscales(made: Volume, metadata: "Mapping[str, str]") -> "Dict[str, Any]":
    """Returns the only level of a volume for OME-Zarr. That has no rotations: of other affines it says the sizes of voxels alone."""
    affine = affine_of(metadata)
    scale = np.linalg.norm(affine[:, :3], axis=0)
    start = moved(affine, made.form.low)[:, 3] if np.array_equal(affine[:, :3], np.diag(scale)) else scale * made.form.low
    long, units = {short: unit for unit, short in UNITS.items()}, metadata.get("image_units", "").split(",")
    axes = [{"name": axis, "type": "space", "unit": long.get(unit, unquote(unit))} for axis, unit in zip("xyz", units * 3)]
    level = [{"type": "scale", "scale": scale[::-1].tolist()}, {"type": "translation", "translation": start[::-1].tolist()}]
    return {
        "version": "0.4", "name": made.path.rpartition("/")[2], "axes": [{key: text for key, text in axis.items() if text} for axis in axes[::-1]],
        "datasets": [{"path": f"{made.written}/{ARRAYS[0]}", "coordinateTransformations": level}],
    }  # fmt: skip
