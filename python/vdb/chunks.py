# SPDX-License-Identifier: Apache-2.0
"""Label volumes past the memory of one machine: zarr stores that dask's schedulers change, block by block.

    from dask.diagnostics import ProgressBar
    from vdb import chunks
    with ProgressBar():
        labels = chunks.from_array("image.zarr", "labels.zarr")
        margin = labels.select(3, "organ.zarr").dilate(2, "margin.zarr").subtract(labels, "margin.zarr")
    print(margin.count, margin.bounds)

`tqdm.dask.TqdmCallback`, or any other callback of dask, reports in place of `ProgressBar`.
Each call runs on the current scheduler of dask: threads, or the workers of a `distributed.Client`. Its result is that of the same call on
one grid that holds the whole volume. docs/TOOLS.md of the repository shows more.
"""
from __future__ import annotations

import os
import warnings
from functools import partial
from itertools import product
from typing import Any, Callable, Iterator, Mapping, Sequence, Union

import numpy as np

from . import label_names, labels as measured
from .blocks import Labels, grouped, joined
from .chunk_files import INDEX, Folder, read_folder
from .errors import DtypeError, RangeError, VdbWarning
from .formats.ome_zarr import opened
from .forms import KINDS, Array, Bounds, Coordinate, Metadata, Value, check_bounds, check_box, kind_of_array, narrowed
from .grid import Grid
from .image_view import dtype_of as image_dtype
from .images import Image, agreed, moved
from .label_names import Names
from .manners import Voxels
from .mask import Mask
from .reading import MAX_BYTES, check_bytes
from .zarr_stores import (
    Box, ChunksFault, Compute, Entry, Form, Volume, around, dtype_of, grown, path_of, read_volume, sides, slices, write_volume,
)  # fmt: skip

try:
    import dask
    import dask.array
    import zarr
    from dask.base import get_scheduler
    from dask.callbacks import Callback
    from dask.diagnostics import ProgressBar
except ImportError as error:
    packages = "Debian has it as python3-dask, with python3-distributed for clusters and python3-zarr for zarr stores"
    raise ImportError(f"vdb.chunks needs dask and zarr ({error}): {packages}") from error

__all__ = ["Chunks", "ChunksFault", "open", "from_array", "convert"]

#: A task works on a block of whole chunks, of about so many voxels along each axis.
BLOCK = 256
#: The bits of the number of a component of a block, above which is that of the block.
LOW_BITS = 2**32 - 1
#: The calls that change states alone.
OF_STATES = {"dilate", "erode", "unite", "subtract", "intersect"}

Path = Union[str, "os.PathLike[str]"]
Source = Union[Volume, Folder]


class Chunks(Voxels):
    """A label volume in a zarr store, a label image of OME-Zarr with the axes z, y, x. Chunks that hold only the background, inactive, are
    absent. `folder` is a path, or a URL of fsspec.

    A call that makes a volume has the arguments of that of `Grid`, then the folder for the result, and returns it. When all of it is
    written, the result replaces a volume that is in that folder, which may be the one called. `Chunks` of the replaced one can't be used
    then. After an error, or if the program ends in the middle, the folder has the old volume. Only one call at a time may write to a folder.
    Reading compares each chunk with its checksum, and raises ChunksFault, which names it, if it is missing or has other bytes.

    Examples
    --------
    >>> organ = chunks.from_array(np.full((9, 9, 9), 3), "labels.zarr", side=8).select(3, "organ.zarr")
    >>> margin = organ.dilate(1, "margin.zarr").subtract(organ, "margin.zarr")
    >>> margin.count, margin.measure().area.tolist(), margin.components("parts.zarr", 26).measure().voxels.tolist()
    (486, [1188.0], [486])
    """

    _dense = "chunks.to_array(bounds)[0], an array of dask"

    def __init__(self, folder: Path) -> None:
        """Opens the volume in a folder, also one of scene files that version 1.1 wrote. Raises MissingFileError if there is none, and
        ChunksFault if it has another form."""
        self.folder = path_of(folder)
        read: Any = read_folder if os.path.isfile(os.path.join(self.folder, INDEX)) else read_volume
        self._source: Source
        self._source, self._attributes = read(self.folder)
        self._about = self._attributes["vdb"]

    @property
    def kind(self) -> str:
        """The type of values: "bool", "i32" or "i64"."""
        return self._source.form.kind

    @property
    def background(self) -> Value:
        """The value of every voxel that nothing was written to."""
        return self._source.form.background

    @property
    def side(self) -> int:
        """How many voxels a chunk has along each axis."""
        return self._source.form.side

    @property
    def metadata(self) -> Metadata:
        """The metadata pairs, which are those of a grid (a copy). Each volume that is made of this one keeps those of its image."""
        return Metadata(self._about["metadata"])

    @property
    def names(self) -> Names:
        """The names of labels by their values. Each volume of values that is made of this one keeps them."""
        return label_names.of_image_label(self._attributes.get("image-label", {}))

    @property
    def count(self) -> int:
        """How many voxels are active."""
        return self._about["count"]

    @property
    def bounds(self) -> "Bounds | None":
        """The bounding box of the active voxels, its least and greatest coordinates, or None if no voxel is active."""
        return self._about["bounds"]

    def __repr__(self) -> str:
        chunks = np.count_nonzero(self._source.sums.any(axis=0))
        return f"<Chunks {self.kind}, {chunks:,} of side {self.side}, {self.count:,} active voxels, in {self.folder}>"

    def blocks(self) -> "list[Bounds]":
        """Returns the boxes of the blocks in which calls work, those that hold more than the background. Each is of whole chunks."""
        return [check_bounds(box) for box in blocks_of(self._source.form, [(self._source, 0)])]

    def grid(self, bounds: "Sequence[Sequence[int]]") -> Grid:
        """Returns the voxels of a box as a grid, or of what `select` made as a mask, with the image and the names of labels."""
        made = grid_of(self._source, np.array(check_bounds(bounds)), metadata=self.metadata)
        label_names.give(made, self.folder, self.names)
        return made

    def map(self, call: "Callable[[Grid], Any]", halo: int = 0) -> "list[Any]":
        """Returns what a call of a grid returns for each of `blocks()`, in their order. The grid has the voxels of the block, and those up to
        `halo` voxels from it, and the image. `call` is pickled if processes work."""
        return [*each(partial(mapped, call, self._source, halo, dict(self.metadata)), self.blocks())]

    def labels(self) -> Labels:
        """Returns the values of active voxels with their numbers and bounding boxes, as `Grid.labels` does."""
        return grouped(joined([Grid(self.kind).labels(), *self.map(Grid.labels)]))

    def measure(self, spacing: "Sequence[float] | None" = None) -> measured.Measures:
        """Returns the measures of each label, as `vdb.labels.measure` does."""
        sizes = measured.spacing_of(self.metadata, spacing)
        found = each(partial(tally_block, self._source), self.blocks())
        return measured.measures(measured.merged([measured.tally(Grid(self.kind)), *found]), sizes)

    def components(self, folder: Path, connectivity: int = 6) -> "Chunks":
        """Makes the volume of component numbers that `vdb.labels.components` returns. Until it is written, the folder also has the components
        of blocks, 64 bits a voxel."""
        made = measured.components(Grid(self.kind, metadata=self.metadata), connectivity)  # raises the error of a wrong argument
        source, form = self._source, self._source.form
        form = form._replace(kind="i32", background=0, is_mask=False, dtype="int32", side=min(self.side, 512)).check()
        boxes = blocks_of(form, [(source, 0)])

        def compute(target: Volume) -> "Sequence[Entry | None]":
            parts = target.beside("i64")
            found = each(partial(number_block, source, connectivity, parts), boxes, [at << 32 for at in range(len(boxes))])
            for entry, _ in found:
                parts.sums[parts.form.chunks(entry.box)] = entry.sums
            pairs = np.concatenate([np.zeros((0, 2), np.int64), *each(partial(join_block, source, connectivity, parts), boxes)])
            counts = np.array([len(firsts) for _, firsts in found], np.int64)
            nodes = (np.cumsum(counts) - counts)[pairs >> 32] + (pairs & LOW_BITS) - 1
            ranks, _ = measured.ranked(nodes.T, np.concatenate([np.zeros((0, 3), np.int32), *(firsts for _, firsts in found)]))
            return each(partial(renumber_block, parts, target), boxes, np.split(ranks, np.cumsum(counts)))

        return written(folder, form, made.metadata, {}, compute)

    def to_array(self, bounds: "Sequence[Sequence[int]] | None" = None, fill: "Value | None" = None) -> "tuple[Any, Any]":
        """Returns the values and the states (bool) of a box as arrays of dask, which read the store when they are computed. Bounds and fill
        are those of `Grid.to_array`."""
        form, kind = self._source.form, KINDS[self.kind]
        fill = None if fill is None else kind.check(fill, "fill")
        low, high = (self.bounds if bounds is None else check_bounds(bounds)) or ((0, 0, 0), (-1, -1, -1))
        parts = form.cuts(block_side(form), low, sides(np.array([low, high])))
        values, active = (
            dask.array.map_blocks(partial(read_block, self._source, low, fill, which), chunks=parts, meta=np.empty((0, 0, 0), dtype))
            for which, dtype in enumerate((kind.dtype, np.dtype(np.bool_)))
        )
        return values, active

    def __array__(self, dtype: Any = None, copy: "bool | None" = None) -> np.ndarray:
        """Returns the values of the bounding box of the active voxels. Raises ArrayTooLargeError for more than 2 GiB."""
        values = self.to_array()[0]
        check_bytes(values.shape, values.nbytes, MAX_BYTES)
        return np.asarray(run([values])[0], dtype)

    @property
    def image(self) -> Any:
        """The volume's image as an array of dask of the file's shape and dtype. Raises RangeError if the chunks have none, and when it is
        computed, for a value that the dtype doesn't hold."""
        image, own = Image.of(self.metadata), KINDS[self.kind].dtype
        if image is None:
            raise RangeError("the chunks have no image: use chunks.to_array(bounds)")
        dtype = image_dtype(image, own)
        if not image.bounds:
            return dask.array.empty(image.shape, dtype)
        return self.to_array(image.bounds)[0].map_blocks(partial(narrowed, dtype=dtype), dtype=dtype)

    def _mask(self, _is_chosen: object) -> Any:
        raise DtypeError("a comparison of chunks has no folder for its mask: use chunks.select(values, folder)")

    def select(self, values: Array, folder: Path) -> "Chunks":
        """Makes a mask, which is active and True where this volume is active and has the value, or one of some values."""
        return self._changed(folder, "select", values)

    def relabel(self, pairs: "Mapping[Any, Any]", folder: Path) -> "Chunks":
        """Makes a copy in which each active voxel whose value is a key of `pairs` has the value of that key."""
        return self._changed(folder, "relabel", dict(pairs), values=[*dict(pairs).values()])

    def dilate(self, iterations: int, folder: Path) -> "Chunks":
        """Makes a copy that activates, in each of 1 to 16 iterations, every voxel that has an active face neighbour."""
        return self._changed(folder, "dilate", iterations, halo=iterations, grows=self)

    def erode(self, iterations: int, folder: Path) -> "Chunks":
        """Makes a copy that deactivates, in each of 1 to 16 iterations, every voxel that has an inactive face neighbour."""
        return self._changed(folder, "erode", iterations, halo=iterations)

    def dilate_label(self, value: Value, iterations: int, folder: Path) -> "Chunks":
        """Makes a copy in which one label grows into inactive voxels alone, in 1 to 16 iterations."""
        return self._changed(folder, "dilate_label", value, iterations, halo=iterations, grows=self)

    def unite(self, other: "Chunks", folder: Path, *, ignore_geometry: bool = False) -> "Chunks":
        """Makes a copy that is also active where the other volume is. Types and sides may differ."""
        return self._changed(folder, "unite", other=other, grows=other, ignore_geometry=ignore_geometry)

    def subtract(self, other: "Chunks", folder: Path, *, ignore_geometry: bool = False) -> "Chunks":
        """Makes a copy that is inactive where the other volume is active. Types and sides may differ."""
        return self._changed(folder, "subtract", other=other, ignore_geometry=ignore_geometry)

    def intersect(self, other: "Chunks", folder: Path, *, ignore_geometry: bool = False) -> "Chunks":
        """Makes a copy that is active only where the other volume is too. Types and sides may differ."""
        return self._changed(folder, "intersect", other=other, ignore_geometry=ignore_geometry)

    def _changed(
        self, folder: Path, name: str, *arguments: Any, other: "Chunks | None" = None, halo: int = 0, grows: "Chunks | None" = None,
        values: Sequence[Value] = (), ignore_geometry: bool = False,
    ) -> "Chunks":  # fmt: skip
        """Writes this volume to a folder, changed by a call of its grids, perhaps with another volume. The call depends on voxels up to `halo`
        voxels away, may activate some as far from the active ones of the volume `grows`, and may write the `values`."""
        source, form = self._source, self._source.form
        new = Mask(metadata=self.metadata) if form.is_mask else Grid(self.kind, self.background, metadata=self.metadata)
        made = called(name, arguments, new, Grid("bool") if other else None)  # raises the error of a wrong argument
        metadata = made.metadata if other is None or ignore_geometry else agreed(made.metadata, other.metadata, made.dtype)
        box = form.box if min(form.shape) else None
        if grows and grows.bounds:
            box = around([box, grown(grows.bounds, halo)])
        low, shape = (form.low, form.shape) if box is None else (box[0], sides(box))
        dtype = dtype_of(made.kind, form.dtype, values)
        form = Form(made.kind, made.background, isinstance(made, Mask), dtype, low, shape, min(self.side, 512)).check()
        boxes = blocks_of(form, [(source, halo if grows else 0), *([(grows._source, halo)] if grows else [])])

        def compute(target: Volume) -> "Sequence[Entry | None]":
            if name not in OF_STATES:
                return each(partial(change_block, source, name, arguments, halo, target), boxes)
            call = partial(change_states, source, other and other._source, name, arguments, halo, target)
            return each(call, boxes, states_around(source, boxes, halo))

        return written(folder, form, metadata, self.names if made.kind == self.kind else {}, compute)


open = Chunks


def from_array(
    values: Any, folder: Path, side: int = 128, origin: Sequence[int] = (0, 0, 0), background: "Value | None" = None,
    metadata: "Mapping[str, str] | None" = None, names: "Names | None" = None,
) -> Chunks:  # fmt: skip
    """Writes a label volume to a folder and returns it. Voxels other than the background are active.

    `values` is an array of dask, zarr or NumPy with the axes x, y, z, or the path of a zarr store. If that is one of xarray or OME-Zarr,
    its axes are those named so, and level 0 is taken. Its dtype is one that `Grid.from_array` takes, and the store keeps it. `origin` is the
    coordinate of `values[0, 0, 0]`. `side` is a multiple of 8 up to 512 voxels, that of a chunk. `metadata` are pairs; those of the image
    of a store replace theirs. `names` are those of labels, else those in the store.

    Errors are those of `Grid.from_array`. For a store they are FileError, and VolumeError if it has no such array, or if something else of
    zarr is in the folder.

    Examples
    --------
    >>> labels = chunks.from_array(np.arange(3000).reshape(10, 10, 30), "labels.zarr", side=16)
    >>> labels.count, labels.bounds
    (2999, ((0, 0, 0), (9, 9, 29)))
    """
    pairs = Metadata(metadata)
    if isinstance(values, (str, os.PathLike)):
        found = opened(path_of(values))
        if found.has_states:
            warnings.warn(f"{values}: the states of the volume aren't taken: chunks.convert copies them", VdbWarning, stacklevel=2)
        values = found.turned(dask.array.from_zarr(found.array))
        low = check_box(origin, values.shape)
        Image(low, values.shape, values.dtype, moved(found.affine, [-at for at in low]), found.notes).keep(pairs)
        names = label_names.of_image_label(found.label) if names is None else names
    kind = kind_of_array(np.empty(0, values.dtype)).word
    filled = Grid(kind, background).background
    form = Form(kind, filled, False, dtype_of(kind, values.dtype, [filled]), check_box(origin, values.shape), values.shape, side).check()

    def compute(target: Volume) -> "Sequence[Entry | None]":
        most = block_side(form)
        cuts = form.cuts(most, form.low, form.shape)
        blocks = values if isinstance(values, dask.array.Array) else dask.array.from_array(values, cuts, name=False)
        if any(max(it) > most or any(at % form.side or 2 * at < most for at in it[:-1]) for it in blocks.chunks):
            blocks = blocks.rechunk(cuts)  # other parts are blocks as they are
        entries = blocks.map_blocks(partial(write_block, target), chunks=[(1,) * it for it in blocks.numblocks], meta=np.empty((0, 0, 0), object))
        return run([entries])[0].flat

    return written(folder, form, pairs, names or {}, compute)


def convert(old: Path, folder: Path) -> Chunks:
    """Copies a volume, such as a folder of scene files that version 1.1 wrote, to another folder, and returns it.

    Examples
    --------
    >>> labels = chunks.from_array(np.ones((4, 4, 4), np.uint8), "labels.zarr")
    >>> chunks.convert("labels.zarr", "copy.zarr").bounds
    ((0, 0, 0), (3, 3, 3))
    """
    return Chunks(old)._changed(folder, "copy")


def written(folder: Path, form: Form, metadata: Metadata, names: Names, compute: Compute) -> Chunks:
    """Writes a volume to a folder and returns it."""
    write_volume(path_of(folder), form, metadata, label_names.image_label(names), compute)
    return Chunks(folder)


def block_side(form: Form) -> int:
    """Returns how many voxels a block has along each axis."""
    return form.side * max(1, BLOCK // form.side)


def blocks_of(form: Form, sources: "Sequence[tuple[Source, int]]") -> "list[Box]":
    """Returns the boxes of the blocks of a form that chunks of some volumes meet, or the voxels up to a halo from them."""
    side = block_side(form)
    found = np.zeros(-(-np.array(form.shape) // side), np.bool_)
    for source, halo in sources:
        for box in source.form.present(source.sums):
            found[form.cubes(grown(box, halo), side)] = True
    low = np.argwhere(found) * side + form.low
    return [grown((at, np.minimum(at + side - 1, form.box[1])), 0) for at in low]


def arrays_of(source: Source, box: Box) -> "tuple[np.ndarray, np.ndarray]":
    """Returns the values and the states of a box."""
    values, active = source.read(box)
    return values, values != source.form.background if active is None else active


def grid_of(source: Source, box: Box, is_turned: bool = False, metadata: "Mapping[str, str] | None" = None) -> Grid:
    """Returns the voxels of a box as a grid or a mask, with the axes of the store, z, y, x, if it is turned. Then no array is copied."""
    values, active = source.read(box)
    origin = box[0]
    if is_turned:
        values, active, origin = values.T, None if active is None else active.T, origin[::-1]
    if source.form.is_mask:
        return Mask.from_array(np.ascontiguousarray(values), origin=origin, metadata=metadata)
    values = np.ascontiguousarray(values, KINDS[source.form.kind].dtype)
    return Grid.from_array(values, active, origin, source.form.background, metadata=metadata)


def mapped(call: "Callable[[Grid], Any]", source: Source, halo: int, metadata: "Mapping[str, str]", box: Box) -> Any:
    """Returns what a call returns for the voxels of a box and around it."""
    return call(grid_of(source, grown(box, halo), metadata=metadata))


def box_of(low: Coordinate, places: Any) -> Box:
    """Returns the box of a block of an array of dask whose first voxel lies at `low`."""
    first, past = np.transpose(places) + low
    return np.array([first, past - 1])


def write_block(target: Volume, block: np.ndarray, block_info: Any = None) -> np.ndarray:
    """Writes a block of an array to a volume that begins with it. Returns an array of one entry."""
    made = np.full((1, 1, 1), None, object)
    if block.size:
        made[0, 0, 0] = target.write(box_of(target.form.low, block_info[0]["array-location"]), block)
    return made


def read_block(source: Source, low: Coordinate, fill: "Value | None", which: int, block_info: Any = None) -> np.ndarray:
    """Returns the values (`which` is 0) or the states (1) of a block of an array whose first voxel lies at `low`."""
    values, active = arrays_of(source, box_of(low, block_info[None]["array-location"]))
    return active if which else (values if fill is None else np.where(active, values, fill)).astype(KINDS[source.form.kind].dtype)


def change_block(source: Source, name: str, arguments: tuple, halo: int, target: Volume, box: Box) -> Entry:
    """Writes a block of a volume to another one, changed. Its grids are turned, since no call here tells the axes apart."""
    turned = box[:, ::-1]
    made = called(name, arguments, grid_of(source, grown(box, halo), is_turned=True), None)
    if target.form.is_mask:
        return target.write(box, made[slices(turned, (0, 0, 0))].T)
    values, active = made.to_array(turned, dtype=np.dtype("bool" if made.kind == "bool" else target.form.dtype))
    return target.write(box, values.T, active.T)


def states_around(source: Source, boxes: "Sequence[Box]", halo: int) -> "list[list[Any]]":
    """Returns the tasks of dask that read the states of the blocks of a volume that have voxels of each box, or up to a halo from it."""
    form, task, side = source.form, dask.delayed(states_block), block_side(source.form)
    tasks = {tuple((box[0] - form.low) // side): task(source, box) for box in blocks_of(form, [(source, 0)])}
    near = (product(*(range(it.start, it.stop) for it in form.cubes(grown(box, halo), side))) for box in boxes)
    return [[tasks[at] for at in places if at in tasks] for places in near]


def states_block(source: Source, box: Box) -> "tuple[Box, np.ndarray, np.ndarray]":
    """Returns the box of a block, its states, and which voxels haven't the background, both as bits with the axes z, y, x."""
    values, active = source.read(box)
    shown = np.packbits((values != source.form.background).T, axis=2)
    return box, shown if active is None else np.packbits(active.T, axis=2), shown


def states_in(box: Box, blocks: "Sequence[tuple]", which: int) -> np.ndarray:
    """Returns the states of a box (`which` is 1), or which voxels haven't the background (2), by what `states_block` returns of blocks."""
    made = np.zeros(sides(box)[::-1], np.bool_).T
    for block in blocks:
        both = np.array([np.maximum(box[0], block[0][0]), np.minimum(box[1], block[0][1])])
        if min(sides(both)) > 0:
            x, y, z = slices(both, block[0][0])
            bits = np.unpackbits(block[which][z, y, x.start // 8 : -(-x.stop // 8)], axis=2).T
            made[slices(both, box[0])] = bits[x.start % 8 :][: x.stop - x.start]
    return made


def change_states(
    source: Source, other: "Source | None", name: str, arguments: tuple, halo: int, target: Volume, box: Box, blocks: "Sequence[tuple]"
) -> Entry:
    """Writes a block of a volume to another one with other states, by the states of the blocks around. No value goes into a grid."""
    near, turned = grown(box, halo), box[:, ::-1]
    second = Grid.from_array(arrays_of(other, box)[1].T, origin=turned[0]) if other else None
    made = called(name, arguments, Grid.from_array(states_in(near, blocks, 1).T, origin=near[0][::-1]), second)
    states = made.active[slices(turned, (0, 0, 0))].T
    if source.form.is_mask:
        return target.write(box, states)
    return target.write(box, source if target.is_copied(source) else source.read(box)[0], states, states_in(box, blocks, 2))


def low_sides(form: Form, box: Box, halo: int) -> "Iterator[tuple[int, Box]]":
    """Yields each axis along which another block may come before a block, and the box of the first plane of this one and the last of that one.
    Across that axis it goes up to `halo` voxels past the block."""
    for axis in np.flatnonzero(np.greater(box[0], form.low)):
        side = grown(box, halo)
        side[:, axis] = box[0][axis] - 1, box[0][axis]
        yield axis, side


def tally_block(source: Source, box: Box) -> measured.Tally:
    """Returns what is added up of a block, and of the faces between it and those before it."""
    own = arrays_of(source, box)
    made = [measured.tally_array(*own, box[0])]
    for axis, side in low_sides(source.form, box, 0):
        side[1, axis] -= 1  # the plane of the other block alone
        values, active = (np.concatenate([it, to.take([0], axis)], axis) for it, to in zip(arrays_of(source, side), own))
        made.append(measured.tally_faces(values, active, axis))
    return measured.merged(made)


def number_block(source: Source, connectivity: int, parts: Volume, box: Box, first: int) -> "tuple[Entry, np.ndarray]":
    """Writes the components of a block, with numbers past the first one. Returns also the first voxel of each."""
    made, firsts = measured.numbered(grid_of(source, box), connectivity)
    numbers = made.to_array(box, dtype=np.int64)[0]
    numbers[numbers > 0] += first
    return parts.write(box, numbers), firsts


def join_block(source: Source, connectivity: int, parts: Volume, box: Box) -> np.ndarray:
    """Returns the pairs of components of blocks (n x 2) that join where a block meets those before it."""
    found = [np.zeros((0, 2), np.int64)]
    for _, side in low_sides(source.form, box, 1):
        joined = measured.components(grid_of(source, side), connectivity).to_array(side)[0].ravel()
        both = np.stack([joined, parts.read(side)[0].ravel()])[:, joined > 0]
        rows = np.unique(both[:, (np.diff(both, prepend=0) != 0).any(axis=0)].T, axis=0)  # most voxels are as the one before
        same = rows[1:, 0] == rows[:-1, 0]
        found.append(np.stack([rows[:-1, 1][same], rows[1:, 1][same]], axis=1))
    return np.concatenate(found)


def renumber_block(parts: Volume, target: Volume, box: Box, ranks: np.ndarray) -> Entry:
    """Writes a block of components of blocks with other numbers, by the numbers that they have in the block."""
    return target.write(box, np.append(0, ranks).astype(np.int32)[parts.read(box)[0] & LOW_BITS])


def called(name: str, arguments: tuple, grid: Grid, other: "Grid | None") -> Grid:
    """Returns what a call of a grid returns, or the grid if that is changed by it, with another one as the last argument if it is given."""
    made = getattr(grid, name)(*arguments, *([] if other is None else [other]))
    return grid if made is None else made


def each(call: "Callable[..., Any]", *arguments: "Sequence[Any]") -> "Sequence[Any]":
    """Returns what a call returns for each of some arguments, computed by dask."""
    task = dask.delayed(call)
    return run([task(*it) for it in zip(*arguments)])


def run(collections: "Sequence[Any]") -> "Sequence[Any]":
    """Computes collections of dask on its current scheduler. Within `with ProgressBar():` a cluster shows the bar of distributed."""
    client = getattr(get_scheduler(), "__self__", None)
    bars = [call for calls in Callback.active for call in calls if isinstance(getattr(call, "__self__", None), ProgressBar)]
    if client is None or not bars:
        return dask.compute(*collections)
    from distributed import progress

    futures = client.compute(collections)
    progress(futures)
    return client.gather(futures)
