# SPDX-License-Identifier: Apache-2.0
"""The parts of a grid: leaves, and cubes of 8, 128 or 4,096 voxels along each axis. Their coordinates, runs and labels."""
from __future__ import annotations

from typing import TYPE_CHECKING, Iterator, Mapping, NamedTuple, Sequence, Union

import numpy as np

if TYPE_CHECKING:
    from .label_names import Label


class Rows(NamedTuple):
    """Leaves: least corners (n x 3, int32), values (n x 512, integers or bool) and states (n x 512, bool). Voxel 64 dx + 8 dy + dz of a row
    lies dx, dy and dz past the corner."""

    origins: np.ndarray
    values: np.ndarray
    active: np.ndarray


class Cubes(NamedTuple):
    """Active cubes of one side in voxels, each of one value: least corners (n x 3, int32) and values (n)."""

    low: np.ndarray
    side: int
    values: np.ndarray


class Boxes(NamedTuple):
    """Boxes of active voxels, each of one value: least and greatest corners (n x 3, int32), both included, and values (n).

    Examples
    --------
    >>> grid = vdb.Grid.from_array(np.array([[[1, 1, 2]]]))
    >>> [(boxes.low.tolist(), boxes.high.tolist(), boxes.values.tolist()) for boxes in grid.boxes()]
    [([[0, 0, 0], [0, 0, 2]], [[0, 0, 1], [0, 0, 2]], [1, 2])]
    """

    low: np.ndarray
    high: np.ndarray
    values: np.ndarray


class Labels(NamedTuple):
    """The values of active voxels, each once and rising: arrays of the values (n), of how many voxels have each (n, int64), and of the
    least and the greatest corners of their bounding boxes (n x 3, int32).

    Examples
    --------
    >>> labels = vdb.Grid.from_array(np.array([[[5, 0, 2, 5]]])).labels()
    >>> labels.values.tolist(), labels.counts.tolist(), labels.low.tolist(), labels.high.tolist()
    ([2, 5], [1, 2], [[0, 0, 2], [0, 0, 0]], [[0, 0, 2], [0, 0, 3]])
    """

    values: np.ndarray
    counts: np.ndarray
    low: np.ndarray
    high: np.ndarray

    def rows(self, names: "Mapping[int, Label]" = {}) -> "Iterator[LabelRow]":
        """Yields a row for each value, with the name that `vdb.label_names` has for it, or an empty one."""
        for value, count, (x0, y0, z0), (x1, y1, z1) in zip(*(column.tolist() for column in self)):
            yield LabelRow(value, names[value].name if value in names else "", count, (x0, y0, z0), (x1, y1, z1))


class LabelRow(NamedTuple):
    """A value of active voxels, its name, how many voxels have it, and the least and the greatest corner of their bounding box."""

    value: "bool | int"
    name: str
    voxels: int
    low: "tuple[int, int, int]"
    high: "tuple[int, int, int]"


Part = Union[Rows, Cubes]

#: How many blocks are expanded at a time.
BLOCKS = 256


def steps(count: int, side: int) -> np.ndarray:
    """Returns the least corners (count^3 x 3, int32) of a cube's parts, `count` of them along each axis, `side` voxels apart."""
    return (np.indices((count,) * 3, np.int32).reshape(3, -1).T * np.int32(side)).astype(np.int32)


#: The coordinates of the voxels of a leaf past its least corner, by number.
OFFSETS = steps(8, 1)
#: Of each larger cube: the side of its parts, and their least corners past its own.
PARTS = {4096: (128, steps(32, 128)), 128: (8, steps(16, 8))}


def voxels_of(lows: np.ndarray, side: int) -> Iterator[np.ndarray]:
    """Yields the coordinates (n x 3, int32) of all voxels of cubes of a side, which have these least corners (m x 3, int32)."""
    if side == 8:
        for first in range(0, len(lows), BLOCKS):
            yield (lows[first : first + BLOCKS, None] + OFFSETS).reshape(-1, 3)
    else:
        smaller, corners = PARTS[side]
        for low in lows:
            yield from voxels_of(low + corners, smaller)


def coordinates(parts: Iterator[Part]) -> Iterator[np.ndarray]:
    """Yields the coordinates (n x 3, int32) of the active voxels of parts."""
    for part in parts:
        if isinstance(part, Rows):
            yield places(part.origins, part.active)
        else:
            yield from voxels_of(part.low, part.side)


def places(origins: np.ndarray, mask: np.ndarray) -> np.ndarray:
    """Returns the coordinates (m x 3, int32) of the voxels of leaves that are marked in `mask` (n x 512)."""
    return numbered(origins, np.flatnonzero(mask))


def numbered(origins: np.ndarray, numbers: np.ndarray) -> np.ndarray:
    """Returns the coordinates (m x 3, int32) of voxels of leaves by their numbers, 512 a leaf."""
    return origins.take(numbers >> 9, axis=0) + OFFSETS.take(numbers & 511, axis=0)


def boxes(parts: Iterator[Part]) -> Iterator[Boxes]:
    """Yields the active voxels of parts as boxes: cubes as they are, leaves of one cell whole, and other leaves by runs along z."""
    for part in parts:
        if isinstance(part, Cubes):
            yield Boxes(part.low, part.low + np.int32(part.side - 1), part.values)
            continue
        whole = part.active.all(axis=1) & (part.values == part.values[:, :1]).all(axis=1)
        if whole.any():
            low = part.origins[whole]
            yield Boxes(low, low + np.int32(7), part.values[whole, 0])
        if not whole.all():
            yield runs(Rows(part.origins[~whole], part.values[~whole], part.active[~whole]))


def runs(rows: Rows) -> Boxes:
    """Returns the runs along z of active voxels of one value in leaves."""
    begins, ends = ends_of(rows.values.ravel(), rows.active.ravel(), 8)
    origins = rows.origins[begins >> 9]
    return Boxes(origins + OFFSETS[begins & 511], origins + OFFSETS[ends & 511], rows.values.ravel()[begins])


def ends_of(values: np.ndarray, active: np.ndarray, length: int) -> "tuple[np.ndarray, np.ndarray]":
    """Returns the numbers of the first and of the last voxels of the runs of active voxels of one value, in rows of a length."""
    begins = active ^ going_on(values, active, length, 1)
    lasts = active.copy()
    lasts[:-1] &= begins[1:] | ~active[1:]
    return np.flatnonzero(begins), np.flatnonzero(lasts)


def going_on(values: np.ndarray, active: np.ndarray, length: int, step: int) -> np.ndarray:
    """Returns which active voxels follow an active one of the same value along an axis, on which so many voxels lie a step apart."""
    made = np.zeros(len(values), np.bool_)
    np.equal(values[step:], values[:-step], out=made[step:])
    made[step:] &= active[:-step]
    made &= active
    made.reshape(-1, length, step)[:, 0] = False
    return made


#: Up to this number of labels of a leaf, or of a choice, are searched for one by one.
FEW = 8
#: Labels are grouped when so many have come. Up to so many, those of voxels are looked up among them.
MANY = 1 << 15
#: The widest range of values of which a table is made.
SPAN = 1 << 16


def labels(parts: Iterator[Part], dtype: np.dtype) -> Labels:
    """Returns the values of the active voxels of parts, with their numbers and bounding boxes."""
    corners = np.zeros((0, 3), np.int32)
    total, size = Labels(np.zeros(0, dtype), np.zeros(0, np.int64), corners, corners), 0
    waiting = [total]
    for part in parts:
        if isinstance(part, Cubes):
            counts = np.full(len(part.low), part.side**3, np.int64)
            waiting.append(Labels(part.values, counts, part.low, part.low + np.int32(part.side - 1)))
            size += len(part.low)
        else:
            for found in labels_of_rows(part, total):
                waiting.append(found)
                size += len(found.values)
        if size > max(MANY, len(total.values)):
            total, size = grouped(joined(waiting)), 0
            waiting = [total]
    found = grouped(joined(waiting))
    return found._replace(values=found.values.astype(dtype, copy=False))


def labels_of_rows(rows: Rows, total: Labels) -> "Iterator[Labels]":
    """Yields the labels of leaves, each perhaps more than once: the first ones of each leaf by comparing, what is left then voxel by voxel.
    Adds to the counts of `total` the voxels that change no more of it."""
    origins, values, left = rows.origins, rows.values, words_of(rows.active)
    voxels = np.count_nonzero(rows.active)
    for _ in range(FEW):
        some = left.any(axis=1)
        if not some.all():
            origins, values, left = origins[some], values[some], left[some]
        if not len(origins):
            return
        label = values[np.arange(len(values)), first_of(left)]
        mask = left & words_of(values == label[:, None])
        left = left ^ mask
        low, high = extents(mask)
        counts = COUNT[mask.view(np.uint8)].sum(axis=1)
        yield Labels(label, counts, origins + low, origins + high)
        found = int(counts.sum())
        if FEW * found < voxels:  # the leaves have many labels
            break
        voxels -= found
    numbers = np.flatnonzero(np.unpackbits(left.view(np.uint8), bitorder="little").view(np.bool_))
    values = values.ravel()[numbers]
    others = ~counted(total, values, origins.min(axis=0), origins.max(axis=0) + 7)
    at = numbered(origins, numbers[others])
    yield Labels(values[others], np.ones(len(at), np.int64), at, at)


def counted(total: Labels, values: np.ndarray, low: np.ndarray, high: np.ndarray) -> np.ndarray:
    """Adds voxels with these values to the counts of the labels whose bounding box has all of a box, in which the voxels lie. Returns which
    voxels those are."""
    inside = ((total.low <= low) & (total.high >= high)).all(axis=1) if len(total.values) <= MANY else np.zeros(0, np.bool_)
    if not inside.any():
        return np.zeros(len(values), np.bool_)
    known = total.values[inside]
    at = ranks(values.astype(np.int64, copy=False), known)
    found = known[at] == values
    total.counts[inside] += np.bincount(at[found], minlength=len(known))
    return found


def ranks(values: np.ndarray, among: np.ndarray) -> np.ndarray:
    """Returns the index of each value (int64) among rising ones, or another index if it isn't there."""
    least, span = int(among[0]), int(among[-1]) - int(among[0]) + 1
    if span == len(among):
        return past(values, least, span - 1)
    if span > SPAN:
        return np.searchsorted(among, values).clip(max=len(among) - 1)
    table = np.zeros(span + 1, np.intp)
    table[among.astype(np.int64) - least] = np.arange(len(among))
    return table.take(past(values, least, span))


def past(values: np.ndarray, least: int, span: int) -> np.ndarray:
    """Returns how far each value (int64) is past the least one, or `span` if that isn't below `span`."""
    return np.minimum(values.view(np.uint64) - np.uint64(least % 2**64), np.uint64(span)).view(np.int64)


#: Of each byte: how many bits are set, and the number of the least and of the greatest one, 0 if there is none.
BITS = np.unpackbits(np.arange(256, dtype=np.uint8)[:, None], axis=1, bitorder="little")
COUNT, LEAST = BITS.sum(axis=1, dtype=np.int64), BITS.argmax(axis=1).astype(np.int32)
GREATEST = np.where(COUNT, 7 - BITS[:, ::-1].argmax(axis=1), 0).astype(np.int32)


def words_of(mask: np.ndarray) -> np.ndarray:
    """Returns the marks of leaves (n x 512, bool) as bits (n x 8, uint64): a word for each x, in it a byte for each y, in it a bit for each
    z, the lowest first."""
    return np.packbits(mask, bitorder="little").view(np.uint64).reshape(-1, 8)


def first_of(words: np.ndarray) -> np.ndarray:
    """Returns the number (n) of the first marked voxel of each leaf, some of which are."""
    columns = words.view(np.uint8)
    at = (columns != 0).argmax(axis=1)
    return at * 8 + LEAST[columns[np.arange(len(columns)), at]]


def extents(words: np.ndarray) -> "tuple[np.ndarray, np.ndarray]":
    """Returns the least and the greatest offset (n x 3, int32) of the marked voxels of each leaf, some of which are."""
    columns = np.bitwise_or.reduce(words, axis=1).view(np.uint8).reshape(-1, 8)
    x, y = (np.packbits(marked != 0, bitorder="little") for marked in (words, columns))
    marked = np.stack([x, y, np.bitwise_or.reduce(columns, axis=1)], axis=1)
    return LEAST[marked], GREATEST[marked]


def joined(groups: "Sequence[Labels]") -> Labels:
    """Returns labels one after another."""
    values, counts, low, high = (np.concatenate(column) for column in zip(*groups))
    return Labels(values, counts, low, high)


def grouped(found: Labels) -> Labels:
    """Returns labels with each value once, in rising order: counts are summed and boxes joined."""
    if not len(found.values):
        return found
    order = order_of(found.values)
    values = found.values[order]
    firsts = np.flatnonzero(np.concatenate([[True], values[1:] != values[:-1]]))
    sums = np.add.reduceat(found.counts[order], firsts)
    low = [np.minimum.reduceat(column[order], firsts) for column in found.low.T]
    high = [np.maximum.reduceat(column[order], firsts) for column in found.high.T]
    return Labels(values[firsts], sums, np.stack(low, axis=1), np.stack(high, axis=1))


def order_of(values: np.ndarray) -> np.ndarray:
    """Returns the order in which the values rise. Values of a small range sort by radix."""
    if values.dtype != np.bool_:
        low, high = int(values.min()), int(values.max())
        if high - low < 1 << 16:
            values = (values - values.dtype.type(low)).astype(np.uint16)
    return np.argsort(values, kind="stable")
