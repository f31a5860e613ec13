# SPDX-License-Identifier: Apache-2.0
"""Labels measured: sizes, surfaces and contacts, components, and masks opened, closed, filled or grown by millimetres.

    from vdb import labels
    for row in labels.measure(organs).rows():
        print(row.value, row.volume, row.centroid, row.area, row.neighbours)
    parts = labels.components(organs.select(3), connectivity=26)
    shell = labels.margin(organs.select(3), 7.5) - organs

No call makes a dense array of the grid: a leaf is 512 voxels, and a tile is one item, however large. Results equal those of scipy.ndimage on the
dense array. `Grid` itself has `labels`, `select`, `relabel`, `where`, `boxes`, `dilate_label` and `erode_label`. Distances are in the unit
of `spacing`, three sizes of a voxel, which are those of the grid's affine unless given, in most images millimetres.
"""
from __future__ import annotations

from itertools import chain, product
from math import floor, prod
from typing import TYPE_CHECKING, Iterable, Iterator, Mapping, NamedTuple, Sequence

import numpy as np

from . import images
from .arrays import fill_boxes, new_grid, write_box
from .blocks import OFFSETS, Cubes, Labels, ends_of, going_on, grouped, joined, ranks
from .blocks import numbered as voxels_at
from .edits import fill_active, strips, write_cubes, write_leaves
from .engine import Stored
from .errors import DtypeError, RangeError
from .formats.volume import package
from .forms import COORDINATE_SPAN, SIDES, kind_of_array
from .grid import Grid
from .labels_items import Contact, Items, inside, steps_of
from .mask import Mask
from .reading import Walkable, check_grid

if TYPE_CHECKING:
    from .label_names import Label

__all__ = ["Measures", "close", "components", "fill_holes", "margin", "measure", "open"]

#: The connectivities: how many coordinates a step to a neighbour changes.
ORDERS = {6: 1, 18: 2, 26: 3}
#: How many voxels of an array are added up at a time, about.
SLAB = 2**21
#: The side in voxels of the boxes in which margins are found, and the widest margin.
BRICK, WIDEST = 64, 256


class MeasureRow(NamedTuple):
    """What `measure` finds of one label, with its name. `neighbours` has the area of contact with each label that it touches."""

    value: "bool | int"
    name: str
    voxels: int
    volume: float
    centroid: "tuple[float, ...]"
    low: "tuple[int, ...]"
    high: "tuple[int, ...]"
    extent: "tuple[float, ...]"
    area: float
    neighbours: "dict[bool | int, float]"


class Measures(NamedTuple):
    """Measures of labels, which rise in `values` (n): how many voxels have each (int64) and their volume, the mean of their coordinates in
    voxels (n x 3), the least and the greatest corner of their bounding box (n x 3, int32) and its sides, and the area of the faces between
    them and all others. `pairs` (m x 2) are the labels that touch, in rising order, and `contacts` (m) the areas of the faces between them.

    Examples
    --------
    >>> found = vdb.labels.measure(vdb.Grid.from_array(np.array([[[5, 5, 0, 2], [5, 2, 2, 2]]])), spacing=(1, 1, 2))
    >>> found.values.tolist(), found.voxels.tolist(), found.volume.tolist(), found.area.tolist()
    ([2, 5], [4, 3], [8.0, 6.0], [32.0, 24.0])
    >>> found.centroid[1].tolist(), found.extent[1].tolist(), found.pairs.tolist(), found.contacts.tolist()
    ([0.0, 0.3333333333333333, 0.3333333333333333], [1.0, 2.0, 4.0], [[2, 5]], [3.0])
    """

    values: np.ndarray
    voxels: np.ndarray
    volume: np.ndarray
    centroid: np.ndarray
    low: np.ndarray
    high: np.ndarray
    extent: np.ndarray
    area: np.ndarray
    pairs: np.ndarray
    contacts: np.ndarray

    def rows(self, names: "Mapping[int, Label]" = {}) -> "Iterator[MeasureRow]":
        """Yields a row for each label, with the name that `vdb.label_names` has for it, or an empty one."""
        near: "dict[bool | int, dict[bool | int, float]]" = {value: {} for value in self.values.tolist()}
        for (one, other), area in zip(self.pairs.tolist(), self.contacts.tolist()):
            near[one][other] = near[other][one] = area
        for value, voxels, volume, centroid, low, high, extent, area in zip(*(column.tolist() for column in self[:8])):
            name = names[value].name if value in names else ""
            yield MeasureRow(value, name, voxels, volume, tuple(centroid), tuple(low), tuple(high), tuple(extent), area, near[value])


def spacing_of(metadata: "Mapping[str, str]", spacing: "Sequence[float] | None") -> "list[float]":
    """Returns three sizes of a voxel: those given, else those of the affine. Raises RangeError if they aren't three positive numbers."""
    sizes = np.linalg.norm(images.affine_of(metadata)[:, :3], axis=0) if spacing is None else np.asarray(spacing, np.float64)
    if sizes.shape != (3,) or not (np.isfinite(sizes) & (sizes > 0)).all():
        raise RangeError(f"the spacing is three positive numbers, not {spacing!r}")
    return sizes.tolist()


class Tally(NamedTuple):
    """What is added up of labels, all of it exact: what `Grid.labels` returns, twice the sums of coordinates (n x 3, Python's integers), and of
    pairs of values that touch (m x 2, the lesser one first, or the same one twice) how many faces along each axis lie between them (m x 3)."""

    labels: Labels
    sums: np.ndarray
    pairs: np.ndarray
    faces: np.ndarray


def measure(grid: Walkable, spacing: "Sequence[float] | None" = None) -> Measures:
    """Returns the measures of each label of a grid, a view, or a grid of a scene file. Sums are exact; what is divided or multiplied by
    the spacing is a float. Raises RangeError for a spacing that isn't three positive numbers, and DtypeError for anything but a grid.

    Examples
    --------
    >>> organ = vdb.Grid.from_array(np.full((2, 3, 4), 7))
    >>> [(row.value, row.volume, row.centroid) for row in vdb.labels.measure(organ, spacing=(1, 1, 2)).rows()]
    [(7, 48.0, (0.5, 1.0, 1.5))]
    """
    check_grid(grid)
    sizes = spacing_of(grid.metadata, spacing)
    return measures(tally(grid), sizes)


def measures(total: Tally, sizes: "Sequence[float]") -> Measures:
    """Returns the measures of what was added up, with three sizes of a voxel."""
    (values, voxels, low, high), sums, pairs, faces = total
    volume, twice = prod(sizes), 2 * voxels.astype(object)  # the quotient of Python's integers is the nearest float
    areas, inner = volume / np.array(sizes), pairs[:, 0] == pairs[:, 1]
    bare = np.repeat(2 * voxels[:, None], 3, axis=1)
    bare[np.searchsorted(values, pairs[inner, 0])] -= 2 * faces[inner]
    middles = (sums / twice[:, None]).astype(np.float64).reshape(-1, 3)
    extent = (high.astype(np.int64) - low + 1) * sizes
    contacts = (faces[~inner] * areas).sum(axis=1)
    return Measures(values, voxels, voxels * volume, middles, low, high, extent, (bare * areas).sum(axis=1), pairs[~inner], contacts)


def merged(parts: "Sequence[Tally]") -> Tally:
    """Returns the sum of what was added up in parts."""
    labels, sums, pairs, faces = zip(*parts)
    every, (pair, which) = joined(labels), np.unique(np.concatenate(pairs), axis=0, return_inverse=True)
    total = grouped(every)
    sum_of, face = np.zeros((len(total.values), 3), object), np.zeros((len(pair), 3), np.int64)
    np.add.at(sum_of, np.searchsorted(total.values, every.values), np.concatenate(sums))
    np.add.at(face, which, np.concatenate(faces))
    return Tally(total, sum_of, pair, face)


def tally(grid: Walkable) -> Tally:
    """Returns what `measure` adds up of a grid."""
    labels = grid.labels()
    items, count = Items(grid, labels.values), len(labels.values) + 1
    codes, faces = touching(items, count)
    pairs = labels.values[np.stack(divmod(codes, count), axis=1) - 1]
    return Tally(labels, sums_of(items, labels), pairs, faces)


def tally_array(values: np.ndarray, active: np.ndarray, low: "Sequence[int]") -> Tally:
    """Returns what `measure` adds up of the active voxels of an array, whose first voxel lies at `low`. Column order is fastest."""
    depth = max(1, SLAB // max(1, values[..., 0].size))
    made, length = [tally(Grid(kind_of_array(values).word))], values.shape[2]
    for first in range(0, length, depth):
        part = (..., slice(first, first + depth))
        made.append(tally_slab(values[part], active[part], np.add(low, (0, 0, first))))
        if first:
            part = (..., slice(first - 1, first + 1))
            made.append(tally_faces(values[part], active[part], 2))
    return merged(made)


def tally_faces(values: np.ndarray, active: np.ndarray, axis: int) -> Tally:
    """Returns what is added up of the faces between two planes of voxels along an axis."""
    labels, sums, pairs, faces = tally_slab(values, active, np.zeros(3, np.int64))
    across = faces[:, axis] > 0
    return Tally(Labels(*(column[:0] for column in labels)), sums[:0], pairs[across], faces[across] * (np.arange(3) == axis))


def tally_slab(values: np.ndarray, active: np.ndarray, low: np.ndarray) -> Tally:
    """Returns what is added up of an array, by its runs along x. Inside a label lie as many faces along an axis as it has voxels, but for those
    that don't go on along it."""
    shape, (values, active) = values.shape, (it.ravel(order="F") for it in (values, active))
    begin, end = ends_of(values, active, shape[0])
    if not len(begin):
        return tally(Grid(kind_of_array(values).word))
    corner, counts = np.stack(np.unravel_index(begin, shape, order="F"), axis=1), end + 1 - begin
    past = corner + (counts - 1)[:, None] * (np.arange(3) == 0)
    labels = grouped(Labels(values[begin], counts, (corner + low).astype(np.int32), (past + low).astype(np.int32)))
    span, sums, found = len(labels.values) + 1, np.zeros((3, len(labels.values)), np.int64), []
    same = np.repeat(np.append(0, labels.counts)[None], 3, axis=0)
    for axis, step in enumerate((1, shape[0], shape[0] * shape[1])):
        at = np.flatnonzero(active ^ going_on(values, active, shape[axis], step)) if axis else begin
        cells = ranks(values[at].astype(np.int64), labels.values) + 1
        if not axis:
            sums += [np.bincount(cells, column, span)[1:].astype(np.int64) for column in ((corner + past) * counts[:, None]).T]
        same[axis] -= np.bincount(cells, minlength=span)
        touch = (at // step % shape[axis] > 0) & active[at - step]
        before = ranks(values[at[touch] - step].astype(np.int64), labels.values) + 1
        codes, faces = tallied(paired(cells[touch], before, span), span**2)
        found.append((3 * codes + axis, faces))
    codes, faces = faced(found, same, span)
    twice = 2 * labels.counts.astype(object)[:, None] * low.astype(object)
    return Tally(labels, sums.T.astype(object) + twice, labels.values[np.stack(divmod(codes, span), axis=1) - 1], faces)


def sums_of(items: Items, labels: Labels) -> np.ndarray:
    """Returns twice the sums of the coordinates (n x 3, Python's integers) of labels: the middle of a tile may lie between voxels."""
    count = len(labels.values) + 1
    origin = labels.low.min(axis=0, initial=2**31 - 1).astype(np.int64)
    widest = int((labels.high.max(axis=0, initial=-(2**31)) - origin).max())
    # past the origin, by Python's integers only if 64 bits are too few
    sums = np.zeros((3, count), np.int64 if 2 * widest * int(labels.counts.sum()) < 2**63 else object)
    offsets, middles = items.lows - origin, 2 * (items.corners - origin) + (items.sides - 1)[:, None]
    for axis in range(3):
        for part in items.chunks():
            at = offsets[part, axis, None] + OFFSETS[:, axis]
            sums[axis] += 2 * np.bincount(items.cells[part].ravel(), at.ravel(), count).astype(np.int64)
        np.add.at(sums[axis], items.tiles, middles[:, axis].astype(sums.dtype) * items.sides**3)
    return sums.T[1:].astype(object) + 2 * labels.counts.astype(object)[:, None] * origin.astype(object)


def touching(items: Items, span: int) -> "tuple[np.ndarray, np.ndarray]":
    """Returns the pairs of cells that touch as numbers, the lesser cell times the span and the other one, and how many faces along each axis
    (n x 3) lie between them."""
    same, found = np.zeros((3, span), np.int64), [(np.zeros(0, np.int64),) * 2]
    for side in SIDES:
        same += (side - 1) * side**2 * np.bincount(items.tiles[items.sides == side], minlength=span)
    within = (contact for part in items.chunks() for contact in inside(items.cells[part], [(1, 0, 0), (0, 1, 0), (0, 0, 1)]))
    for step, one, other, each in chain(within, items.contacts(1, items.cells, items.tiles)):
        axis, alike = [abs(it) for it in step].index(1), one == other
        same[axis] += each * np.bincount(one[alike], minlength=span)
        differ = ~alike & (one != 0) & (other != 0)
        one, other = one[differ].astype(np.int64), other[differ].astype(np.int64)
        codes, counts = tallied(paired(one, other, span), span**2)
        found.append((3 * codes + axis, counts * each))
    return faced(found, same, span)


def faced(found: "list[tuple[np.ndarray, np.ndarray]]", same: np.ndarray, span: int) -> "tuple[np.ndarray, np.ndarray]":
    """Returns what `touching` does, of parts: three times the pairs of cells plus an axis, and how many faces lie between them. `same` are those
    along each axis inside each cell (3 x span)."""
    found += [(3 * (span + 1) * np.arange(1, span) + axis, same[axis, 1:]) for axis in range(3)]
    codes, counts = (np.concatenate(column) for column in zip(*found))
    code, which = np.unique(codes[counts > 0] // 3, return_inverse=True)
    faces = np.bincount(3 * which + codes[counts > 0] % 3, counts[counts > 0], 3 * len(code))
    return code, faces.reshape(-1, 3).astype(np.int64)


def paired(one: np.ndarray, other: np.ndarray, span: int) -> np.ndarray:
    """Returns pairs of cells below a span as numbers, the lesser cell times the span and the other one."""
    return np.minimum(one, other) * span + np.maximum(one, other)


def tallied(codes: np.ndarray, span: int) -> "tuple[np.ndarray, np.ndarray]":
    """Returns the codes below a span that occur, each once and rising, and how often."""
    if span > 4 * len(codes) + 4096:
        found, counts = np.unique(codes, return_counts=True)
        return found, counts
    counts = np.bincount(codes, minlength=1)
    found = np.flatnonzero(counts)
    return found, counts[found]


def components(grid: Walkable, connectivity: int = 6) -> Grid:
    """Returns a grid of component numbers from 1 on, in the order of each component's first voxel by x, then y, then z. Active voxels of one
    value are in one component if a path of voxels of that value joins them, by steps over faces (6), also edges (18) or also corners (26).
    Those of all values together are the components of `vdb.Mask(grid)`. All other voxels are 0, inactive.

    Raises RangeError for another connectivity, and ImportError without scipy.

    Examples
    --------
    >>> grid = vdb.Grid.from_array(np.array([[[3, 3, 0, 3], [0, 0, 3, 5]]]))
    >>> vdb.labels.components(grid)[...].tolist(), vdb.labels.components(grid, 18)[...].tolist()
    ([[[1, 1, 0, 2], [0, 0, 3, 4]]], [[[1, 1, 0, 1], [0, 0, 1, 2]]])
    """
    return numbered(grid, connectivity)[0]


def numbered(grid: Walkable, connectivity: int) -> "tuple[Grid, np.ndarray]":
    """Returns the components of a grid, and the first voxel of each (n x 3)."""
    check_grid(grid)
    if connectivity not in ORDERS:
        raise RangeError(f"the connectivity is 6, 18 or 26, not {connectivity!r}")
    items = Items(grid, np.array([False, True]) if grid.kind == "bool" else grid.labels().values)
    leaves, first = leaf_nodes(items, ORDERS[connectivity])
    tiles = np.arange(len(first) + 1, len(first) + len(items.tiles) + 1, dtype=np.int32)
    cells = np.concatenate([items.cells.ravel()[first], items.tiles])
    edges = edges_of(items.contacts(ORDERS[connectivity], leaves, tiles), cells)
    numbers, firsts = ranked(edges, np.concatenate([voxels_at(items.lows, first), items.corners]))
    numbers = np.concatenate([[0], numbers])  # those of inactive voxels, and of nodes from 1 on
    made = Grid("i32", limit=grid.limit, metadata=images.kept(grid.metadata, np.dtype(np.int32)))  # type: ignore[attr-defined]
    small, whole = items.sides == SIDES[0], (np.bincount(first >> 9, minlength=len(leaves)) == 1) & isinstance(grid, Stored)
    if whole.any():
        low, node = np.concatenate([items.lows[whole], items.corners[small]]), np.concatenate([leaves[whole].max(axis=1), tiles[small]])
        fill_active(made._held, new_grid(made._kind, 0, made.limit), grid._handle(), Cubes(low, 8, numbers[node]))  # type: ignore[attr-defined]
    for part in items.chunks():
        found = numbers[leaves[part][~whole[part]]]
        write_leaves(made._held, items.lows[part][~whole[part]], found, found != 0)
    for side in SIDES[int(whole.any()) :]:
        write_cubes(made._held, Cubes(items.corners[items.sides == side], side, numbers[tiles[items.sides == side]]))
    made.prune()
    return made, firsts


def leaf_nodes(items: Items, order: int) -> "tuple[np.ndarray, np.ndarray]":
    """Returns the nodes of the voxels of leaves (n x 512) in a graph of components, from 1 on, and the number of the first voxel of each. A node
    is connected voxels of one cell in a leaf; inactive voxels have 0."""
    nodes, firsts, count = np.empty(items.cells.shape, np.int32), [np.zeros(0, np.int64)], 1
    for part in items.chunks():
        rows = items.cells[part].reshape(-1, 8)
        begins = rows != 0  # runs along z, which the other steps join
        begins[:, 1:] &= rows[:, 1:] != rows[:, :-1]
        begin = np.flatnonzero(begins)
        runs = (np.cumsum(begins, dtype=np.int32).reshape(-1, 8) * (rows != 0)).reshape(-1, 512)
        contacts = inside(runs, [step for step in steps_of(order) if step > (0, 0, 1)])
        numbers, first = ranked(edges_of(contacts, rows.ravel()[begin]), begin[:, None])
        nodes[part] = np.append(0, numbers + count - 1)[runs]
        firsts.append(first[:, 0] + 512 * part.start)
        count += len(first)
    return nodes, np.concatenate(firsts)


def edges_of(contacts: "Iterable[Contact]", cells: np.ndarray) -> np.ndarray:
    """Returns the edges (2 x n) between nodes that touch and have the same cell. In contacts nodes are numbered from 1 on, in `cells` and edges
    from 0."""
    codes = [np.zeros(0, np.int64)]
    for _, one, other, _ in contacts:
        new = (one[1:] != one[:-1]) | (other[1:] != other[:-1])  # most are as the one before
        at = np.append(0, np.flatnonzero(new) + 1)[: len(one)]
        one, other = one[at], other[at]
        both = (one != other) & (one != 0) & (other != 0)
        one, other = one[both] - 1, other[both] - 1
        same = cells[one] == cells[other]
        codes.append(np.unique(one[same].astype(np.int64) << 32 | other[same]))
    return np.stack(divmod(np.concatenate(codes), 2**32)).astype(np.int32)


def ranked(edges: np.ndarray, corners: np.ndarray) -> "tuple[np.ndarray, np.ndarray]":
    """Returns the number of the component of each node of a graph, and the first voxel of each component (n x 3), by the first voxels of
    nodes (m x 3), in whose order components are numbered from 1 on, and the edges (2 x k)."""
    graph = package("scipy.sparse", "python3-scipy").coo_matrix((np.ones(len(edges[0]), np.int8), tuple(edges)), shape=(len(corners),) * 2)
    component = package("scipy.sparse.csgraph", "python3-scipy").connected_components(graph, directed=False)[1]
    order = np.lexsort(corners.T[::-1])
    firsts = order[np.sort(np.unique(component[order], return_index=True)[1])]
    return np.argsort(component[firsts])[component] + 1, corners[firsts]  # argsort inverts a permutation


def changed(mask: Mask, names: Sequence[str], iterations: int) -> Mask:
    """Returns a copy that was dilated or eroded by faces. Raises RangeError for fewer iterations than 1."""
    if iterations < 1:
        raise RangeError(f"the number of iterations is at least 1, not {iterations}")
    made = Mask(mask)
    for name in names:
        for done in range(0, iterations, 16):
            getattr(made, name)(min(16, iterations - done))
    return made


def open(mask: Grid, iterations: int = 1) -> Mask:
    """Returns the mask of the active voxels, opened: eroded, then dilated in as many iterations by faces. It loses what is thinner.

    Examples
    --------
    >>> mask = vdb.Mask.from_array(np.ones((3, 3, 3), bool))
    >>> mask[1, 1, 3:9] = True
    >>> mask.count, vdb.labels.open(mask).count
    (33, 12)
    """
    return changed(Mask(mask), ("erode", "dilate"), iterations)


def close(mask: Grid, iterations: int = 1) -> Mask:
    """Returns the mask of the active voxels, closed: dilated, then eroded in as many iterations by faces. Narrower gaps are filled.

    Examples
    --------
    >>> mask = vdb.Mask.from_array(np.ones((5, 5, 5), bool))
    >>> mask[:, :, 2] = False
    >>> mask.count, vdb.labels.close(mask).count
    (100, 109)
    """
    return changed(Mask(mask), ("dilate", "erode"), iterations)


def fill_holes(mask: Grid) -> Mask:
    """Returns the mask of the active voxels and of the holes in it: the voxels from which no path over faces leads out of its bounding box.

    Raises RootLimitError if the bounding box has more root blocks than the limit of the grid.

    Examples
    --------
    >>> shell = vdb.Mask.from_array(np.ones((5, 5, 5), bool))
    >>> shell[1:4, 1:4, 1:4] = False
    >>> shell.count, vdb.labels.fill_holes(shell).count
    (98, 125)
    """
    made = Mask(mask)
    if made.bounds:
        (low, high), side = made.bounds, SIDES[1]
        begin = [max(-COORDINATE_SPAN, (at - 1) // side * side) for at in low]
        end = [min(COORDINATE_SPAN, (at + 1) // side * side + side) - 1 for at in high]
        around = components(made.complement((begin, end)))
        values, _, first, last = around.labels()
        made.unite(around.select(values[(first > begin).all(axis=1) & (last < end).all(axis=1)]), ignore_geometry=True)
    return made


def margin(mask: Grid, distance: float, spacing: "Sequence[float] | None" = None) -> Mask:
    """Returns the mask of all voxels whose middle is at most this distance from the middle of an active voxel, these too, as
    `scipy.ndimage.distance_transform_edt` finds it on the inactive voxels, with `sampling=spacing`.

    Raises RangeError for a distance below 0 or of more than 256 voxels, or past 32 bits, and for a wrong spacing, and DtypeError for a
    distance that is no number.

    Examples
    --------
    >>> organ = vdb.Mask.from_array(np.ones((1, 1, 1), bool))
    >>> vdb.labels.margin(organ, 2.5, spacing=(1, 1, 3))[0:3, 0:3, 0].astype(int).tolist()
    [[1, 1, 1], [1, 1, 1], [1, 1, 0]]
    """
    made = Mask(mask)
    reach = reaches(distance, spacing_of(mask.metadata, spacing))
    wide = np.array([*reach.shape, reach.max() + 1]) - 1
    bounds = made.bounds
    if bounds is None or not wide.any():
        return made
    if (np.array(bounds[0]) - wide < -COORDINATE_SPAN).any() or (np.array(bounds[1]) + wide >= COORDINATE_SPAN).any():
        raise RangeError(f"the margin of {bounds[0]} to {bounds[1]} goes past 32 bits")
    source, bricks = made.copy(), [np.zeros((0, 3), np.int64)]
    for part in source._parts():
        if isinstance(part, Cubes) and part.side > SIDES[0]:
            grow_tiles(made, part, reach)
        else:
            bricks.append(np.unique(part[0].astype(np.int64) // BRICK, axis=0))
    near = np.array([*product(*(range(-count, count + 1) for count in -(-wide // BRICK)))])
    own = np.unique(np.concatenate(bricks), axis=0)
    for brick in np.unique((own[:, None] + near).reshape(-1, 3), axis=0) * BRICK:
        if (brick >= -COORDINATE_SPAN).all() and (brick < COORDINATE_SPAN).all():
            grow_brick(source, made, brick, reach, wide)
    made.prune()
    return made


def reaches(distance: float, spacing: Sequence[float]) -> np.ndarray:
    """Returns by how many voxels along z the ball of a distance reaches past its middle (n x m), by those along x and y, -1 for none.
    Raises RangeError for a distance below 0 or of more than WIDEST voxels, and DtypeError if it is no number."""
    if np.ndim(distance) or np.asarray(distance).dtype.kind not in "uif":
        raise DtypeError(f"the distance is a number, of millimetres if the spacing is, not {distance!r}")
    if not 0 <= distance <= WIDEST * min(spacing):
        raise RangeError(f"the distance is 0 to {WIDEST} voxels, which are {WIDEST * min(spacing)}, not {distance!r}")
    x, y, z = ((np.arange(floor(distance / size) + 2) * size) ** 2 for size in spacing)
    # in the order of scipy's sums, so that a distance that is met exactly is met in both
    made = np.stack([(np.sqrt((at + y)[:, None] + z) <= distance).sum(axis=1) - 1 for at in x])
    return made[made[:, 0] >= 0][:, made[0] >= 0]


def grow_tiles(made: Mask, tiles: Cubes, reach: np.ndarray) -> None:
    """Puts the margins of tiles into a mask: boxes, which are longer by a step along each axis that the ball holds."""
    low, high, _ = strips(tiles)
    past = np.pad(reach, ((0, 1), (0, 1)), constant_values=-1)
    for x, y in np.argwhere((reach >= 0) & (reach > past[1:, :-1]) & (reach > past[:-1, 1:])):
        step = np.array([x, y, reach[x, y]], np.int32)
        fill_boxes(made._held, low - step, high + step, 1)


def grow_brick(source: Mask, made: Mask, low: np.ndarray, reach: np.ndarray, wide: np.ndarray) -> None:
    """Puts the voxels of a brick that are in the margin of a mask into another one. `wide` is how far the ball reaches along each axis."""
    begin, past = np.maximum(low - wide, -COORDINATE_SPAN), np.minimum(low + BRICK + wide, COORDINATE_SPAN)
    if not source.count_in((begin.tolist(), (past - 1).tolist())) or source.count_in((low.tolist(), (low + BRICK - 1).tolist())) == BRICK**3:
        return
    states = np.zeros(BRICK + 2 * wide, np.bool_)
    x, y, z = begin.tolist()
    source._read((x, y, z), None, states[tuple(map(slice, begin - low + wide, past - low + wide))], None)
    found = np.zeros((BRICK,) * 3, np.bool_)
    spread = np.zeros((*states.shape[:2], BRICK), np.bool_)
    middle = wide[2]
    for by in range(middle + 1):
        for at in {middle - by, middle + by}:
            spread |= states[:, :, at : at + BRICK]
        for step in np.argwhere(reach == by):
            for i, j in product(*({at - it, at + it} for at, it in zip(wide, step))):
                found |= spread[i : i + BRICK, j : j + BRICK]
    write_box(made._held, low.tolist(), found, found)
