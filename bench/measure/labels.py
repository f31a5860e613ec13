# SPDX-License-Identifier: Apache-2.0
"""Measures calls on labels: labels.py RUNS SIDE FOLDER. It is run by an interpreter that has NumPy and SciPy, and prints rows as JSON.

Twelve organs in a cube of SIDE voxels along each axis, and cells that fill one of half the SIDE, are measured, chosen and changed beside NumPy
and scipy.ndimage on the dense array. The column `Memory` has the peak of NumPy's arrays in a call beside the bytes of the grid's leaves.
"""
import json
import os
import sys
import tracemalloc

BENCH = os.path.dirname(os.path.dirname(os.path.abspath(__file__)))
sys.path[:0] = [BENCH, f"{os.path.dirname(BENCH)}/python"]

import numpy as np  # noqa: E402
import vdb  # noqa: E402
from measure.package import measured, row  # noqa: E402
from scipy import ndimage  # noqa: E402


def organs(dice, side):
    """Labels of twelve rough ellipsoids."""
    made = np.zeros((side,) * 3, np.int32)
    for label in range(1, 13):
        radii = dice.integers(side // 14, side // 6, 3)
        centre = [int(dice.integers(radius + 4, side - radius - 4)) for radius in radii]
        x, y, z = (axis / radius for axis, radius in zip(np.ogrid[tuple(slice(-radius, radius + 1) for radius in radii)], radii))
        place = tuple(slice(at - radius, at + radius + 1) for at, radius in zip(centre, radii))
        made[place][x * x + y * y + z * z + 0.2 * np.sin(20 * x) * np.sin(17 * y) * np.sin(23 * z) < 0.9] = label
    return made


def cells(dice, side, step):
    """Labels of rough cubes that fill an array, each with its own, about `step` voxels along each axis."""
    count = side // step
    numbers = dice.permutation(count**3).astype(np.int32).reshape((count,) * 3) + 1
    made = np.empty((side,) * 3, np.int32)
    for at in range(side):
        x, y, z = (np.minimum(axis + dice.integers(0, 3, (side, side)), side - 1) * count // side for axis in (at, *np.ogrid[:side, :side]))
        made[at] = numbers[x, y, z]
    return made


def measures_of(labels):
    """Returns what `measure` finds, by NumPy and scipy: voxels, boxes, centroids, and the faces between two labels."""
    count = int(labels.max()) + 1
    voxels, boxes = np.bincount(labels.ravel(), minlength=count)[1:], ndimage.find_objects(labels)
    middles, areas, pairs = ndimage.center_of_mass(labels != 0, labels, np.arange(1, count)), np.zeros(count), []
    for axis in range(3):
        one, other = (np.moveaxis(np.pad(labels, 1), axis, 0)[part] for part in (slice(1, None), slice(None, -1)))
        differ = one != other
        least, most = np.minimum(one[differ], other[differ]).astype(np.int64), np.maximum(one[differ], other[differ])
        codes, counts = np.unique(least * count + most, return_counts=True)
        areas += np.bincount(codes // count, counts, count) + np.bincount(codes % count, counts, count)
        pairs.append(codes[codes >= count])
    return voxels, boxes, middles, areas[1:], pairs


def components_of(labels):
    """Returns the numbers of the components of each label, by scipy in the box of each."""
    made, count = np.zeros_like(labels), 0
    for label, part in enumerate(ndimage.find_objects(labels), 1):
        if part:
            found, more = ndimage.label(labels[part] == label)
            made[part] += np.where(found, found + count, 0)
            count += more
    return made


def grown(labels, mask):
    """The labels after the first one grew into the background in two iterations."""
    return np.where(ndimage.binary_dilation(mask, iterations=2, mask=mask | (labels == 0)), 1, labels)


def changed(grid, name):
    """A copy of a grid, changed in two iterations."""
    made = grid.copy()
    getattr(made, name)(1, 2)
    return made


def peak(call, grid):
    """The most bytes of NumPy's arrays in a call, by those of the leaves of a grid."""
    tracemalloc.start()
    call()
    found = tracemalloc.get_traced_memory()[1]
    tracemalloc.stop()
    return found / (grid.tree_leaf_count * 512 * grid.dtype.itemsize)


def rows(what, labels, runs):
    """Returns the rows of each call beside NumPy and scipy on the dense array."""
    grid, mask, spacing = vdb.Grid.from_array(labels), labels == 1, (0.7, 0.7, 1.5)
    one, kept, table = grid.select(1), vdb.labels, np.arange(int(labels.max()) + 1, dtype=np.int32)
    table[1:3] = 2, 1
    calls = {
        "labels": (grid.labels, lambda: (np.bincount(labels.ravel()), ndimage.find_objects(labels))),
        "select": (lambda: grid.select(1), lambda: labels == 1),
        "relabel": (lambda: grid.relabel({1: 2, 2: 1}), lambda: table[labels]),
        "where": (lambda: grid.where(one), lambda: np.where(mask, labels, 0)),
        "dilate_label, 2 iterations": (lambda: changed(grid, "dilate_label"), lambda: grown(labels, labels == 1)),
        "erode_label, 2 iterations": (
            lambda: changed(grid, "erode_label"), lambda: np.where(mask & ~ndimage.binary_erosion(labels == 1, iterations=2), 0, labels)
        ),
        "measure": (lambda: kept.measure(grid), lambda: measures_of(labels)),
        "components": (lambda: kept.components(grid), lambda: components_of(labels)),
        "components of a mask": (lambda: kept.components(vdb.Mask(grid)), lambda: ndimage.label(labels)),
        "open, 3 iterations": (lambda: kept.open(one, 3), lambda: ndimage.binary_opening(mask, iterations=3)),
        "close, 3 iterations": (lambda: kept.close(one, 3), lambda: ndimage.binary_closing(mask, iterations=3)),
        "fill_holes": (lambda: kept.fill_holes(one), lambda: ndimage.binary_fill_holes(mask)),
        "margin, 8 voxels": (lambda: kept.margin(one, 5.6, spacing), lambda: ndimage.distance_transform_edt(~mask, spacing) <= 5.6),
    }  # fmt: skip
    found, (voxels, _, _, areas, _) = kept.measure(grid), measures_of(labels)
    if not ((found.voxels == voxels).all() and (found.area == areas).all()):
        sys.exit(f"labels.py: the measures of {what} aren't those of NumPy")
    return [
        row(f"{what}: {name}", measured(both, runs), Leaves=f"{grid.leaf_count:,}", Memory=f"{peak(both[0], grid):.1f}") for name, both in calls.items()
    ]


def main():
    runs, side = int(sys.argv[1]), int(sys.argv[2])
    made = rows("12 organs", organs(np.random.default_rng(4), side), runs)
    print(json.dumps(made + rows("touching cells", cells(np.random.default_rng(5), side // 2, 11), runs)))


if __name__ == "__main__":
    main()
