# SPDX-License-Identifier: Apache-2.0
"""Measures the Python package: package.py RUNS SIDE FOLDER. It is run by an interpreter that has NumPy, and prints tables of rows as JSON.

Arrays of SIDE x SIDE x SIDE int32 labels are made grids, also from column order, beside a copy, and saved to the folder, loaded and made arrays
again, beside the files of NumPy and zarr: spheres of labels, and single voxels at random, as many as fit into a file. The same labels are reported
and selected, beside a walk over leaves. Cubes of SIDE / 4 without background go into grids, beside a call of the C library. Booleans of the
spheres go through OpenVDB's package for Python, if it is there. A sparse scene of 10 million voxels is loaded by the package and by `vdb --load`.
With a SIDE of 512 it takes about 5 GB of memory.
"""
import collections
import json
import os
import subprocess
import sys
import time

BENCH = os.path.dirname(os.path.dirname(os.path.abspath(__file__)))
sys.path[:0] = [BENCH, f"{os.path.dirname(BENCH)}/python"]

import numpy as np  # noqa: E402
import vdb  # noqa: E402
import zarr  # noqa: E402
from measure import programs  # noqa: E402
from measure.volumes import size  # noqa: E402
from vdb import scenefile  # noqa: E402
from vdb.arrays import write_box  # noqa: E402
from vdb.walk import leaf_rows  # noqa: E402

VOXELS = 10_000_000


def measured(calls, runs, by=1):
    """Makes these calls in turn in each run, and returns the seconds of each, divided by a number: those of vdb, of its peer and of others."""
    taken = [[] for _ in calls]
    for _ in range(runs):
        for call, seconds in zip(calls, taken):
            begun = time.perf_counter()
            call()
            seconds.append((time.perf_counter() - begun) / by)
    return dict(zip(("vdb", "one", "raw"), taken))


def spheres(dice, side):
    """Labels of overlapping spheres in 30 % of the voxels."""
    made, label = np.zeros((side,) * 3, np.int32), 0
    while label % 10 or np.count_nonzero(made) < 0.3 * made.size:
        label += 1
        radius, centre = int(dice.integers(side // 24, side // 9)), dice.integers(0, side, 3)
        low, past = np.maximum(centre - radius, 0), np.minimum(centre + radius + 1, side)
        x, y, z = np.ogrid[tuple(slice(a - at, b - at) for a, b, at in zip(low, past, centre))]
        made[tuple(slice(a, b) for a, b in zip(low, past))][x * x + y * y + z * z <= radius * radius] = label
    return made


def scattered(dice, side, part):
    """Labels of 1 to 1,000 in this part of the voxels, chosen at random."""
    made = np.zeros((side,) * 3, np.int32)
    for plane in made:
        plane[...] = np.where(dice.random(plane.shape) < part, dice.integers(1, 1001, plane.shape), 0)
    return made


def row(name, series, **more):
    return {"name": name, "series": series, "more": more}


def box_of(array):
    return (0, 0, 0), tuple(side - 1 for side in array.shape)


def arrays(package, folder, what, labels, runs):
    """Returns the rows of an array: out to a file, and in from it; and those of the grid alone."""
    dense, scene_file, store, made, found = f"{folder}/a.npy", f"{folder}/a.vdbs", f"{folder}/a.zarr", None, None
    columns = np.asfortranarray(labels)  # as files of images have them

    def columns_to_grid():
        package.Grid.from_array(columns)

    def to_grid():
        nonlocal made
        made = package.Grid.from_array(labels)

    def to_array():
        nonlocal found
        found = made.to_array(box_of(labels))

    def save():
        package.Scene({"a": package.Grid.from_array(labels)}).save(scene_file)

    def load():
        nonlocal found
        found = package.load(scene_file)["a"].to_array(box_of(labels))

    def numpy_save():
        np.save(dense, labels)

    def numpy_load():
        np.load(dense)

    def zarr_save():
        zarr.save_array(store, labels)

    def zarr_load():
        zarr.load(store)

    series = {"to a file": measured((save, numpy_save, zarr_save), runs), "from a file": measured((load, numpy_load, zarr_load), runs)}
    series["into a grid"], series["out of a grid"] = measured((to_grid, labels.copy), runs), measured((to_array, labels.copy), runs)
    series["into a grid from column order"] = measured((columns_to_grid, labels.copy), runs)
    if not ((found[0] == labels).all() and (found[1] == (labels != 0)).all()):
        sys.exit(f"package.py: the array of {what} isn't the one that was saved")
    more = {"Active": f"{100 * np.count_nonzero(labels) / labels.size:.0f} %", "File": ", ".join(f"{size(it) / 1e6:.1f} MB" for it in (scene_file, dense, store))}
    return [row(f"{what}: {how}", taken, **more) for how, taken in series.items()]


def blocks(side, runs):
    """Returns the rows of cubes in which all leaves differ and all voxels are active, in nanoseconds a voxel."""
    rows = []
    for kind, dtype in (("i64", np.int64), ("i32", np.int32), ("bool", np.bool_)):
        values = (np.arange(side**3).reshape((side,) * 3) % 1000 + 1).astype(dtype)
        if kind == "bool":
            values[::8, ::8, ::8] = False
        numbers, states = values.astype(np.int64), np.ones(values.shape, np.bool_)

        def in_c():
            write_box(vdb.Grid(kind)._held, (0, 0, 0), numbers, states)

        calls = (lambda: vdb.Grid.from_array(values, states)), in_c
        rows.append(row(f"{side} x {side} x {side}, {kind}", measured(calls, runs, values.size / 1e9)))
    return rows


def walks(what, grid, runs):
    """Returns the rows of reports and choices of labels."""
    found = grid.labels().values
    calls = {
        "labels": grid.labels, "select of a label": lambda: grid.select(found[len(found) // 2]), "select of all labels": lambda: grid.select(found),
    }  # fmt: skip

    def leaves():
        collections.deque(grid.leaves(), 0)

    def rows():
        collections.deque(leaf_rows(grid._held), 0)

    return [row(f"{what}: {name}", measured((call, leaves, rows), runs), Leaves=f"{grid.leaf_count:,}") for name, call in calls.items()]


def booleans(mask, runs):
    """Returns the rows of a grid of booleans and of OpenVDB's, or none if its package for Python is missing."""
    try:
        import pyopenvdb
    except ImportError:
        return []
    grid, peer = vdb.Grid.from_array(mask), pyopenvdb.BoolGrid()
    peer.copyFromArray(mask)
    if (grid.count, grid.bounds) != (peer.activeVoxelCount(), peer.evalActiveVoxelBoundingBox()):
        sys.exit("package.py: OpenVDB's grid has other voxels")
    low, high = box_of(mask)
    part = tuple(slice(0, side) for side in mask.shape)

    def of_ours(grid):
        grid.fill((low, high), True)
        grid.fill(((3, 3, 3), (5, 5, 5)), False)

    def of_theirs(grid):
        grid.fill(low, high, True, True)
        grid.fill((3, 3, 3), (5, 5, 5), False, True)

    calls = {
        "from an array": (lambda: vdb.Grid.from_array(mask), lambda: pyopenvdb.BoolGrid().copyFromArray(mask)),
        "to an array": (lambda: grid[part], lambda: peer.copyToArray(np.empty(mask.shape, np.bool_))),
        "number of active voxels": (lambda: grid.count, peer.activeVoxelCount),
        "bounding box": (lambda: grid.bounds, peer.evalActiveVoxelBoundingBox),
        "copy": (grid.copy, peer.deepCopy),
        "prune": (grid.prune, peer.prune),
        "fills of two boxes": (lambda: of_ours(vdb.Grid("bool")), lambda: of_theirs(pyopenvdb.BoolGrid())),
    }
    return [row(name, measured(both, runs)) for name, both in calls.items()]


def sparse(folder, labels, runs):
    """Returns the row of a sparse scene, whose peer is the program."""
    path = f"{folder}/s.vdbs"
    scenefile.Scene({"a": scenefile.Grid.from_array(labels)}).save(path)
    program = [programs.vdb(), "--load", path, os.devnull]
    series = measured((lambda: scenefile.load(path), lambda: subprocess.run(program, check=True)), runs)
    more = {"Active": f"{np.count_nonzero(labels):,} voxels", "File": f"{os.path.getsize(path) / 1e6:.0f} MB"}
    return [row("a sparse scene: from a file", series, **more)]


def main():
    runs, side, folder = int(sys.argv[1]), int(sys.argv[2]), sys.argv[3]
    some, singles = spheres(np.random.default_rng(1), side), scattered(np.random.default_rng(2), side, 0.28)
    found = {"versions": f"Python {sys.version.split()[0]}, NumPy {np.__version__}", "engine": [], "files": [], "labels": []}
    for what, labels in (("spheres", some), ("single voxels", singles)):
        found["engine"] += arrays(vdb, folder, what, labels, runs)
        found["files"] += arrays(scenefile, folder, what, labels, runs)
        found["labels"] += walks(what, vdb.Grid.from_array(labels), runs)
    found["blocks"], found["booleans"] = blocks(side // 4, runs), booleans(some != 0, runs)
    found["scene"] = sparse(folder, scattered(np.random.default_rng(3), side, min(1, VOXELS / side**3)), runs)
    print(json.dumps(found))


if __name__ == "__main__":
    main()
