# SPDX-License-Identifier: Apache-2.0
"""Measures volumes past memory: volumes.py SIDE FOLDER. It is run by an interpreter that has NumPy, dask, zarr and SciPy, and prints JSON.

A store of SIDE^3 int32 labels of cells, with gaps between them, is written as a volume of vdb.chunks, dilated twice, its labels are counted
and measured; and the same by dask.array with NumPy and scipy.ndimage on the same store. Each call is a process of its own, `volumes.py WHO CALL SIDE FOLDER`,
which prints its seconds, those of all processors, its peak of memory in bytes, and a number that both sides must have.
"""
import json
import os
import resource
import subprocess
import sys
import time

BENCH = os.path.dirname(os.path.dirname(os.path.abspath(__file__)))
sys.path[:0] = [f"{os.path.dirname(BENCH)}/python"]
#: How many voxels a cube of cells has along each axis, and how many cells; and how many voxels a block of dask has.
STEP, CELLS, BLOCK = 128, 190, 256
THREADS = 2


def cells():
    """Labels of the cells of random places, each place's nearest voxels, in a block that continues itself, with gaps of the label 0."""
    import numpy as np
    from scipy.spatial import cKDTree

    tree, made = cKDTree(np.random.default_rng(1).integers(0, STEP, (CELLS, 3)), boxsize=STEP), np.empty((STEP,) * 3, np.int32)
    for x in range(STEP):
        near, label = tree.query(np.stack(np.broadcast_arrays(x, *np.ogrid[:STEP, :STEP]), axis=-1), k=2)
        made[x] = np.where(near[..., 1] - near[..., 0] < 3, 0, label[..., 0] + 1)
    return made


def source(side, folder):
    """Writes the store of labels by zarr's own means: the block again and again, each time with labels of its own."""
    import numpy as np
    import zarr

    block, array = cells(), zarr.open_array(f"{folder}/cells.zarr", mode="w", shape=(side,) * 3, chunks=(128,) * 3, dtype=np.int32)
    for number, at in enumerate(np.ndindex(*[-(-side // STEP)] * 3)):
        part = tuple(slice(STEP * it, min(side, STEP * it + STEP)) for it in at)
        some = block[tuple(slice(0, it.stop - it.start) for it in part)]
        array[part] = np.where(some, some + number * CELLS, 0)
    for axis in range(3):  # a dilation by two stays inside
        for ends in (slice(0, 2), slice(-2, None)):
            array[(*[slice(None)] * axis, ends)] = 0


def ours(call, folder):
    """Makes a call of vdb.chunks."""
    from vdb import chunks

    if call == "write":
        return chunks.from_array(f"{folder}/cells.zarr", f"{folder}/vdb-write.zarr").count
    labels = chunks.open(f"{folder}/vdb-write.zarr")
    if call == "measure":
        found = labels.measure((1, 1, 1))
        return found.area.sum() - found.contacts.sum()  # each face once
    return labels.dilate(2, f"{folder}/vdb-dilate.zarr").count if call == "dilate" else len(labels.labels().values)


def measures(array, at):
    """Voxels and sums of coordinates of the labels of a block, by NumPy. Returns how many faces it and the voxels before it have between two
    labels."""
    import numpy as np

    own = tuple(slice(min(1, first), None) for first in at)
    near = array[tuple(slice(max(0, first - 1), first + BLOCK) for first in at)]
    _, which, counts = np.unique(near[own], return_inverse=True, return_counts=True)
    for axis in np.ogrid[tuple(map(slice, near[own].shape))]:
        np.bincount(which, np.broadcast_to(axis, near[own].shape).ravel(), len(counts))
    parts = ([slice(None) if other == axis else it for other, it in enumerate(own)] for axis in range(3))
    return sum(np.count_nonzero(np.diff(near[tuple(part)], axis=axis)) for axis, part in enumerate(parts))


def theirs(call, folder):
    """Makes the call by dask and SciPy, in blocks of the same size."""
    import dask.array
    import numpy as np
    import zarr
    from scipy import ndimage

    labels = dask.array.from_zarr(f"{folder}/cells.zarr").rechunk(BLOCK)
    if call == "measure":
        places = np.ndindex(*[-(-side // BLOCK) for side in labels.shape])
        array = zarr.open_array(f"{folder}/cells.zarr", mode="r")
        return sum(dask.compute(*(dask.delayed(measures)(array, [BLOCK * it for it in place]) for place in places)))
    if call == "labels":
        blocks = [dask.delayed(np.unique)(block) for block in labels.to_delayed().ravel()]
        found = np.unique(np.concatenate(dask.compute(*blocks)))
        return len(found) - (found[0] == 0)
    if call == "dilate":
        labels = (labels != 0).map_overlap(ndimage.binary_dilation, depth=2, boundary=0, iterations=2, dtype=bool)
    labels.to_zarr(f"{folder}/one-{call}.zarr", overwrite=True)
    return int((dask.array.from_zarr(f"{folder}/one-{call}.zarr") != 0).sum().compute())


def one(who, call, folder):
    """Makes a call and prints what it took."""
    import dask

    begun = time.perf_counter()
    with dask.config.set(num_workers=THREADS):
        found = (ours if who == "vdb" else theirs)(call, folder)
    used = resource.getrusage(resource.RUSAGE_SELF)
    print(json.dumps([time.perf_counter() - begun, used.ru_utime + used.ru_stime, used.ru_maxrss * 1024, int(found)]))


def size(path):
    """The bytes of a file, or of the files of a store, or 0 if there is none."""
    return os.path.getsize(path) if os.path.isfile(path) else sum(os.path.getsize(f"{place}/{name}") for place, _, names in os.walk(path) for name in names)


def main():
    if len(sys.argv) == 5:
        return one(sys.argv[1], sys.argv[2], sys.argv[4]) if sys.argv[2] != "source" else source(int(sys.argv[3]), sys.argv[4])
    side, folder = int(sys.argv[1]), sys.argv[2]
    # a process of its own, since the peak of a process is at least that of the one that starts it
    subprocess.run([sys.executable, __file__, "one", "source", str(side), folder], check=True)
    rows = []
    for call in ("write", "dilate", "labels", "measure"):
        found = {}
        for who in ("vdb", "one"):
            words = [sys.executable, __file__, who, call, str(side), folder]
            found[who] = json.loads(subprocess.run(words, check=True, capture_output=True).stdout)
        if found["vdb"][3] != found["one"][3]:
            sys.exit(f"volumes.py: {call}: {found}")
        sizes = [size(f"{folder}/{who}-{call}.zarr") for who in found]
        more = {"Processor": "{:.0f} s, {:.0f} s".format(*(it[1] for it in found.values()))}
        more["Peak"] = "{:.2f} GB, {:.2f} GB".format(*(it[2] / 1e9 for it in found.values()))
        more["Store"] = "{:.1f} MB, {:.1f} MB".format(*(it / 1e6 for it in sizes)) if any(sizes) else ""
        rows.append({"name": f"{side}^3 cells: {call}", "series": {who: [it[0]] for who, it in found.items()}, "more": more})
    print(json.dumps(rows))


if __name__ == "__main__":
    sys.exit(main())
