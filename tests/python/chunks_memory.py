# SPDX-License-Identifier: Apache-2.0
"""Passes sparse labels through vdb.chunks under a limit of memory: chunks_memory.py SIDE GIB

It writes SIDE^3 labels (int32) to a zarr store: a cube of 50 voxels in each cube of 256, of label 1 or 2. Then it limits the addresses of
the program to GIB gibibytes, makes chunks of them, selects a label, dilates it, and subtracts the others. It prints how long each call
took, and the peak of memory. It fails if a number of voxels isn't what the cubes have.
"""
import resource
import sys
import tempfile
import time
from pathlib import Path

import numpy as np
import zarr
from vdb import chunks

STEP, SIDE, LOW = 256, 50, 230


def store(path, length):
    """Writes the labels. A cube reaches from 230 to 279 along each axis past its place, over the borders of chunks."""
    array = zarr.open_array(path, mode="w", shape=(length,) * 3, chunks=(64,) * 3, dtype=np.int32, fill_value=0)
    places = np.argwhere(np.ones((length // STEP - 1,) * 3)) * STEP + LOW
    for number, place in enumerate(places.tolist()):
        array[tuple(slice(at, at + SIDE) for at in place)] = 1 + number % 2
    return array, len(places) - len(places) // 2, len(places) // 2


def main():
    length, limit = int(sys.argv[1]), int(sys.argv[2]) * 2**30
    with tempfile.TemporaryDirectory() as folder:
        array, ones, twos = store(f"{folder}/z", length)
        resource.setrlimit(resource.RLIMIT_AS, (limit, limit))

        def timed(call, *arguments):
            begun = time.monotonic()
            made = getattr(*call)(*arguments)
            print(f"{call[1]}: {time.monotonic() - begun:.1f} s, {made.count:,} voxels, {len(list(Path(made.folder).glob('*/*/*/*/*')))} chunks")
            return made

        labels = timed((chunks, "from_array"), array, f"{folder}/labels")
        organ = timed((labels, "select"), 1, f"{folder}/organ")
        margin = timed((organ, "dilate"), 2, f"{folder}/margin")
        rest = timed((margin, "subtract"), labels, f"{folder}/rest")
        grown = SIDE**3 + 6 * (2 * SIDE**2) + 12 * SIDE  # the cube, two layers on its faces, and on each edge a line
        counts = (labels.count, organ.count, margin.count, rest.count)
        wanted = ((ones + twos) * SIDE**3, ones * SIDE**3, ones * grown, ones * (grown - SIDE**3))
        if counts != wanted:
            sys.exit(f"{counts} voxels, not {wanted}")
        print(f"{length}^3 voxels, at most {resource.getrusage(resource.RUSAGE_SELF).ru_maxrss / 2**20:.2f} GiB of memory")


if __name__ == "__main__":
    main()
