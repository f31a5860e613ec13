# SPDX-License-Identifier: Apache-2.0
"""The Python package beside NumPy's own files, the C library and OpenVDB's package, in an interpreter that has NumPy."""
import json
import subprocess
import sys

from .parts import room, row, table
from .programs import BENCH, Failed

# the sides of the arrays in voxels, and those of the volumes past memory
SIDE, QUICK_SIDE = 512, 128
VOLUME_SIDE, QUICK_VOLUME_SIDE = 1024, 256

# seconds after which the measurement is ended
LIMIT = 3600


def with_numpy():
    """Returns an interpreter that has NumPy and scipy."""
    for python in (sys.executable, "/usr/bin/python3"):
        if not subprocess.run([python, "-c", "import numpy, scipy"], capture_output=True).returncode:
            return python
    raise Failed("no interpreter has NumPy and scipy: install python3-numpy and python3-scipy")


def printed(program, *numbers):
    """Returns the JSON that a program of this folder prints for some numbers and a new folder."""
    with room() as folder:
        words = [with_numpy(), f"{BENCH}/measure/{program}", *map(str, numbers), folder]
        ran = subprocess.run(words, stdin=subprocess.DEVNULL, capture_output=True, text=True, timeout=LIMIT)
    if ran.returncode:
        raise Failed(f"measure/{program} failed: {(ran.stderr.strip() or 'no reason').splitlines()[-1]}")
    return json.loads(ran.stdout)


def measure(runs, quick):
    side = QUICK_SIDE if quick else SIDE
    found = printed("package.py", runs, side)
    found["measures"] = printed("labels.py", runs, side)
    found["volumes"] = printed("volumes.py", QUICK_VOLUME_SIDE if quick else VOLUME_SIDE)
    note = (
        f"Cubes of {side} `int32` labels along each axis become a grid and a scene file by `from_array` and `save`, and an array again by `load` and"
        f" `to_array`, beside copies of the array, and the files of NumPy, and of zarr on all threads. The files lie in memory. {found['versions']}."
    )

    def of(key, title, note, ours, theirs, unit="s", **more):
        rows = [row(it["name"], unit, it["series"], **it["more"]) for it in found[key]]
        made = table(f"Python package, {title}", note, rows, {"vdb": ours, "one": theirs, **more}, peer=theirs)
        return {**made, "failed": [] if rows else ["OpenVDB's package for Python is missing: install python3-openvdb"]}

    return [
        of("files", "arrays", note, "vdb.scenefile", "NumPy", raw="zarr"),
        of("engine", "arrays and the engine", "The same by the engine.", "vdb", "NumPy", raw="zarr"),
        of("blocks", "dense blocks", "`from_array`, and the calls of `vdb_grid_write_box` alone.", "from_array", "C", "ns per voxel"),
        of("labels", "labels", "Calls on the grids of these labels, and walks over their leaves.", "vdb", "leaves()", raw="leaves as arrays"),
        of("measures", "labels measured", f"Organs in {side}^3 voxels and cells in {side // 2}^3, and NumPy with scipy on the dense array.", "vdb", "scipy"),
        of("booleans", "booleans", "The same spheres as booleans. Its copies of arrays use all threads.", "vdb", "pyopenvdb"),
        of("volumes", "volumes past memory", "Labels of cells in a zarr store on two threads, once. Figures of dask come second.", "vdb.chunks", "dask with SciPy"),
        of("scene", "a scene", "`vdb.scenefile.load` beside a run of `vdb --load`.", "vdb.scenefile", "vdb --load"),
    ]
