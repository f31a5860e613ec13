#!/usr/bin/env python3
# SPDX-License-Identifier: Apache-2.0
"""Makes a margin, the voxels up to two from an organ without the organ and a vessel: labels.py INPUT OUTPUT

INPUT is a scene file with the grids `organ` and `vessel`, OUTPUT the same with a third grid `margin`. Needs python/ of the repository
on PYTHONPATH.
"""
import sys

import numpy as np
import vdb


def report(grid):
    """Prints the number of active voxels, their bounding box and their centre."""
    low, high = grid.bounds
    values, active = grid.to_array()
    x, y, z = np.argwhere(active).mean(axis=0) + low
    print(f"{grid.count} voxels from {' '.join(map(str, low))} to {' '.join(map(str, high))}, centre {x:.2f} {y:.2f} {z:.2f}")


def main():
    if len(sys.argv) != 3:
        print(__doc__.splitlines()[0], file=sys.stderr)
        sys.exit(2)
    try:
        scene = vdb.load(sys.argv[1])
        margin = scene["organ"].copy()
        margin.dilate(2)
        margin -= scene["organ"]
        margin -= scene["vessel"]
        report(margin)
        scene["margin"] = margin
        scene.save(sys.argv[2])
    except (OSError, KeyError, vdb.VdbError) as error:
        sys.exit(f"labels: {error}")


if __name__ == "__main__":
    main()
