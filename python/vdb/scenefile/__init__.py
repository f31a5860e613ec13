# SPDX-License-Identifier: Apache-2.0
"""Reads and writes the scene files of `vdb`, and turns their grids into NumPy arrays and back, without the library.

    from vdb import scenefile
    scene = scenefile.load("scene.vdbs")
    values, active = scene["labels"].to_array()
    scene["mask"] = scenefile.Grid.from_array(values == 3)
    scene.save("scene.vdbs")

docs/FORMAT.md of the repository defines the files. Names shared with `vdb` behave identically. Coordinates are voxels; array axes are x, y, z.
"""
from ..blocks import Boxes, Labels
from ..forms import Leaf, Metadata
from .grid import Grid, Mask, Tile
from .scene import Scene, load, loads

__all__ = ["load", "loads", "Scene", "Grid", "Mask", "Boxes", "Labels", "Leaf", "Tile", "Metadata"]
