# SPDX-License-Identifier: Apache-2.0
"""Sparse voxel grids of booleans and integers, from NumPy arrays and back.

    import vdb
    labels = vdb.load("labels.vdbs")["labels"]
    margin = vdb.Grid.from_array(array == 3)
    margin.dilate(2)
    margin -= labels
    values = margin[0:64, 0:64, 30]

`vdb.Grid` and `vdb.Scene` call the engine by the shared library libvdb, which tools/build-libvdb of the repository builds; without it they raise
ImportError. `vdb.scenefile` reads and writes scene files without it, by classes of the same names, whose voxels don't change.
Coordinates are voxels; array axes are x, y, z. The errors of the package itself derive from `VdbError`.
"""
from . import errors, formats, label_names, labels, scenefile
from .blocks import Boxes, Labels
from .errors import *  # noqa: F401,F403
from .forms import Leaf, Metadata
from .grid import Census, Grid
from .image_view import ImageView
from .mask import Mask
from .scene import Scene, load, loads
from .view import View

__version__ = "1.2.0"
__all__ = [
    "load", "loads", "Scene", "Grid", "Mask", "View", "ImageView", "Census", "Boxes", "Labels", "Leaf", "Metadata", "formats", "label_names",
    "labels", "scenefile", "__version__", *errors.__all__,
]  # fmt: skip
