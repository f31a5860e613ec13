# SPDX-License-Identifier: Apache-2.0
"""Writes the faces of labels as a mesh of triangles: PLY, glTF (.glb) or OBJ, by the ending of OUT.

The mesh of each label is closed by itself: it has the faces to inactive voxels and to other labels.
Triangles run anticlockwise, seen from outside. Voxel x reaches from x - 0.5 to x + 0.5, and the affine
of the grid, if it keeps one, maps that to the world. Names and colours of labels are those of the
table FILE.GRID.tsv or FILE.tsv (without its ending), if it has them."""
from __future__ import annotations

import argparse
import os
from typing import List, Optional

import numpy as np

from ..errors import RangeError
from ..forms import Value
from ..scenefile import Grid
from ..scenefile.faces import Show, faces
from ..scenefile.mesh import merged, mesh_of
from .common import about, add_image, count_word, opened, output, progress, text_of, value_word, world_of
from .mesh_files import WRITERS, Model

EXAMPLE = "mesh labels.nii.gz labels.glb --merge\n         vdb-scene mesh scene.vdbs organs organs.glb --label 2 --label 5"
MOST_FACES = 10_000_000


def add_arguments(parser: argparse.ArgumentParser) -> None:
    add_image(parser, "OUT", "the file, OUT.ply, OUT.glb or OUT.obj")
    parser.add_argument("--label", action="append", type=value_word, metavar="V", help="only this label; may be given more than once")
    parser.add_argument("--merge", action="store_true", help="join faces in a plane to larger rectangles: far fewer triangles of the same "
                        "area and volume, but corners lie on the edges of other triangles")  # fmt: skip
    parser.add_argument("--max-faces", type=count_word, default=MOST_FACES, metavar="N", help="reject labels with more faces, before they "
                        "are joined; with --merge, those of a tile's side are one; a face needs some 300 bytes "
                        f"(default {MOST_FACES:,})")  # fmt: skip


def run(arguments: argparse.Namespace) -> None:
    ending = os.path.splitext(arguments.out)[1].lower()
    with about(arguments.out):
        if ending not in WRITERS:
            raise RangeError(f"the ending is none of {', '.join(WRITERS)}")
    name, grid, names = opened(arguments)
    with about(arguments.file), progress("finding faces in", arguments.file, unit=" voxels") as show:
        model = model_of(grid, name, arguments.label, arguments.merge, arguments.max_faces, show)._replace(names=names)
    with about(arguments.out), output(arguments.out) as file:
        for piece in WRITERS[ending](model):
            file.write(piece)


def model_of(
    grid: Grid, name: str, chosen: "Optional[List[Value]]" = None, merge: bool = False, most: int = MOST_FACES,
    show: "Optional[Show]" = None,
) -> Model:  # fmt: skip
    """Returns the mesh of some labels, or of all.

    Raises RangeError for a value that no active voxel has, and for more than `most` faces.
    """
    there = grid.labels().values
    if not len(there):
        raise RangeError(f"no voxel of {name} is active")
    asked = sorted({grid._kind.check(value, "label") for value in chosen}) if chosen else there.tolist()
    missing = sorted({*asked} - {*there.tolist()})
    if missing:
        raise RangeError(f"no active voxel of {name} has the value {text_of(missing[0])}")
    values = np.array(asked, grid.dtype)
    found = faces(grid._tree, values, most, unit=not merge, show=show)
    return Model(name, values, mesh_of(merged(found) if merge else found), world_of(grid))
