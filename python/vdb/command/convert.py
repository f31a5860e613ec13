# SPDX-License-Identifier: Apache-2.0
"""Turns a file of another format into a grid of a scene file, or a grid into such a file.

One of IN and OUT is a scene file (.vdbs, .vdbs.gz). The ending of the other one names its format:
{endings}. Arrays have the axes x, y, z.
A scene file that exists keeps its other grids. A grid of the same name is replaced; its
metadata and root limit stay. A grid that was an image is written as that image, with its shape,
dtype and place; any other grid as the bounding box of its active voxels. The origin and the
shape are printed on standard error. Names of labels are copied from the table beside IN, the
header of a .seg.nrrd, or metadata pairs, to a table beside OUT: OUT.GRID.tsv for a scene file
OUT.vdbs."""
from __future__ import annotations

import argparse
import os
import sys
from typing import Mapping

from .. import formats, label_names
from ..errors import MissingFileError
from ..forms import DEFAULT_LIMIT, KINDS, NAME_FORM
from ..formats import npy
from ..images import DTYPES
from ..scenefile import Grid, Mask, Scene
from .common import (
    Problem, about, add_bounds, add_max_bytes, box_of, grid_of, limit_word, loaded, name_word, numbers_of, output, progress, saved, value_word,
)  # fmt: skip

__doc__ = __doc__.format(endings=", ".join(formats.FORMATS))
EXAMPLE = "convert labels.npy scene.vdbs --grid organs --origin 0 0 -20\n         vdb-scene convert scene.vdbs organs.npy --bounds 0 0 0 63 63 63"
SCENE = (".vdbs", ".vdbs.gz")


def add_arguments(parser: argparse.ArgumentParser) -> None:
    parser.add_argument("source", metavar="IN", help="the file to read")
    parser.add_argument("out", metavar="OUT", help="the file to write; - for a .npy on standard output")
    parser.add_argument("--grid", type=name_word, metavar="N", help="the name of the grid (default: the only grid of IN, or the name of the file IN)")
    parser.add_argument("--active", metavar="MASK", help="the file for the states, booleans: read beside IN, whose voxels it must "
                        "have (default: the voxels other than the background are active), or written beside OUT")  # fmt: skip
    parser.add_argument("--names", metavar="TABLE", help="names of labels: a .tsv of BIDS, a .seg.nrrd or a label file of ITK-SNAP (default: what "
                        "is beside IN or in it)")  # fmt: skip
    parser.add_argument("--digest", action="store_true", help="write the SHA-256 of the scene file OUT to OUT.sha256, which sha256sum -c checks; "
                        "compare the scene file IN with IN.sha256")  # fmt: skip
    parser.add_argument("--gzip", action="store_true", help="compress the scene file OUT.vdbs to OUT.vdbs.gz")
    add_max_bytes(parser)
    into = parser.add_argument_group("into a scene file")
    into.add_argument("--origin", nargs=3, type=int, metavar=("X", "Y", "Z"), help="the coordinate of the first voxel (default: that in IN, or 0 0 0)")
    into.add_argument("--background", type=value_word, metavar="V", help="the background (default 0, or false)")
    into.add_argument("--limit", type=limit_word, metavar="N", help="the root limit (default 4096, or that of the grid replaced)")
    into.add_argument("--type", choices=[*KINDS], help="the type of the grid (default: the narrowest for the values of IN)")
    out = parser.add_argument_group("out of a scene file")
    add_bounds(out, "the box", "the image, or the bounding box of the active voxels")
    out.add_argument("--fill", type=value_word, metavar="V", help="write this value for inactive voxels in place of their own")
    out.add_argument("--dtype", choices=DTYPES, help="write values of this type, which must hold all of them (default: that of the image, or "
                     "bool, int32 or int64)")  # fmt: skip
    only = out.add_mutually_exclusive_group()
    only.add_argument("--states", action="store_true", help="write the states alone, true for an active voxel")
    only.add_argument("--values-only", action="store_true", help="write the values, even if those of a bool grid differ from its states")
    out.add_argument("--strict", action="store_true", help="active voxels outside the image are an error in place of a warning")


def run(arguments: argparse.Namespace) -> None:
    into = arguments.out.endswith(SCENE)
    if into == arguments.source.endswith(SCENE):
        raise Problem(f"{arguments.out}: one of IN and OUT is a scene file ({', '.join(SCENE)}), and "
                      f"{'not both' if into else 'neither is: convert in two steps, by a scene file'}")  # fmt: skip
    if arguments.gzip and arguments.out.endswith(SCENE[0]):
        arguments.out += ".gz"
    (read_in if into else write_out)(arguments)


def read_in(arguments: argparse.Namespace) -> None:
    """Puts a file into a scene file as a grid."""
    try:
        scene = loaded(arguments.out, arguments.digest and os.path.exists(f"{arguments.out}.sha256"))
    except MissingFileError:
        scene = Scene()
    name = arguments.grid or name_of(arguments.source)
    old = scene.get(name)
    limit = arguments.limit or (old.limit if old else DEFAULT_LIMIT)
    with about(arguments.source), progress("reading", arguments.source, os.path.getsize(arguments.source)):
        made = formats.unnamed(
            arguments.source, Grid, active=arguments.active, origin=arguments.origin, background=arguments.background, limit=limit,
            metadata=old.metadata if old else None, kind=arguments.type, max_bytes=arguments.max_bytes,
        )  # fmt: skip
    with about(arguments.out):
        scene[name] = made
    names = names_of(arguments)
    saved(scene, arguments.out, arguments.digest)
    if names:
        label_names.keep(arguments.out, names, name)


def names_of(arguments: argparse.Namespace, grid: str = "", metadata: Mapping[str, str] = {}) -> label_names.Names:
    """Returns the names of labels that belong to IN."""
    return label_names.read(arguments.names) if arguments.names else label_names.of(arguments.source, grid, metadata)


def name_of(path: str) -> str:
    """Returns the name for the grid of a file, which is that of the file."""
    name = os.path.basename(path.rstrip("/")).partition(".")[0]
    if not NAME_FORM.match(os.fsencode(name)):
        raise Problem(f"{path}: choose a name for the grid by --grid: the file's isn't a letter a to z and up to 15 of a to z, 0 to 9 and _")
    return name


def write_out(arguments: argparse.Namespace) -> None:
    """Writes a grid to a file, its states to another one, and the names of its labels to a table."""
    outs = [it for it in (arguments.out, arguments.active) if it]
    formats.check_outs(*(it for it in outs if it != "-"))
    scene = loaded(arguments.source, arguments.digest)
    grid = grid_of(scene, arguments.source, arguments.grid)
    names = {} if arguments.states else names_of(arguments, arguments.grid or next(iter(scene)), grid.metadata)
    grid = Mask(grid) if arguments.states else grid
    with about(arguments.source):
        volumes = formats.volume_of(
            grid, box_of(arguments.bounds), arguments.fill, arguments.dtype, arguments.max_bytes, arguments.strict
        )
        if not arguments.values_only:
            made, states = npy if arguments.out == "-" else formats.format_of(arguments.out), None if arguments.active else volumes[1]
            formats.check_kept(arguments.out, made, grid, volumes[0], states, arguments.fill)
    for path, volume in zip(outs, volumes):
        if path == "-":
            with output(path) as file:
                npy.write(file, path, volume)
        else:
            with progress("writing", path, volume.values.nbytes):
                formats.write(path, volume)
    if names and arguments.out != "-":
        label_names.keep(arguments.out, names)
    shape = " ".join(map(str, volumes[0].values.shape))
    print(f"origin {numbers_of([volumes[0].origin or (0, 0, 0)])}, shape {shape}", file=sys.stderr)
