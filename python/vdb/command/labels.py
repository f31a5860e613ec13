# SPDX-License-Identifier: Apache-2.0
"""Prints each value of active voxels: VALUE COUNT X0 Y0 Z0 X1 Y1 Z1 NAME, by rising values.

COUNT is the number of active voxels with this value, the six numbers are their bounding box. NAME
is that of the table of names, FILE.GRID.tsv or FILE.tsv (without its ending), or of metadata pairs.

With --measure it prints VALUE COUNT VOLUME AREA X Y Z DX DY DZ X0 Y0 Z0 X1 Y1 Z1 NEIGHBOURS NAME.
AREA is that of the faces between these voxels and all others, X Y Z the mean of their coordinates in
voxels, and DX DY DZ the sides of their bounding box. NEIGHBOURS are VALUE:AREA for each label that
they touch, with commas between them, or -. Lengths are those of the affine, in most images
millimetres, else voxels."""
from __future__ import annotations

import argparse
import csv
import json
import sys

from ..labels import MeasureRow, measure
from .common import about, add_image, numbers_of, opened, text_of

EXAMPLE = "labels labels.nii.gz --measure\n         vdb-scene labels scene.vdbs organs --measure csv"
COLUMNS = "value voxels volume area x y z dx dy dz x0 y0 z0 x1 y1 z1 neighbours name".split()


def add_arguments(parser: argparse.ArgumentParser) -> None:
    add_image(parser)
    parser.add_argument("--measure", nargs="?", const="text", choices=("text", "csv", "json"), help="print measures too: as text, or as CSV or JSON "
                        "with the names of columns")  # fmt: skip


def run(arguments: argparse.Namespace) -> None:
    _, grid, names = opened(arguments)
    if not arguments.measure:
        for label in grid.labels().rows(names):
            print(text_of(label.value), label.voxels, numbers_of((label.low, label.high)), *label.name.split())
        return
    with about(arguments.file):
        rows = [*measure(grid).rows(names)]
    if arguments.measure == "json":
        json.dump([row._asdict() for row in rows], sys.stdout, indent=1)
        print()
    elif arguments.measure == "csv":
        csv.writer(sys.stdout, lineterminator="\n").writerows([COLUMNS, *map(fields, rows)])
    else:
        for row in rows:
            *numbers, near, name = fields(row)
            print(*(f"{it:.10g}" if isinstance(it, float) else it for it in numbers), near or "-", *name.split())


def fields(row: MeasureRow) -> list:
    """Returns the columns of a row."""
    near = ",".join(f"{text_of(value)}:{area:.10g}" for value, area in row.neighbours.items())
    return [text_of(row.value), row.voxels, row.volume, row.area, *row.centroid, *row.extent, *row.low, *row.high, near, row.name]
