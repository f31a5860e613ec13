# SPDX-License-Identifier: Apache-2.0
"""Writes a page for the browser with three slices, a list of labels, and the faces of labels.

The page is one file and needs no network. Inactive voxels are shown as background. With more than 256
labels, the page lists the largest ones, and draws only faces next to inactive voxels."""
from __future__ import annotations

import argparse
import os

from .beneath import gray_of
from .common import about, add_image_and_out, count_word, opened, output, progress
from .page import MOST_FACES, MOST_VOXELS, Page

EXAMPLE = "view scene.vdbs organs organs.html\n         vdb-scene view labels.nii.gz labels.html --beneath t1.nii.gz"


def add_arguments(parser: argparse.ArgumentParser) -> None:
    add_image_and_out(parser, "OUT.html")
    parser.add_argument("--max-voxels", type=count_word, default=MOST_VOXELS, metavar="N", help="reject a bounding box of more voxels, "
                        f"and leaves of more than an eighth as many, which a browser holds (default {MOST_VOXELS:,})")  # fmt: skip
    parser.add_argument("--max-faces", type=count_word, default=MOST_FACES, metavar="N",
                        help=f"reject labels with more faces; those of a tile's side are one (default {MOST_FACES:,})")  # fmt: skip


def run(arguments: argparse.Namespace) -> None:
    name, grid, names = opened(arguments)
    gray = gray_of(arguments, grid)
    with about(arguments.file), progress("finding faces in", arguments.file, unit=" voxels") as show:
        page = Page(grid, name, arguments.max_voxels, arguments.max_faces, show, names, gray)
    with output(arguments.out) as file:
        page.write(file, os.path.basename(arguments.file))
