# SPDX-License-Identifier: Apache-2.0
"""Draws the slices among the answers of a script as a PNG, side by side.

Active cells are blue, darker for greater values; inactive cells are light grey."""
from __future__ import annotations

import argparse
import sys

from ..scenefile import picture
from .common import Problem, about, output

EXAMPLE = "picture answers.txt ball.png"


def add_arguments(parser: argparse.ArgumentParser) -> None:
    parser.add_argument("answers", nargs="?", default="-", metavar="ANSWERS", help="the answers (default: standard input)")
    parser.add_argument("out", metavar="OUT.png", help="the file for the picture; - for standard output")


def run(arguments: argparse.Namespace) -> None:
    path = arguments.answers
    with about(path):
        if path == "-":
            slices = picture.slices_of(sys.stdin)
        else:
            with open(path, encoding="utf-8") as file:
                slices = picture.slices_of(file)
        if not slices:
            raise Problem(f"{path}: there is no slice among the answers")
        data = picture.png(picture.picture_of(slices))
    with output(arguments.out) as file:
        file.write(data)
