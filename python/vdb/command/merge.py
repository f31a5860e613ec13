# SPDX-License-Identifier: Apache-2.0
"""Writes the grids of two scene files into one.

A name that both have is an error unless --prefer chooses. Names of labels go to tables OUT.GRID.tsv."""
from __future__ import annotations

import argparse

from .. import label_names
from ..scenefile import Scene
from .common import Problem, about, loaded, saved

EXAMPLE = "merge one.vdbs two.vdbs both.vdbs --prefer a"


def add_arguments(parser: argparse.ArgumentParser) -> None:
    parser.add_argument("a", metavar="A", help="a scene file")
    parser.add_argument("b", metavar="B", help="another scene file")
    parser.add_argument("out", metavar="OUT", help="the file for both, which may be A or B")
    parser.add_argument("--prefer", choices="ab", help="the file whose grid is kept if both have one of a name")


def run(arguments: argparse.Namespace) -> None:
    first, second = loaded(arguments.a), loaded(arguments.b)
    both = [name for name in first if name in second]
    if both and not arguments.prefer:
        raise Problem(f"{arguments.b}: {arguments.a} has {', '.join(both)} too: choose by --prefer a or --prefer b")
    made = {**second, **first} if arguments.prefer == "a" else {**first, **second}
    names = {name: label_names.of(arguments.a if grid is first.get(name) else arguments.b, name) for name, grid in made.items()}
    with about(arguments.out):
        scene = Scene(made)
    saved(scene, arguments.out)
    for name, found in names.items():
        if found:
            label_names.keep(arguments.out, found, name)
