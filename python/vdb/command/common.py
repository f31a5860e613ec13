# SPDX-License-Identifier: Apache-2.0
"""What the subcommands share: scenes with progress, output files, and the words of the command line."""
from __future__ import annotations

import argparse
import contextlib
import math
import os
import re
import sys
from typing import Any, BinaryIO, ContextManager, Dict, Iterator, NoReturn, Optional, Sequence, Tuple

import numpy as np

from .. import formats, label_names, scenefile
from ..errors import RangeError
from ..files import naming, replacing
from ..formats.nrrd import SPACES
from ..formats.volume import package
from ..forms import Bounds, Value, check_limit, check_name
from ..images import ROWS, affine_of
from ..reading import MAX_BYTES
from ..scenefile.reader import Progress

#: Work that takes longer than this many seconds shows its progress on a terminal, and that on files of at least this many bytes.
DELAY, LARGE = 0.5, 8 << 20
BOX = ("X0", "Y0", "Z0", "X1", "Y1", "Z1")


class Problem(Exception):
    """What a command can't do, in a line that begins with the file."""


class Parser(argparse.ArgumentParser):
    """A parser that lets options stand between the words FILE [GRID] OUT, and GRID be left out."""

    def parse_known_args(self, args: Any = None, namespace: Any = None) -> Any:
        found, rest = super().parse_known_args(args, namespace)
        if getattr(found, "out", "") is None:
            if rest and (rest[0] == "-" or not rest[0].startswith("-")):
                found.out = rest.pop(0)
            else:
                found.grid, found.out = None, found.grid
        return found, rest

    def error(self, message: str) -> NoReturn:
        """Names OUT where argparse takes it for GRID."""
        out = next((it.metavar for it in self._actions if it.dest == "out" and it.nargs == "?"), "GRID")
        super().error(re.sub("(required: .*)GRID", rf"\1{out}", message))

    def format_usage(self) -> str:
        return bracketed(super().format_usage())

    def format_help(self) -> str:
        return bracketed(super().format_help())


def bracketed(usage: str) -> str:
    """Returns a usage with GRID in brackets, which may be left out."""
    return re.sub(r"GRID \[(OUT\S*)\]", r"[GRID] \1", usage)


@contextlib.contextmanager
def progress(verb: str, path: str, size: Optional[int] = None, unit: str = "B") -> "Iterator[Optional[Progress]]":
    """Yields a call that shows how far a long piece of work is, by what is done and all, as a bar of tqdm.

    It yields None if standard error is no terminal, or tqdm is missing. With `size`, which is all, the bar of a large file is shown at once,
    and goes to the end with the block.
    """
    try:
        library = package("tqdm", "python3-tqdm") if sys.stderr.isatty() else None
    except ImportError:
        library = None
    if not library:
        yield None
        return
    delay = 0 if size and size >= LARGE else DELAY
    with library.tqdm(desc=f"{verb} {path}", total=size, unit=unit, unit_scale=True, delay=delay) as bar:

        def show(done: int, total: int) -> None:
            bar.total = total
            bar.update(done - bar.n)

        yield show
        bar.update((bar.total or 0) - bar.n)


@contextlib.contextmanager
def about(path: str) -> Iterator[None]:
    """Names a file in the errors of its block."""
    try:
        yield
    except (ValueError, TypeError) as error:
        text = str(error)
        raise Problem(text if text.startswith(f"{path}: ") else f"{path}: {text}") from error


def loaded(path: str, digest: bool = False) -> scenefile.Scene:
    """Returns the scene of a file, which is compared with the digest beside it if that is asked for."""
    with progress("reading", path) as show:
        return scenefile.load(path, show, digest=digest)


def saved(scene: scenefile.Scene, path: str, digest: bool = False) -> None:
    """Writes a scene to a file, and its digest beside it."""
    with about(path), progress("writing", path) as show:
        scene.save(path, show, digest=digest)


def grid_of(scene: scenefile.Scene, path: str, name: Optional[str]) -> scenefile.Grid:
    """Returns the grid of this name, or without a name the only one."""
    if name is None and len(scene) == 1:
        return next(iter(scene.values()))
    has = f"it has {', '.join(scene) or 'none'}"
    if name is None:
        raise Problem(f"{path}: choose a grid by its name: {has}")
    if name not in scene:
        raise Problem(f"{path}: there is no grid {name}; {has}")
    return scene[name]


def opened(arguments: argparse.Namespace) -> "Tuple[str, scenefile.Grid, label_names.Names]":
    """Returns the name, the grid and the names of the labels of the file, a scene or by its ending an image.

    Raises Problem if OUT, which would be overwritten, has the ending of such a file.
    """
    path, name, images = arguments.file, arguments.grid, tuple(formats.FORMATS)
    if getattr(arguments, "out", "").lower().endswith((".vdbs", ".vdbs.gz", ".tsv", *images)):
        raise Problem(f"{arguments.out}: the ending is that of a scene file, a table of names or an image, which isn't overwritten")
    if path.lower().endswith(images):
        with naming(path):
            size = os.path.getsize(path)
        with about(path), progress("reading", path, size):
            grid = formats.unnamed(path, scenefile.Grid, max_bytes=arguments.max_bytes)
        return name or os.path.basename(path).partition(".")[0], grid, label_names.of(path)
    scene = loaded(path)
    grid = grid_of(scene, path, name)
    name = next(name for name, each in scene.items() if each is grid)
    return name, grid, label_names.of(path, name, grid.metadata)


def world_of(grid: scenefile.Grid) -> np.ndarray:
    """Returns the affine (3 x 4) that maps the middle of a voxel to the world, the identity if the grid keeps none.

    Raises RangeError if it has no inverse, and VolumeError if the metadata are no affine.
    """
    affine = affine_of(grid.metadata)
    if np.linalg.matrix_rank(affine[:, :3]) < 3:
        raise RangeError(f"the affine of the grid has no inverse: {affine.tolist()}")
    return affine


def anatomy_of(grid: scenefile.Grid) -> "Optional[np.ndarray]":
    """Returns the affine (3 x 4) of a grid if it maps to a body, whose left, back and lower ends have the lesser numbers, else None.

    An affine is taken for such a one, unless its file says otherwise by codes of NIfTI, all 0, or a space of NRRD. Raises the errors of
    `world_of`.
    """
    codes, space = (grid.metadata.get(key) for key in ("image_nifti", "image_space"))
    says = not codes.startswith("0,0") if codes else space.lower() in SPACES if space else ROWS[0] in grid.metadata
    return world_of(grid) if says else None


def output(path: str) -> "ContextManager[BinaryIO]":
    """Opens a file that is replaced at the end, or standard output for `-`."""
    if path == "-":
        return open(sys.stdout.fileno(), "wb", closefd=False)
    return replacing(path)


def text_of(value: Value) -> str:
    """Returns a value as the language of scripts writes it."""
    return str(value).lower()


def numbers_of(box: "Sequence[Sequence[int]]") -> str:
    """Returns the numbers of coordinates, with a space between each two."""
    return " ".join(str(part) for corner in box for part in corner)


def box_of(numbers: "Optional[Sequence[int]]") -> Optional[Bounds]:
    """Returns the box of the six numbers of --bounds."""
    if not numbers:
        return None
    x0, y0, z0, x1, y1, z1 = numbers
    return (x0, y0, z0), (x1, y1, z1)


def add_image(parser: argparse.ArgumentParser, out: str = "", told: str = "the file to write; - for standard output") -> None:
    """Adds the arguments FILE, GRID and, if it has a name, OUT, and the option --max-bytes."""
    parser.add_argument("file", metavar="FILE", help=f"a scene file or an image ({', '.join(formats.FORMATS)})")
    last: Dict[str, Any] = {} if out else {"nargs": "?"}  # before OUT, Parser lets it be left out
    parser.add_argument("grid", metavar="GRID", help="the name of a grid; omit it for an image or a scene of one grid", **last)
    if out:
        parser.add_argument("out", nargs="?", metavar=out, help=told)
    add_max_bytes(parser)


def add_image_and_out(parser: argparse.ArgumentParser, out: str) -> None:
    """Adds the arguments FILE, GRID and OUT, and the options of a gray image."""
    add_image(parser, out)
    parser.add_argument("--beneath", metavar="IMAGE", help="a gray image of the same voxels, which is shown beneath the labels")
    parser.add_argument("--window", nargs=2, type=number_word, metavar=("BLACK", "WHITE"), help="the numbers of the gray image that are black and "
                        "white (default: nearly the least and the greatest one)")  # fmt: skip


def add_bounds(parser: "argparse._ActionsContainer", what: str, usual: str = "the bounding box of the active voxels") -> None:
    """Adds the option --bounds, which is `what`."""
    parser.add_argument("--bounds", nargs=6, type=int, metavar=BOX, help=f"{what}, minimum and maximum included; without it, {usual}")


def add_max_bytes(parser: argparse.ArgumentParser) -> None:
    """Adds the option --max-bytes."""
    parser.add_argument("--max-bytes", type=count_word, default=MAX_BYTES, metavar="N",
                        help=f"reject arrays of more bytes, values and states together (default {MAX_BYTES:,})")  # fmt: skip


def name_word(word: str) -> str:
    """Returns a word that is the name of a grid."""
    try:
        return check_name(word)
    except ValueError as error:
        raise argparse.ArgumentTypeError(str(error)) from error


def value_word(word: str) -> Value:
    """Returns the value that a word is."""
    if word in ("true", "false"):
        return word == "true"
    try:
        return int(word)
    except ValueError:
        raise argparse.ArgumentTypeError(f"a value is a number, true or false, not {word!r}") from None


def number_word(word: str) -> float:
    """Returns the finite number that a word is."""
    try:
        found = float(word)
    except ValueError:
        found = math.nan
    if not math.isfinite(found):
        raise argparse.ArgumentTypeError(f"a number, not {word!r}")
    return found


def limit_word(word: str) -> int:
    """Returns the root limit that a word is."""
    try:
        return check_limit(int(word))
    except ValueError:
        raise argparse.ArgumentTypeError(f"a root limit is a number from 1 to 65536, not {word!r}") from None


def count_word(word: str) -> int:
    """Returns the number above 0 that a word is."""
    if not word.isascii() or not word.isdigit() or len(word) > 18 or int(word) == 0:
        raise argparse.ArgumentTypeError(f"a number above 0 and below 10^18, not {word!r}")
    return int(word)
