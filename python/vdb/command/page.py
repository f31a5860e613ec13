# SPDX-License-Identifier: Apache-2.0
"""The page of `vdb-scene view`: what it shows of a grid as arrays, and one file of HTML with them."""
from __future__ import annotations

import base64
import html
import json
import math
import os
import zlib
from importlib.resources import files
from typing import Any, BinaryIO, Dict, Iterable, Iterator, List, NamedTuple, Optional, Tuple, Union

import numpy as np

from ..errors import RangeError
from ..forms import COORDINATE_SPAN, SIDES
from ..images import ROWS
from ..label_names import Names, coloured
from ..labels import measure
from ..scenefile import Grid, picture
from ..scenefile.faces import Faces, Show, chunked, faces, numbers_of
from ..scenefile.mesh import merged
from ..scenefile.tree import Leaves, Tiles, Tree
from .beneath import Gray
from .common import anatomy_of, world_of
from .panes import ends_of, panes_of

MOST_VOXELS = 2**31
MOST_FACES = 5_000_000
#: The most voxels of a gray image, of which else every second one is shown along each axis, or every third one.
MOST_GRAY = 2**26
#: How many labels have a row of their own.
LISTED = 256
#: By how many voxels the page shows more than the bounding box, on each side.
MARGIN = 2
#: How many leaves are expanded at once.
LEAVES = 2048


class Array(NamedTuple):
    """An array of the page: its name, its dtype, how many elements it has, and its elements in parts."""

    name: str
    dtype: np.dtype
    length: int
    parts: "Iterable[np.ndarray]"


def array(name: str, elements: np.ndarray) -> Array:
    return Array(name, elements.dtype, elements.size, [elements])


class Cells:
    """Numbers for the cells of a tree: 0 for the inactive background, then the labels, then inactive cells of other values."""

    def __init__(self, tree: Tree, labels: np.ndarray) -> None:
        parts: "List[Union[Leaves, Tiles]]" = [tree.leaves, *tree.tiles]
        self.labels = labels
        self.inactive = np.unique(np.concatenate([part.values[~part.active] for part in parts]))
        self.values = np.concatenate([[np.int64(tree.background)], labels, self.inactive]).astype(np.int64)
        self.dtype = np.min_scalar_type(len(self.values) - 1)
        self.leaves, *self.tiles = (self.numbers(part.values, part.active) for part in parts)

    def numbers(self, values: np.ndarray, active: np.ndarray) -> np.ndarray:
        """Returns the numbers of cells."""
        inactive = numbers_of(values, ~active, self.inactive, self.dtype)
        return np.where(inactive, inactive + self.dtype.type(len(self.labels)), numbers_of(values, active, self.labels, self.dtype))


class Page:
    """A grid as a page. `name` is the grid's, and `show` reports how far the search for faces is.

    Raises RangeError, before it makes anything of that size, for a bounding box and its margin of more than `most_voxels` voxels. Raises
    it also for leaves of more than an eighth as many, for more than `most_faces` faces, and if no voxel is active.
    """

    def __init__(
        self, grid: Grid, name: str, most_voxels: int = MOST_VOXELS, most_faces: int = MOST_FACES, show: "Optional[Show]" = None,
        names: Names = {}, gray: "Optional[Gray]" = None,
    ) -> None:  # fmt: skip
        if grid.bounds is None:
            raise RangeError(f"no voxel of {name} is active")
        self.grid, self.name, self.tree, self.names, self.gray = grid, name, grid._tree, names, gray
        self.low = np.maximum(np.array(grid.bounds[0]) - MARGIN, -COORDINATE_SPAN)
        self.high = np.minimum(np.array(grid.bounds[1]) + MARGIN, COORDINATE_SPAN - 1)
        if gray:
            self.low, self.high = map(np.array, gray.around(grid.bounds))
        self.origin = self.low // 8 * 8
        self.blocks = (self.high - self.origin) // 8 + 1
        for what, voxels, most in (
            ("the bounding box", math.prod(self.sides), most_voxels), ("the leaves", 512 * grid.leaf_count, most_voxels // 8)
        ):  # fmt: skip
            if voxels > most:
                eighth = "" if most == most_voxels else " / 8"
                raise RangeError(f"{what} of {name} and its margin have {voxels:,} voxels, more than max_voxels{eighth} = {most:,}")
        self.labels, self.measures = grid.labels(), measure(grid)
        self.is_many = len(self.labels.values) > LISTED
        self.cells = Cells(self.tree, self.labels.values)
        self.faces, self.groups = self.grouped(
            merged(faces(self.tree, self.labels.values, most_faces, unit=False, outer=self.is_many, show=show))
        )

    @property
    def sides(self) -> "List[int]":
        """How many voxels the page shows along each axis."""
        return (self.high - self.low + 1).tolist()

    def grouped(self, found: Faces) -> "Tuple[Faces, List[Dict[str, Any]]]":
        """Returns the faces group by group, and the groups: the labels of the list, and at last all others."""
        values, counts, low, high = self.labels
        listed = np.argsort(-counts, kind="stable")[:LISTED] if self.is_many else np.arange(len(values))
        group = np.full(len(values), len(listed))
        group[listed] = np.arange(len(listed))
        order = np.argsort(group[found.label], kind="stable")
        found = Faces(*(column[order] for column in found))
        starts = np.searchsorted(group[found.label], np.arange(len(listed) + 2)).tolist()
        middle = ((low.astype(np.int64) + high) // 2).tolist()
        groups = [
            {"number": label + 1, "count": int(counts[label]), "faces": [first, past - first], "middle": middle[label],
             "volume": float(self.measures.volume[label]), "area": float(self.measures.area[label])}
            for label, first, past in zip(listed.tolist(), starts, starts[1:])
        ]
        if self.is_many:
            first, past = starts[-2:]
            count = int(counts.sum() - counts[listed].sum())
            groups.append({"number": -1, "count": count, "labels": len(values) - LISTED, "faces": [first, past - first]})
        return found, groups

    def leaves(self) -> Array:
        """Returns the blocks of the leaves in the box, by their places in the table of blocks."""
        block = (self.tree.origins(self.tree.leaves.codes) - self.origin) // 8
        self.inside = np.flatnonzero(((block >= 0) & (block < self.blocks)).all(axis=1))
        x, y, z = block[self.inside].T
        return array("leaves", ((x * self.blocks[1] + y) * self.blocks[2] + z).astype(np.uint32))

    def leaf_cells(self) -> "Iterator[np.ndarray]":
        """Yields the cells' numbers of the leaves in the box, 512 each."""
        for rows in chunked(self.inside, LEAVES):
            yield self.tree.leaves.expanded(self.cells.leaves, rows)

    def tiles(self) -> Array:
        """Returns the tiles as boxes of blocks: columns of the least corner, the corner past the box, and the cell's number."""
        columns = [np.zeros((0, 7), np.int32)]
        for level, (tiles, numbers) in enumerate(zip(self.tree.tiles, self.cells.tiles)):
            low = (self.tree.origins(tiles.codes, level) - self.origin) // 8
            past = np.minimum(low + SIDES[level] // 8, self.blocks)
            low = np.maximum(low, 0)
            meets = (low < past).all(axis=1)
            columns.append(np.concatenate([low, past, numbers[:, None].astype(np.int64)], axis=1)[meets].astype(np.int32))
        return array("tiles", np.concatenate(columns).T)

    def colours(self) -> np.ndarray:
        """Returns the colours of all cells (n x 3, uint8)."""
        made = np.zeros((len(self.cells.values), 3), np.uint8)
        made[1 : len(self.labels.values) + 1] = coloured(picture.colours_of(self.labels.values), self.labels.values, self.names)
        return made

    def arrays(self) -> "List[Array]":
        """Returns the arrays, those of longer elements first."""
        low, sides, direction, label = self.faces
        active, counts = np.zeros(len(self.cells.values), np.uint8), np.zeros(len(self.cells.values), np.int64)
        active[1 : len(self.labels.values) + 1], counts[1 : len(self.labels.values) + 1] = 1, self.labels.counts
        leaves = self.leaves()
        made = [
            array("values", self.cells.values), leaves, self.tiles(),
            Array("cells", self.cells.dtype, 512 * leaves.length, self.leaf_cells()),
            array("corners", (low - self.origin).T.astype(np.int32)), array("sides", sides.T),
            array("labels", (label + 1).astype(self.cells.dtype)), array("direction", direction), array("active", active),
            array("colours", self.colours()), array("counts", counts),
        ]  # fmt: skip
        if self.gray:
            _, shape, parts = self.gray.coarse(MOST_GRAY)
            made.append(Array("gray", np.dtype(np.uint8), math.prod(shape), parts))
        return sorted(made, key=lambda it: -it.dtype.itemsize)

    def named(self) -> "Dict[int, str]":
        """Returns the names of labels by their numbers."""
        values = self.labels.values.tolist()
        return {number: self.names[value].name for number, value in enumerate(values, 1) if value in self.names}

    def about(self, file: str, arrays: "List[Array]") -> "Dict[str, Any]":
        """Returns what the page says of the grid, as JSON holds it."""
        affine, known = world_of(self.grid), anatomy_of(self.grid)
        grid = self.grid
        made = {
            "name": self.name, "file": file, "kind": grid.kind, "count": grid.count, "bounds": grid.bounds, "low": self.low.tolist(),
            "high": self.high.tolist(), "origin": self.origin.tolist(), "at": [sum(ends) // 2 for ends in zip(*grid.bounds or ())],
            "spacing": np.linalg.norm(affine[:, :3], axis=0).tolist(), "labels": len(self.labels.values),
            "listed": min(LISTED, len(self.labels.values)),
            "panes": [pane._asdict() for pane in panes_of(known)], "ends": [] if known is None else ends_of(known), "names": self.named(),
            "unit": grid.metadata.get("image_units", "").partition(",")[0],
            "world": affine[:, :3].tolist(), "inverse": np.linalg.inv(affine[:, :3]).tolist(),
            "mirrored": bool(np.linalg.det(affine[:, :3]) < 0),
            "arrays": [[it.name, f"{it.dtype.kind}{it.dtype.itemsize}", it.length] for it in arrays], "groups": self.groups,
        }  # fmt: skip
        if ROWS[0] in grid.metadata or known is not None:
            made["affine"] = affine.tolist()
        if self.gray:
            step, shape, _ = self.gray.coarse(MOST_GRAY)
            made["gray"] = {"file": os.path.basename(self.gray.path), "low": np.subtract(self.gray.low, self.origin).tolist(), "shape": shape,
                            "step": step, "window": self.gray.window}  # fmt: skip
        return made

    def write(self, out: BinaryIO, file: str) -> None:
        """Writes the page. `file` is the name of the scene file, for the reader."""
        folder = files(__package__)
        arrays = self.arrays()
        about = json.dumps(self.about(file, arrays), separators=(",", ":")).replace("<", "\\u003c")
        script = "".join((folder / name).read_text(encoding="utf-8") for name in ("page.js", "faces.js"))
        head, tail = (folder / "page.html").read_text(encoding="utf-8").split("@DATA@")
        head = head.replace("@TITLE@", html.escape(f"{self.name} \u2013 {file}")).replace("@ABOUT@", about)
        out.write(head.encode())
        for piece in coded(compressed(arrays)):
            out.write(piece)
        out.write(tail.replace("@SCRIPT@", script).encode())


def compressed(arrays: "List[Array]") -> "Iterator[bytes]":
    """Yields the bytes of arrays, little endian, deflated."""
    deflate = zlib.compressobj()
    for it in arrays:
        for part in it.parts:
            yield deflate.compress(part.astype(it.dtype.newbyteorder("<"), copy=False).tobytes())
    yield deflate.flush()


def coded(pieces: "Iterator[bytes]") -> "Iterator[bytes]":
    """Yields bytes in base 64."""
    rest = b""
    for piece in pieces:
        rest += piece
        cut = len(rest) // 3 * 3
        yield base64.b64encode(rest[:cut])
        rest = rest[cut:]
    yield base64.b64encode(rest)
