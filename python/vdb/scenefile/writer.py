# SPDX-License-Identifier: Apache-2.0
"""Writes scene files of version 2: the bytes that `vdb --save` writes for the same scene.

A file is its skeleton, all bytes but those of the voxels in leaves, and the voxels of each leaf behind that leaf's head.
"""
from __future__ import annotations

import struct
from typing import Iterator, Mapping

import numpy as np

from ..forms import Kind
from .tree import Leaves, Tree

KEY_SIZE = 12
#: Of the tag of a node and how many entries it lists.
HEAD_SIZE = 3
INDEX_SIZE = 2


def scene_head(grids: int) -> bytes:
    """Returns the first eight bytes of a scene."""
    return b"VDBS" + struct.pack(">HH", 2, grids)


def grid_head(name: str, tree: Tree, limit: int, metadata: Mapping[str, str]) -> bytes:
    """Returns the fields of a grid before its first root block."""
    parts = [bytes([len(name)]), name.encode(), bytes([tree.kind.number]), tree.kind.pack(tree.background)]
    parts += [struct.pack(">IB", limit, len(metadata))]
    for pair in metadata.items():
        parts += [bytes([len(part)]) + part.encode() for part in pair]
    return b"".join([*parts, struct.pack(">I", len(tree.roots))])


class Body:
    """The root blocks of a grid as bytes."""

    def __init__(self, tree: Tree) -> None:
        self.tree = tree
        leaves, tiles = tree.leaves, tree.tiles
        below = np.concatenate([leaves.codes, tiles[0].codes])
        self.lowers, self.lower_counts = np.unique(below >> 12, return_counts=True)
        within = np.concatenate([self.lowers, tiles[1].codes])
        self.uppers, self.upper_counts = np.unique(within >> 15, return_counts=True)

    def length(self) -> int:
        """Returns how many bytes the root blocks have."""
        tree, value = self.tree, self.tree.kind.size
        heads = INDEX_SIZE + HEAD_SIZE
        found = len(self.uppers) * (KEY_SIZE + HEAD_SIZE) + len(tree.tiles[2]) * (KEY_SIZE + 1 + value)
        found += (len(self.lowers) + len(tree.leaves)) * heads
        found += (len(tree.tiles[0]) + len(tree.tiles[1])) * (INDEX_SIZE + 1 + value)
        return found + len(tree.leaves.index) * tree.kind.voxel.itemsize

    def skeleton(self) -> "tuple[bytes, np.ndarray]":
        """Returns the bytes of the root blocks but for voxels in leaves, and where in them the head of each leaf ends."""
        tree, value = self.tree, self.tree.kind.size
        leaves, tiles = tree.leaves, tree.tiles
        # a node sorts before its entries: the code of its first entry, doubled, against an odd one for a leaf or a tile
        groups = [
            (self.uppers << 28, KEY_SIZE + HEAD_SIZE),
            ((tiles[2].codes << 28) + 1, KEY_SIZE + 1 + value),
            (self.lowers << 13, INDEX_SIZE + HEAD_SIZE),
            ((tiles[1].codes << 13) + 1, INDEX_SIZE + 1 + value),
            ((leaves.codes << 1) + 1, INDEX_SIZE + HEAD_SIZE),
            ((tiles[0].codes << 1) + 1, INDEX_SIZE + 1 + value),
        ]
        # stable, so that an upper node, whose first entry may be its first lower node, comes before that one
        order = np.argsort(np.concatenate([codes for codes, _ in groups]), kind="stable")
        lengths = np.concatenate([np.full(len(codes), length, np.int64) for codes, length in groups])
        ends = np.cumsum(lengths[order])
        places = np.empty_like(ends)
        places[order] = ends - lengths[order]
        parts = np.split(places, np.cumsum([len(codes) for codes, _ in groups])[:-1])
        made = np.empty(int(ends[-1]) if len(ends) else 0, np.uint8)
        keys = tree.roots
        put_numbers(made, parts[0], keys[self.uppers], ">i4")
        put_head(made, parts[0] + KEY_SIZE, self.upper_counts)
        put_numbers(made, parts[1], keys[tiles[2].codes], ">i4")
        put_tile(made, parts[1] + KEY_SIZE, tree.kind, tiles[2])
        put_numbers(made, parts[2], self.lowers & 0x7FFF, ">u2")
        put_head(made, parts[2] + INDEX_SIZE, self.lower_counts)
        put_numbers(made, parts[3], tiles[1].codes & 0x7FFF, ">u2")
        put_tile(made, parts[3] + INDEX_SIZE, tree.kind, tiles[1])
        put_numbers(made, parts[4], leaves.codes & 0xFFF, ">u2")
        put_head(made, parts[4] + INDEX_SIZE, leaves.counts())
        put_numbers(made, parts[5], tiles[0].codes & 0xFFF, ">u2")
        put_tile(made, parts[5] + INDEX_SIZE, tree.kind, tiles[0])
        return made.tobytes(), parts[4] + INDEX_SIZE + HEAD_SIZE

    def pieces(self) -> Iterator[bytes]:
        """Yields the bytes of the root blocks, piece by piece."""
        skeleton, ends = self.skeleton()
        leaves, view, done = self.tree.leaves, memoryview(skeleton), 0
        size = self.tree.kind.voxel.itemsize
        for first, last in leaves.chunks():
            cuts = [done, *ends[first:last].tolist()]
            starts = ((leaves.starts[first : last + 1] - leaves.starts[first]) * size).tolist()
            voxels = packed(self.tree.kind, leaves, slice(leaves.starts[first], leaves.starts[last]))
            parts: "list[memoryview]" = [view] * (2 * (last - first))
            parts[0::2] = [view[a:b] for a, b in zip(cuts, cuts[1:])]
            parts[1::2] = [voxels[a:b] for a, b in zip(starts, starts[1:])]
            done = cuts[-1]
            yield b"".join(parts)
        yield skeleton[done:]


def packed(kind: Kind, leaves: Leaves, part: slice) -> memoryview:
    """Returns the fields of listed voxels."""
    record = np.empty(part.stop - part.start, kind.voxel)
    record["index"] = leaves.index[part]
    np.add(leaves.active[part], 1, out=record["tag"], dtype=np.uint8, casting="unsafe")
    record["value"] = leaves.values[part]
    return memoryview(record.view(np.uint8))  # type: ignore[arg-type]


def put_numbers(made: np.ndarray, places: np.ndarray, numbers: np.ndarray, dtype: str) -> None:
    """Writes numbers, or rows of them, at these places."""
    if len(places) == 0:
        return
    rows = np.ascontiguousarray(numbers, dtype).reshape(len(places), -1).view(np.uint8).reshape(len(places), -1)
    made[places[:, None] + np.arange(rows.shape[1])] = rows


def put_head(made: np.ndarray, places: np.ndarray, counts: np.ndarray) -> None:
    """Writes the tag of a node and its number of entries at each of these places."""
    made[places] = 3
    put_numbers(made, places + 1, counts, ">u2")


def put_tile(made: np.ndarray, places: np.ndarray, kind: Kind, tiles) -> None:
    """Writes the state and the value of a tile at each of these places."""
    made[places] = tiles.active + np.uint8(1)
    put_numbers(made, places + 1, tiles.values, kind.stored.str)
