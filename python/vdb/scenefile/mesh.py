# SPDX-License-Identifier: Apache-2.0
"""Meshes of the faces of labels: rectangles with shared corners, and larger rectangles in place of many in a plane."""
from __future__ import annotations

from typing import Iterable, NamedTuple

import numpy as np

from .faces import Faces


class Mesh(NamedTuple):
    """Rectangles with shared corners, label by label: corners (m x 3, int64), four numbers of corners for each rectangle (n x 4, int64),
    labels (n, int32).

    A corner has the coordinates of the voxel of which it is the least one. Seen from outside its label, a rectangle runs anticlockwise.
    """

    corners: np.ndarray
    quads: np.ndarray
    label: np.ndarray

    @property
    def triangles(self) -> np.ndarray:
        """The rectangles as two triangles each (2 n x 3, int64)."""
        return self.quads[:, [0, 1, 2, 0, 2, 3]].reshape(-1, 3)


def corner_steps() -> np.ndarray:
    """Returns by how many sides a corner lies past the least one (directions x corners x sides x axes, 6 x 4 x 2 x 3)."""
    made = np.zeros((6, 4, 2, 3), np.int64)
    for direction in range(6):
        around = [(0, 0), (1, 0), (1, 1), (0, 1)]
        for corner, (u, v) in enumerate(around if direction & 1 else around[::-1]):
            made[direction, corner, 0, (direction // 2 + 1) % 3] = u
            made[direction, corner, 1, (direction // 2 + 2) % 3] = v
    return made


CORNERS = corner_steps()


def mesh_of(faces: Faces) -> Mesh:
    """Returns the mesh of faces. Rectangles of one voxel make a closed surface for each label: each edge is in as many triangles of a label
    in one sense as in the other."""
    if not len(faces.low):
        return Mesh(faces.low, np.zeros((0, 4), np.int64), faces.label)
    order = np.argsort(faces.label, kind="stable")
    low, sides, direction = faces.low[order], faces.sides[order], faces.direction[order]

    def column(axis: int) -> np.ndarray:
        steps = CORNERS[direction, :, :, axis]
        return (low[:, axis, None] + steps[:, :, 0] * sides[:, :1] + steps[:, :, 1] * sides[:, 1:]).ravel()

    _, first, number = np.unique(packed(map(column, range(3))), return_index=True, return_inverse=True)
    steps = CORNERS[direction[first // 4], first % 4]
    corners = low[first // 4] + (steps * sides[first // 4, :, None]).sum(axis=1)
    return Mesh(corners, number.reshape(-1, 4), faces.label[order])


def merged(faces: Faces) -> Faces:
    """Returns larger rectangles with the same area: neighbours in a plane are joined, first those of one row, then equal rows.

    Corners of one rectangle may lie on the side of another, so area and volume are those of the faces, but edges aren't shared.
    """
    for along in (1, 0):
        if len(faces.low):
            faces = joined(faces, along)
    return faces


def joined(faces: Faces, along: int) -> Faces:
    """Returns rectangles joined to the next ones along a side, 0 or 1, if they are as wide."""
    low, sides, direction, label = faces
    rows, axis = np.arange(len(low)), direction // 2
    at = [low[rows, (axis + side + 1) % 3] for side in (0, 1)]
    group = packed([label, direction, low[rows, axis], at[1 - along], sides[:, 1 - along]])
    order = np.argsort(packed([group, at[along]]))
    group, begin = group[order], at[along][order]
    end = begin + sides[order, along]
    is_first = np.ones(len(order), np.bool_)
    is_first[1:] = (group[1:] != group[:-1]) | (begin[1:] != end[:-1])
    first = np.flatnonzero(is_first)
    kept = order[first]
    sides = sides[kept]
    sides[:, along] = end[np.append(first[1:], len(order)) - 1] - begin[first]
    return Faces(low[kept], sides, direction[kept], label[kept])


def packed(columns: "Iterable[np.ndarray]") -> np.ndarray:
    """Returns rows of integers, given as columns, as one integer each (int64): they are equal and rise as the rows do."""
    key, span = np.zeros(1, np.int64), 1
    for column in columns:
        low = int(column.min())
        width = int(column.max()) - low + 1
        if span * width > 2**63:
            key = np.unique(key, return_inverse=True)[1].astype(np.int64)
            span = int(key.max()) + 1
        key = key * width + (column.astype(np.int64) - low)
        span *= width
    return key
