# SPDX-License-Identifier: Apache-2.0
"""How planes of voxels are turned for the eye: as in radiology by the affine of a grid, or by the axes of its voxels without one."""
from __future__ import annotations

from typing import List, NamedTuple, Optional, Tuple

import numpy as np

#: The ends of the world's axes, which go to the right, to the front and up: those of lesser numbers and of greater ones.
ENDS = ("LR", "PA", "IS")
#: The planes of anatomy: the world's axis across each one, and those of its columns and rows.
PLANES = {"axial": (2, 0, 1), "coronal": (1, 0, 2), "sagittal": (0, 1, 2)}


class Pane(NamedTuple):
    """A view of planes: its name, the axis across them, those that go to the right and down, whether these run backwards, and the letters
    at the left, right, upper and lower edge."""

    name: str
    axis: int
    sides: Tuple[int, int]
    flips: Tuple[bool, bool] = (False, False)
    edges: str = ""

    def plane(self, array: np.ndarray) -> np.ndarray:
        """Returns an array of one voxel along the axis, with the axes x, y, z, as rows and columns."""
        rows = array.transpose(*self.sides[::-1], self.axis)[:, :, 0]
        return rows[:: -1 if self.flips[1] else 1, :: -1 if self.flips[0] else 1]


#: The planes by the axes of voxels.
VOXELS = (Pane("z", 2, (0, 1)), Pane("y", 1, (0, 2)), Pane("x", 0, (1, 2)))


def axes_of(affine: np.ndarray) -> "List[Tuple[int, bool]]":
    """Returns the axis of the world that is nearest to each axis of the voxels, and whether it runs the same way.

    Each axis of the world occurs once. An oblique or sheared affine is judged by the rotation that is nearest to it.
    """
    left, _, right = np.linalg.svd(affine[:, :3] / np.linalg.norm(affine[:, :3], axis=0))
    turned, found = left @ right, []
    nearness = np.abs(turned)
    for column in range(3):
        axis = int(nearness[:, column].argmax())
        nearness[axis] = -1
        found.append((axis, bool(turned[axis, column] > 0)))
    return found


def ends_of(affine: np.ndarray) -> "List[str]":
    """Returns the letters at the first and the last voxel along each axis."""
    return [ENDS[axis] if same else ENDS[axis][::-1] for axis, same in axes_of(affine)]


def proportions(affine: np.ndarray) -> np.ndarray:
    """Returns the lengths of a voxel along its axes, in proportion."""
    return np.linalg.norm(affine[:, :3] / np.abs(affine[:, :3]).max(), axis=0)


def panes_of(affine: "Optional[np.ndarray]") -> "List[Pane]":
    """Returns the three views of a grid with this affine (3 x 4).

    The left of a body is at the right, its front at the left or up, its head up. Without an affine, the axes of voxels go to the right, and
    down (y) or up (z).
    """
    if affine is None:
        return [pane._replace(flips=(False, pane.axis < 2)) for pane in VOXELS]
    axes = axes_of(affine)
    world = [next(voxel for voxel, (axis, _) in enumerate(axes) if axis == each) for each in range(3)]
    made = []
    for name, (through, *sides) in PLANES.items():
        edges = "".join(ENDS[side][::-1] for side in sides)
        across, down = (world[side] for side in sides)
        made.append(Pane(name, world[through], (across, down), (axes[across][1], axes[down][1]), edges))
    return made
