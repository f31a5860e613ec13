# SPDX-License-Identifier: Apache-2.0
"""The image of a grid as an array that is read part by part, for dask, xarray and napari."""
from __future__ import annotations

import math
import operator
from typing import TYPE_CHECKING, Any, Sequence

import numpy as np

from .errors import DtypeError, OutsideError, RangeError
from .forms import check_bounds
from .images import Image

if TYPE_CHECKING:
    from .reading import Readable

__all__ = ["ImageView"]


class ImageView:
    """The image of a grid, or a box of it, as an array of the values with the axes x, y, z.

    An index is one of NumPy's basic ones, integers and slices that begin at 0, and reads only its part of the grid. The dtype is that of the
    image, if values convert to it, else that of the grid. A view shows what the grid holds when it is read.

    Examples
    --------
    >>> grid = vdb.Grid.from_array(np.arange(27).reshape(3, 3, 3), origin=(-1, 0, 0))
    >>> box = vdb.ImageView(grid, ((-1, 0, 0), (3, 2, 2)))
    >>> box.shape, box[0, 1].tolist(), box[::2, -1, 2].tolist()
    ((5, 3, 3), [3, 4, 5], [8, 26, 0])
    >>> np.asarray(box).sum() == np.arange(27).sum()
    True
    """

    ndim = 3

    def __init__(self, grid: "Readable", bounds: "Sequence[Sequence[int]] | None" = None) -> None:
        """Makes a view of the image of a grid, or of a box, which has two corners, both included. Raises RangeError if the grid has no image
        and no box is given."""
        image = Image.of(grid.metadata) if bounds is None else None
        if bounds is None and image is None:
            raise RangeError("the grid has no image: use vdb.ImageView(grid, bounds) for a box of it")
        self._grid, self.dtype = grid, grid.dtype
        if image:
            self._low, self.shape = image.low, image.shape
            self.dtype = dtype_of(image, grid.dtype)
        elif bounds is not None:
            self._low, high = check_bounds(bounds)
            self.shape = (high[0] - self._low[0] + 1, high[1] - self._low[1] + 1, high[2] - self._low[2] + 1)

    @property
    def size(self) -> int:
        """How many voxels the image has."""
        return math.prod(self.shape)

    def __len__(self) -> int:
        return self.shape[0]

    def __getitem__(self, key: Any) -> Any:
        """Returns the value of a voxel, or an array of the values of a part, as NumPy's basic indices do.

        Raises DtypeError for other indices, OutsideError, which is an IndexError, for an integer past the end, and RangeError for a value that
        the dtype doesn't hold.
        """
        parts = key if isinstance(key, tuple) else (key,)
        dots = [at for at, part in enumerate(parts) if part is Ellipsis]
        first = dots[0] if dots else len(parts)
        rest = parts[first + 1 :]
        if len(dots) > 1 or first + len(rest) > 3:
            raise OutsideError(f"an image has 3 axes, and the index {key!r} is of more")
        parts = (*parts[:first], *[slice(None)] * (3 - first - len(rest)), *rest)
        chosen = [self._axis(part, side) for part, side in zip(parts, self.shape)]
        low, high = zip(*((min(it) + at, max(it) + at) if it else (at, at - 1) for (it, _), at in zip(chosen, self._low)))
        if all(it for it, _ in chosen):
            made = self._grid.to_array((low, high), dtype=self.dtype)[0]
        else:
            made = np.empty([last - first + 1 for first, last in zip(low, high)], self.dtype)
        return made[tuple(step for _, step in chosen)]

    @staticmethod
    def _axis(part: Any, side: int) -> "tuple[range, Any]":
        """Returns the indices along an axis, and the index of the array of all from the least to the greatest one."""
        if isinstance(part, slice):
            chosen = range(side)[part]
            return chosen, slice(None, None, chosen.step)
        try:
            at = operator.index(part)
        except TypeError:
            at = None
        if at is None or isinstance(part, (bool, np.bool_)):
            raise DtypeError(f"an index of an image is integers and slices, not {part!r}: take others of np.asarray(image)")
        if not -side <= at < side:
            raise OutsideError(f"the index {at} is outside an axis of {side} voxels")
        return range(at % side, at % side + 1), 0

    def __array__(self, dtype: Any = None, copy: "bool | None" = None) -> np.ndarray:
        """Returns the values of the whole image, a new array. Raises ArrayTooLargeError for more than 2 GiB."""
        if copy is False:
            raise RangeError("an image of a grid can't be an array without a copy")
        return np.asarray(self[...], dtype)

    def __repr__(self) -> str:
        return f"<ImageView of {self._grid!r}, shape {self.shape}, dtype {self.dtype}>"


def dtype_of(image: Image, dtype: np.dtype) -> np.dtype:
    """Returns the dtype of an image for values of a dtype: the file's, if they convert to it, else their own."""
    return image.dtype if image.dtype.kind in "iu" or np.can_cast(dtype, image.dtype, "safe") else dtype
